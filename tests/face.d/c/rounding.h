/* The floating-point state in which a call is made: its rounding mode, which it must not heed, and exception flags, which it must not raise. */
#ifndef ROUNDING_H
#define ROUNDING_H

#include "text.h"

/* The rounding modes. */
enum { MODES = 4 };
extern const char *const modes[MODES];

/* Sets the mode, all flags lowered. */
void set_mode(unsigned mode);

/* Sets the mode to nearest again, and puts what the calls since `set_mode` have changed: flags that were raised, or another mode. */
void put_state(answer *to, unsigned mode);

/* Lowers the flag INVALID, which a call may raise that was given a signalling NaN. */
void lower_invalid(void);

#endif
