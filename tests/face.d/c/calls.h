/* The calls of the library by their names in a case. */
#ifndef CALLS_H
#define CALLS_H

#include "ledusprig.h"
#include "text.h"

/* Takes what the call is given, makes it, and puts its answer. */
typedef void call(given *from, answer *to);

/* Those of one word, and the header's constants (calls.c). */
call of_constant, of_largest, of_smallest, of_nar, of_limit, of_read, of_compare, of_negate, of_write, of_move, of_write_whole, of_take_whole,
    of_shortest_width, of_write_binary64, of_take_binary64;

/* Those that are lent slices (lent.c). */
call of_move_column, of_read_block, of_write_block;

/* The rule of writing and moving. */
takum_rule take_rule(given *from);

/* Puts the refusal by its number and name, if there is one, and whether the rest of the answer is zero then, as it must be. */
bool put_refusal(answer *to, uint32_t refusal, bool rest_is_zero);

#endif
