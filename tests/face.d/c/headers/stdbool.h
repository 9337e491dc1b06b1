/* Of <stdbool.h> what is used here; README.md says why. */
#ifndef __cplusplus
#define bool _Bool
#define false 0
#define true 1
#endif
