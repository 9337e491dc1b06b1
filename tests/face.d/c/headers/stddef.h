/* Of <stddef.h> what is used here; README.md says why. */
#ifndef STDDEF_H
#define STDDEF_H

#define NULL ((void *)0)
typedef __SIZE_TYPE__ size_t;

#endif
