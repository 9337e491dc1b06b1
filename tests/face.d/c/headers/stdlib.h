/* Of <stdlib.h> what is used here; README.md says why. */
#ifndef STDLIB_H
#define STDLIB_H

void exit(int status);

#endif
