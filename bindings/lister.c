/* What the lister asks of C beside the C library, for Arm; for x86-64 the kit has it, in libos_c.a. */
#include <errno.h>
#include <stddef.h>
#include <stdint.h>

#ifndef __GLIBC__
#error "the arguments are handed over by the GNU C library"
#endif

int rattle_errno(void);
void rattle_set_errno(int error);
intptr_t rattle_arg(size_t i, uint8_t *buffer, size_t length);

static size_t count;
static char **arguments;

/* The GNU C library hands every function that runs before main what main is handed. */
__attribute__((constructor)) static void keep_arguments(int given, char **handed) {
    count = (size_t)given;
    arguments = handed;
}

int rattle_errno(void) {
    return errno;
}

void rattle_set_errno(int error) {
    errno = error;
}

/* Puts argument i, the program's own name being 0, at the start of the buffer and answers its length; -1 where there is none, and -2 where it does not
   fit, and then the buffer is full. */
intptr_t rattle_arg(size_t i, uint8_t *buffer, size_t length) {
    size_t at = 0;
    if (i >= count || arguments[i] == NULL) {
        return -1;
    }
    for (; arguments[i][at] != '\0'; at++) {
        if (at == length) {
            return -2;
        }
        buffer[at] = (uint8_t)arguments[i][at];
    }
    return (intptr_t)at;
}
