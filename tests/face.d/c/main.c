/* Makes the calls of the cases on standard input through include/ledusprig.h and compares the answers; tests/face.d/README.md says what a case is. */
#include "calls.h"
#include "rounding.h"

#include <stdio.h>
#include <string.h>

static struct {
    const char *name;
    call *make;
    unsigned long made;
} calls[] = {
    {"constant", of_constant, 0},
    {"largest", of_largest, 0},
    {"smallest", of_smallest, 0},
    {"nar", of_nar, 0},
    {"limit", of_limit, 0},
    {"read", of_read, 0},
    {"compare", of_compare, 0},
    {"negate", of_negate, 0},
    {"write", of_write, 0},
    {"move", of_move, 0},
    {"write_whole", of_write_whole, 0},
    {"take_whole", of_take_whole, 0},
    {"shortest_width", of_shortest_width, 0},
    {"write_binary64", of_write_binary64, 0},
    {"take_binary64", of_take_binary64, 0},
    {"move_column", of_move_column, 0},
    {"read_block", of_read_block, 0},
    {"write_block", of_write_block, 0},
};

/* How many failures are shown; the others are only counted. */
enum { CALLS = sizeof calls / sizeof calls[0], MOST_SHOWN = 20 };

static unsigned long passed, failed;

/* The rounding mode of the next case, and whether it goes on to another with each. */
static unsigned mode;
static bool in_turn;

static void take_mode(given *from) {
    in_turn = take(from, "in turn");
    for (mode = 0; !in_turn && !take(from, modes[mode]); mode++) {
        if (mode + 1 == MODES) {
            stop("there is no such mode", from->rest);
        }
    }
}

/* The call of that name, by its place. */
static size_t place_of(const char *name) {
    size_t place = 0;
    while (strcmp(calls[place].name, name) != 0) {
        if (++place == CALLS) {
            stop("there is no such call", name);
        }
    }
    return place;
}

static void try(char *line) {
    static answer got;
    char *space = strchr(line, ' ');
    char *equals = strstr(line, " = ");
    if (equals == NULL || space == equals) {
        stop("it has no answer, or is given nothing", line);
    }
    *space = '\0';
    *equals = '\0';
    given from = {space + 1};
    const char *expected = equals + 3;
    size_t place = place_of(line);

    got.length = 0;
    set_mode(mode);
    calls[place].make(&from, &got);
    put_state(&got, mode);
    if (*from.rest != '\0') {
        stop("more than the call is given", from.rest);
    }
    calls[place].made++;
    if (is_expected(got.text, expected)) {
        passed++;
    } else if (++failed <= MOST_SHOWN) {
        printf("from C, rounding %s: %s %s answers: %s; expected: %s\n", modes[mode], line, space + 1, got.text, expected);
    }
    mode = in_turn ? (mode + 1) % MODES : mode;
}

int main(void) {
    static char line[16384];
    while (fgets(line, sizeof line, stdin) != NULL) {
        char *end = strchr(line, '\n');
        if (end == NULL) {
            stop("its line is too long", line);
        }
        *end = '\0';
        given from = {line};
        if (take(&from, "rounding")) {
            take_mode(&from);
        } else if (line[0] != '\0' && line[0] != '#') {
            try(line);
        }
    }
    for (size_t i = 0; i < CALLS; i++) {
        if (calls[i].made == 0) {
            failed++;
            printf("from C: %s was never called\n", calls[i].name);
        }
    }
    printf("from C: %lu checks passed, %lu failed\n", passed, failed);
    return failed == 0 ? 0 : 1;
}
