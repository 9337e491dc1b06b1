/* The lengths of a rack's joints go onto a sheet strictly: all of them, or no sheet, and a message for each line that has no word.
 *
 *     cc examples/rack.c -Iinclude lib/libledusprig.a -o rack                       in an unpacked release
 *     cc examples/rack.c -Iinclude target/$(uname -m)/libledusprig.a -o rack       in the repository, after bindings/archive
 *     ./rack examples/rack.lengths lengths.sheet
 *     ./rack --list lengths.sheet
 *     ./rack examples/rack.lengths narrow.sheet 16
 *
 * A line of the text is a length in whole millimetres, or the word void for a joint that wasn't measured, which keeps its place on the sheet as NaR.
 * Lines that are empty or start with # are passed over. (Metres would not do: at no width has 10.431 a word.) */
#define _POSIX_C_SOURCE 200809L /* for access, fsync and link */
#include "ledusprig.h"

#include <errno.h>
#include <inttypes.h>
#include <stdio.h>
#include <stdlib.h>
#include <string.h>
#include <unistd.h>

enum { LINE_ROOM = 80 };

/* A sheet that is being written: its width, how many joints are on it, the number of its next block, and the words that will be in that. */
typedef struct sheet {
    FILE *file;
    uint32_t width, number;
    size_t joints, count;
    uint64_t words[TAKUM_BLOCK_WORDS];
} sheet;

/* Says what failed and why, if the system has said so; the status is 1. */
static int fails(const char *name, const char *what) {
    fprintf(stderr, "rack: %s %s%s%s\n", name, what, errno == 0 ? "" : ": ", errno == 0 ? "" : strerror(errno));
    return 1;
}

/* The whole number that a text of digits is; false if it is none, or one outside signed 64 bits. */
static bool is_whole(const char *text, int64_t *number) {
    char *end;
    errno = 0;
    *number = strtoll(text, &end, 10);
    bool is_one = *text >= '0' && *text <= '9' && *end == '\0' && errno == 0;
    errno = 0;
    return is_one;
}

/* The next line without the blanks at its ends; false where there is none. What has no room is cut, and then it ends with dots. */
static bool next_line(FILE *from, char line[LINE_ROOM]) {
    size_t length = 0, end = 0;
    bool is_cut = false;
    int c = getc(from);
    if (c == EOF) {
        return false;
    }
    for (; c != EOF && c != '\n'; c = getc(from)) {
        bool is_blank = c == ' ' || c == '\t' || c == '\r';
        if (length < LINE_ROOM - 4 && (!is_blank || end > 0)) {
            line[length++] = c < ' ' && !is_blank ? '?' : (char)c;
            end = is_blank ? end : length;
        } else {
            is_cut = is_cut || !is_blank;
        }
    }
    strcpy(line + end, is_cut ? "..." : "");
    return !ferror(from);
}

/* Which way a length goes that has no word. */
static const char *way_of(uint32_t saying) {
    return saying == TAKUM_ABOVE ? "up" : saying == TAKUM_BELOW ? "down" : "past the end";
}

/* The word of a line; false, and said why, where it has none. */
static bool has_word(const char *line, size_t line_number, uint32_t width, uint64_t *word) {
    int64_t length;
    if (strcmp(line, "void") == 0) {
        takum_word_answer nar = takum_nar(width);
        *word = nar.word;
        return nar.refusal == TAKUM_OK; /* always so: the width was tried */
    }
    if (!is_whole(line, &length)) {
        fprintf(stderr, "rack: line %zu is not written: '%s' is no whole number of millimetres in 64 bits, as 10431, and not void\n", line_number,
                line);
        return false;
    }
    takum_saying_answer got = takum_write_whole(width, TAKUM_STRICT, length);
    *word = got.word;
    if (got.refusal == TAKUM_OK) {
        return true;
    }
    fprintf(stderr, "rack: line %zu is not written: %" PRId64 " is refused with %" PRIu32 " (%s) at %" PRIu32 " bits", line_number, length,
            got.refusal, takum_refusal_name(got.refusal), width);
    takum_saying_answer rounded = takum_write_whole(width, TAKUM_ROUNDED, length);
    takum_whole_answer misread = takum_take_whole(width, TAKUM_NEAREST, rounded.word);
    if (rounded.refusal == TAKUM_OK && misread.refusal == TAKUM_OK) {
        fprintf(stderr, "; rounded it would go %s and be read as %" PRId64, way_of(rounded.saying), misread.whole);
    }
    fputc('\n', stderr);
    return false;
}

/* The words become the sheet's next block. */
static bool put_block(sheet *to) {
    uint8_t block[TAKUM_BLOCK_SIZE] = {0};
    takum_written_answer got = takum_write_block(to->width, to->number, to->words, to->count, block, sizeof block);
    if (got.refusal != TAKUM_OK) { /* never so: the library gave the words, and the width was tried */
        fprintf(stderr, "rack: block %" PRIu32 " is refused with %" PRIu32 " (%s)\n", to->number, got.refusal, takum_refusal_name(got.refusal));
        return false;
    }
    if (to->number == UINT32_MAX) { /* the next block would have no number */
        errno = EFBIG;
        return false;
    }
    to->number++;
    to->joints += to->count;
    to->count = 0;
    return fwrite(block, sizeof block, 1, to->file) == 1;
}

/* The joints of a text go onto the sheet. All lines are read, so that each that has no word is told. */
static bool put_joints(FILE *from, sheet *to) {
    char line[LINE_ROOM];
    size_t refused = 0, room = TAKUM_BLOCK_WORDS * 8 / to->width;
    for (size_t line_number = 1; next_line(from, line); line_number++) {
        if (line[0] == '\0' || line[0] == '#') {
            continue;
        }
        if (to->count == room && !put_block(to)) {
            return false;
        }
        if (has_word(line, line_number, to->width, &to->words[to->count])) {
            to->count++;
        } else {
            refused++;
        }
    }
    if (ferror(from)) {
        fails("the text", "can't be read to its end");
    } else if (refused > 0) {
        fprintf(stderr, "rack: %zu of the text's %zu joints can't be written\n", refused, to->joints + to->count + refused);
    } else if (to->count == 0) {
        fprintf(stderr, "rack: the text has no joints\n");
    } else {
        return put_block(to) && fflush(to->file) == 0 && fsync(fileno(to->file)) == 0;
    }
    errno = 0;
    return false;
}

/* The sheet gets its name when it is whole and saved. Until then the name ends with .part, and where something fails nothing is left of it, unless the
 * program is stopped; such a part may be removed. No file that is there already is written over: a link to a name that is taken fails. */
static int write_sheet(const char *lengths, const char *name, uint32_t width) {
    sheet to = {NULL, width, 1, 0, 0, {0}};
    errno = 0;
    if (access(name, F_OK) == 0) {
        return fails(name, "is there already, and stays as it is");
    }
    FILE *from = fopen(lengths, "r");
    if (from == NULL) {
        return fails(lengths, "can't be read");
    }
    char *part = malloc(strlen(name) + sizeof ".part");
    to.file = part == NULL ? NULL : fopen(strcat(strcpy(part, name), ".part"), "wbx");
    if (to.file == NULL) {
        return fails(part == NULL ? name : part, "can't be made");
    }
    errno = 0;
    bool is_saved = put_joints(from, &to) && link(part, name) == 0;
    int status = is_saved ? 0 : fails(name, "is not written");
    if (is_saved) {
        fprintf(stderr, "rack: %zu joints are on %s, at %" PRIu32 " bits\n", to.joints, name, width);
    }
    remove(part);
    fclose(to.file);
    free(part);
    fclose(from);
    return status;
}

/* Prints a sheet as the lister does. Where a block is refused, the status is 1. */
static int list_sheet(const char *name) {
    uint8_t block[TAKUM_BLOCK_SIZE];
    uint64_t words[TAKUM_BLOCK_WORDS] = {0};
    size_t size, place = 0;
    int status = 0;
    FILE *from = fopen(name, "rb");
    for (; from != NULL && (size = fread(block, 1, sizeof block, from)) > 0; place++) {
        takum_block_answer got = takum_read_block(block, size, words, TAKUM_BLOCK_WORDS);
        if (got.refusal != TAKUM_OK) {
            printf("block %zu refused %" PRIu32 "\n", place, got.refusal);
            fprintf(stderr, "rack: block %zu is refused with %" PRIu32 " (%s)\n", place, got.refusal, takum_refusal_name(got.refusal));
            status = 1;
        }
        for (uint32_t i = 0; i < got.count; i++) {
            takum_whole_answer whole = takum_take_whole(got.width, TAKUM_NEAREST, words[i]);
            printf("%" PRIu32 " %" PRIu32 " %0*" PRIx64 " ", got.number, i, (int)(got.width / 4), words[i]);
            if (whole.refusal == TAKUM_OK) {
                printf("%" PRId64, whole.whole);
            } else {
                fputs(whole.refusal == TAKUM_NAR ? "nar" : "over", stdout);
            }
            printf(" %" PRIu32 "%s\n", takum_read(got.width, words[i]).own, got.width == 8 ? " old" : "");
        }
    }
    if (from == NULL || ferror(from)) {
        return fails(name, "can't be read");
    }
    fclose(from);
    return fflush(stdout) == 0 && !ferror(stdout) ? status : fails("the listing", "can't be written");
}

/* Why no block is written with this width, TAKUM_OK if one is: the library is asked, by a block without words. */
static uint32_t width_refusal(int64_t width) {
    uint8_t block[TAKUM_BLOCK_SIZE] = {0};
    uint64_t none = 0;
    return width > UINT32_MAX ? TAKUM_WIDTH : takum_write_block((uint32_t)width, 1, &none, 0, block, sizeof block).refusal;
}

int main(int argc, char **argv) {
    int64_t width = 32;
    if (argc == 3 && strcmp(argv[1], "--list") == 0) {
        return list_sheet(argv[2]);
    }
    bool is_called = (argc == 3 || (argc == 4 && is_whole(argv[3], &width))) && argv[1][0] != '-';
    uint32_t refusal = is_called ? width_refusal(width) : TAKUM_WIDTH;
    if (refusal != TAKUM_OK) {
        if (refusal == TAKUM_RETIRED) {
            fprintf(stderr, "rack: sheets of %" PRId64 " bits are still listed, but no longer made\n", width);
        }
        fputs("usage: rack LENGTHS SHEET [WIDTH]   put the lengths of a text onto a new sheet, as words of WIDTH bits: 16, 32 (the usual) or 64\n"
              "       rack --list SHEET            print what is on a sheet\n",
              stderr);
        return 2;
    }
    return write_sheet(argv[1], argv[2], (uint32_t)width);
}
