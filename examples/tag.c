/* A tally goes onto a 16-bit tag strictly: its word, or a clear message and no word.
 *
 *     cc examples/tag.c -Iinclude lib/libledusprig.a -o tag                       in an unpacked release
 *     cc examples/tag.c -Iinclude target/$(uname -m)/libledusprig.a -o tag       in the repository, after bindings/archive
 *     ./tag 514
 *     ./tag 515
 */
#include "ledusprig.h"

#include <errno.h>
#include <inttypes.h>
#include <stdio.h>
#include <stdlib.h>

enum { TAG_WIDTH = 16 };

/* The whole number that a text is; false if it is none, or one outside 64 bits. */
static bool is_whole(const char *text, int64_t *tally) {
    char *end;
    errno = 0;
    *tally = strtoll(text, &end, 10);
    return end != text && *end == '\0' && errno == 0;
}

/* Which way a tally goes that has no word. */
static const char *way_of(uint32_t saying) {
    return saying == TAKUM_ABOVE ? "up" : saying == TAKUM_BELOW ? "down" : "past the end";
}

/* How wide a tag the tally needs: 515 needs one of 17 bits. */
static void say_needed(int64_t tally) {
    takum_width_answer needed = takum_shortest_width(tally);
    if (needed.refusal == TAKUM_OK) {
        fprintf(stderr, "tag: it needs a tag of %" PRIu32 " bits\n", needed.width);
    } else {
        fprintf(stderr, "tag: no tag of up to %d bits has a word for it\n", TAKUM_GREATEST_WIDTH);
    }
}

/* Why the tag stays empty, and what a tag by the rounded rule would have said instead: 515 would have gone up, to 516. */
static void say_refused(int64_t tally, uint32_t refusal) {
    fprintf(stderr, "tag: %" PRId64 " is refused with %" PRIu32 " (%s), and nothing goes onto the tag\n", tally, refusal, takum_refusal_name(refusal));
    takum_saying_answer rounded = takum_write_whole(TAG_WIDTH, TAKUM_ROUNDED, tally);
    takum_whole_answer misread = takum_take_whole(TAG_WIDTH, TAKUM_TAKE_STRICT, rounded.word);
    takum_limit_answer limit = takum_limit(TAG_WIDTH);
    if (rounded.refusal == TAKUM_OK && misread.refusal == TAKUM_OK && limit.refusal == TAKUM_OK) {
        fprintf(stderr, "tag: rounded it would go %s and be read as %" PRId64 "; at %d bits every whole number up to %" PRIu64 " has a word\n",
                way_of(rounded.saying), misread.whole, TAG_WIDTH, limit.limit);
    }
    say_needed(tally);
}

int main(int argc, char **argv) {
    int64_t tally;
    if (argc != 2 || !is_whole(argv[1], &tally)) {
        fprintf(stderr, "usage: tag TALLY, a whole number of at most 64 bits with its sign\n");
        return 2;
    }
    takum_saying_answer tag = takum_write_whole(TAG_WIDTH, TAKUM_STRICT, tally);
    if (tag.refusal != TAKUM_OK) {
        say_refused(tally, tag.refusal);
        return 1;
    }
    printf("%" PRId64 " goes onto the tag as %04" PRIx64 "\n", tally, tag.word);
    return 0;
}
