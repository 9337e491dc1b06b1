/* The calls of one word, with every field of their answers. */
#include "calls.h"

#include "rounding.h"

#include <string.h>

bool put_refusal(answer *to, uint32_t refusal, bool rest_is_zero) {
    if (refusal == TAKUM_OK) {
        return false;
    }
    put_number(to, "refused ", refusal);
    put(to, " ");
    put(to, takum_refusal_name(refusal));
    if (!rest_is_zero) {
        put(to, " beside fields that are not zero");
    }
    return true;
}

static void put_word(answer *to, takum_word_answer got) {
    if (!put_refusal(to, got.refusal, got.word == 0)) {
        put_hex(to, "word ", got.word);
    }
}

static void put_saying(answer *to, takum_saying_answer got) {
    if (!put_refusal(to, got.refusal, got.saying == 0 && got.word == 0)) {
        put_hex(to, "word ", got.word);
        put_lower(to, " ", takum_saying_name(got.saying));
    }
}

/* The header says that every number but 0 is strict, so each strict call takes another one. */
static unsigned strict_in_turn(void) {
    static const unsigned numbers[] = {TAKUM_STRICT, TAKUM_TAKE_STRICT, 2, 0x100, 0x80000000, 0xffffffff};
    static size_t next;
    return numbers[next++ % (sizeof numbers / sizeof numbers[0])];
}

takum_rule take_rule(given *from) {
    return take_choice(from, "rounded", "strict") ? (takum_rule)strict_in_turn() : TAKUM_ROUNDED;
}

static uint64_t pattern_of(double number) {
    uint64_t pattern;
    memcpy(&pattern, &number, sizeof pattern);
    return pattern;
}

static double number_of(uint64_t pattern) {
    double number;
    memcpy(&number, &pattern, sizeof number);
    return number;
}

void of_constant(given *from, answer *to) {
    static const struct {
        const char *name;
        uint64_t value;
    } constants[] = {
        {"LEAST_WIDTH", TAKUM_LEAST_WIDTH},
        {"GREATEST_WIDTH", TAKUM_GREATEST_WIDTH},
        {"BLOCK_SIZE", TAKUM_BLOCK_SIZE},
        {"BLOCK_WORDS", TAKUM_BLOCK_WORDS},
        {"EXACT", TAKUM_EXACT},
        {"BELOW", TAKUM_BELOW},
        {"ABOVE", TAKUM_ABOVE},
        {"PAST_THE_END", TAKUM_PAST_THE_END},
    };
    for (size_t i = 0; i < sizeof constants / sizeof constants[0]; i++) {
        if (take(from, constants[i].name)) {
            put_number(to, "", constants[i].value);
            return;
        }
    }
    stop("there is no such constant", from->rest);
}

void of_largest(given *from, answer *to) {
    put_word(to, takum_largest(take_width(from)));
}

void of_smallest(given *from, answer *to) {
    put_word(to, takum_smallest(take_width(from)));
}

void of_nar(given *from, answer *to) {
    put_word(to, takum_nar(take_width(from)));
}

void of_limit(given *from, answer *to) {
    takum_limit_answer got = takum_limit(take_width(from));
    if (!put_refusal(to, got.refusal, got.limit == 0)) {
        put_number(to, "limit ", got.limit);
    }
}

void of_read(given *from, answer *to) {
    uint32_t n = take_width(from);
    takum_reading_answer got = takum_read(n, take_number(from));
    bool parts_are_zero = !got.negative && got.h == 0 && got.m == 0 && got.p == 0;
    if (put_refusal(to, got.refusal, parts_are_zero && got.kind == 0 && got.own == 0)) {
        return;
    }
    if (got.kind == TAKUM_KIND_NUMBER) {
        put_signed(to, got.negative ? "number minus " : "number plus ", got.h);
        put_number(to, " ", got.m);
        put_number(to, " ", got.p);
    } else if (got.kind == TAKUM_KIND_ZERO || got.kind == TAKUM_KIND_NAR) {
        put(to, got.kind == TAKUM_KIND_NAR ? "nar" : "zero");
        put(to, parts_are_zero ? "" : " beside fields that are not zero");
    } else {
        put_number(to, "kind ", got.kind);
    }
    put_number(to, " ", got.own);
}

void of_compare(given *from, answer *to) {
    uint32_t n = take_width(from);
    uint64_t x = take_number(from);
    takum_order_answer got = takum_compare(n, x, take_number(from));
    if (!put_refusal(to, got.refusal, got.order == 0)) {
        put_signed(to, "order ", got.order);
    }
}

void of_negate(given *from, answer *to) {
    uint32_t n = take_width(from);
    put_word(to, takum_negate(n, take_number(from)));
}

void of_write(given *from, answer *to) {
    uint32_t n = take_width(from);
    takum_rule rule = take_rule(from);
    bool negative = take_choice(from, "plus", "minus");
    uint64_t m = take_number(from);
    put_saying(to, takum_write(n, rule, negative, m, (int32_t)take_signed(from)));
}

void of_move(given *from, answer *to) {
    uint32_t source = take_width(from);
    uint32_t target = take_width(from);
    takum_rule rule = take_rule(from);
    put_saying(to, takum_move(source, target, rule, take_number(from)));
}

void of_write_whole(given *from, answer *to) {
    uint32_t n = take_width(from);
    takum_rule rule = take_rule(from);
    put_saying(to, takum_write_whole(n, rule, take_signed(from)));
}

void of_take_whole(given *from, answer *to) {
    uint32_t n = take_width(from);
    takum_taking taking = take_choice(from, "nearest", "strict") ? (takum_taking)strict_in_turn() : TAKUM_NEAREST;
    takum_whole_answer got = takum_take_whole(n, taking, take_number(from));
    if (!put_refusal(to, got.refusal, got.whole == 0)) {
        put_signed(to, "whole ", got.whole);
    }
}

void of_shortest_width(given *from, answer *to) {
    takum_width_answer got = takum_shortest_width(take_signed(from));
    if (!put_refusal(to, got.refusal, got.width == 0)) {
        put_number(to, "width ", got.width);
    }
}

static bool is_nan(uint64_t pattern) {
    return (pattern & 0x7fffffffffffffff) > 0x7ff0000000000000;
}

/* A NaN whose highest fraction bit is 0. */
static bool is_signalling(uint64_t pattern) {
    return is_nan(pattern) && !(pattern & 0x0008000000000000);
}

void of_write_binary64(given *from, answer *to) {
    uint32_t n = take_width(from);
    takum_rule rule = take_rule(from);
    uint64_t pattern = take_number(from);
    put_saying(to, takum_write_binary64(n, rule, number_of(pattern)));
    if (is_signalling(pattern)) {
        lower_invalid();
    }
}

void of_take_binary64(given *from, answer *to) {
    uint32_t n = take_width(from);
    takum_number_answer got = takum_take_binary64(n, take_number(from));
    uint64_t pattern = pattern_of(got.number);
    if (put_refusal(to, got.refusal, !got.real && pattern == 0)) {
        return;
    }
    if (got.real) {
        put_hex(to, "number ", pattern);
    } else {
        put(to, is_nan(pattern) && !is_signalling(pattern) ? "nar" : "nar beside a number that is no quiet NaN");
    }
}
