/* The text of a case, taken apart and put together. */
#include "text.h"

#include <stdio.h>
#include <stdlib.h>
#include <string.h>

void stop(const char *why, const char *text) {
    printf("from C: a case can't be understood, %s: %s\n", why, text);
    exit(1);
}

static void pass_space(given *from) {
    if (*from->rest == ' ') {
        from->rest++;
    } else if (*from->rest != '\0') {
        stop("no space where one should be", from->rest);
    }
}

bool take(given *from, const char *word) {
    size_t length = strlen(word);
    if (strncmp(from->rest, word, length) != 0 || (from->rest[length] != ' ' && from->rest[length] != '\0')) {
        return false;
    }
    from->rest += length;
    pass_space(from);
    return true;
}

bool take_choice(given *from, const char *no, const char *yes) {
    if (take(from, yes)) {
        return true;
    }
    if (!take(from, no)) {
        stop("no such choice", from->rest);
    }
    return false;
}

/* The digit at a place; where there is none, a number that no base has. */
static unsigned digit_at(const char *place) {
    if (*place >= '0' && *place <= '9') {
        return (unsigned)(*place - '0');
    }
    return *place >= 'a' && *place <= 'f' ? 10 + (unsigned)(*place - 'a') : 99;
}

/* A number, and what comes after it left where it is. */
static uint64_t number_at(given *from) {
    unsigned base = 10;
    if (from->rest[0] == '0' && from->rest[1] == 'x') {
        base = 16;
        from->rest += 2;
    }
    if (digit_at(from->rest) >= base) {
        stop("no number", from->rest);
    }
    uint64_t number = 0;
    for (; digit_at(from->rest) < base; from->rest++) {
        number = number * base + digit_at(from->rest);
    }
    return number;
}

uint64_t take_number(given *from) {
    uint64_t number = number_at(from);
    pass_space(from);
    return number;
}

int64_t take_signed(given *from) {
    bool negative = *from->rest == '-';
    if (negative) {
        from->rest++;
    }
    uint64_t size = take_number(from);
    if (!negative) {
        return (int64_t)size;
    }
    return size == 0 ? 0 : -1 - (int64_t)(size - 1);
}

uint32_t take_width(given *from) {
    return (uint32_t)take_number(from);
}

size_t take_room(given *from) {
    if (!take(from, "room")) {
        stop("no room", from->rest);
    }
    return take_number(from);
}

size_t take_size(given *from) {
    if (!take(from, "size")) {
        stop("no size", from->rest);
    }
    return take_number(from);
}

/* How often the piece before stands there: N where `*N` follows it, or once. */
static size_t times_at(given *from) {
    if (*from->rest != '*') {
        return 1;
    }
    from->rest++;
    return number_at(from);
}

size_t take_words(given *from, uint64_t *words, size_t most) {
    if (take(from, "-")) {
        return 0;
    }
    size_t count = 0;
    for (;;) {
        uint64_t word = number_at(from);
        size_t times = times_at(from);
        if (times == 0 || times > most - count) {
            stop("too many words", from->rest);
        }
        for (size_t end = count + times; count < end; count++) {
            words[count] = word;
        }
        if (*from->rest != ',') {
            pass_space(from);
            return count;
        }
        from->rest++;
    }
}

size_t take_bytes(given *from, uint8_t *bytes, size_t most) {
    if (take(from, "-")) {
        return 0;
    }
    size_t count = 0;
    for (;;) {
        size_t start = count;
        for (; digit_at(from->rest) < 16 && digit_at(from->rest + 1) < 16; from->rest += 2) {
            if (count == most) {
                stop("too many bytes", from->rest);
            }
            bytes[count++] = (uint8_t)(16 * digit_at(from->rest) + digit_at(from->rest + 1));
        }
        size_t piece = count - start;
        size_t times = times_at(from);
        if (times == 0 || piece * times > most - start) {
            stop("no such repeat", from->rest);
        }
        for (; count < start + piece * times; count++) {
            bytes[count] = bytes[count - piece];
        }
        if (*from->rest != ',') {
            pass_space(from);
            return count;
        }
        from->rest++;
    }
}

void put(answer *to, const char *text) {
    size_t length = strlen(text);
    if (length >= sizeof to->text - to->length) {
        stop("its answer is too long", text);
    }
    memcpy(to->text + to->length, text, length + 1);
    to->length += length;
}

void put_lower(answer *to, const char *before, const char *name) {
    put(to, before);
    for (; *name != '\0'; name++) {
        char letter[] = {(char)(*name >= 'A' && *name <= 'Z' ? *name - 'A' + 'a' : *name), '\0'};
        put(to, letter);
    }
}

enum { MOST_DIGITS = 20 };

static void put_digits(answer *to, uint64_t number, unsigned base) {
    char digits[MOST_DIGITS + 1];
    char *place = digits + MOST_DIGITS;
    *place = '\0';
    do {
        *--place = "0123456789abcdef"[number % base];
        number /= base;
    } while (number != 0);
    put(to, place);
}

void put_number(answer *to, const char *before, uint64_t number) {
    put(to, before);
    put_digits(to, number, 10);
}

void put_signed(answer *to, const char *before, int64_t number) {
    put(to, before);
    put_number(to, number < 0 ? "-" : "", number < 0 ? 0 - (uint64_t)number : (uint64_t)number);
}

void put_hex(answer *to, const char *before, uint64_t number) {
    put(to, before);
    put(to, "0x");
    put_digits(to, number, 16);
}

void put_words(answer *to, const char *before, const uint64_t *words, size_t count) {
    put(to, before);
    if (count == 0) {
        put(to, "-");
    }
    for (size_t i = 0; i < count; i++) {
        put_hex(to, i == 0 ? "" : ",", words[i]);
    }
}

void put_bytes(answer *to, const char *before, const uint8_t *bytes, size_t count) {
    put(to, before);
    for (size_t i = 0; i < count; i++) {
        char digits[] = {"0123456789abcdef"[bytes[i] / 16], "0123456789abcdef"[bytes[i] % 16], '\0'};
        put(to, digits);
    }
}

bool is_expected(const char *text, const char *expected) {
    static uint8_t bytes[2048];
    static answer spelled;
    given from = {expected};
    if (!take(&from, "written")) {
        return strcmp(text, expected) == 0;
    }
    size_t count = take_bytes(&from, bytes, sizeof bytes);
    spelled.length = 0;
    put_bytes(&spelled, "written ", bytes, count);
    return *from.rest == '\0' && strcmp(text, spelled.text) == 0;
}
