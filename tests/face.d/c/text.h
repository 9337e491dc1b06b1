/* The text of a case: the parts of what a call is given are taken from the front, and its answer is put together. */
#ifndef TEXT_H
#define TEXT_H

#include <stdbool.h>
#include <stddef.h>
#include <stdint.h>

/* What is still to be taken. */
typedef struct given {
    const char *rest;
} given;

/* The next part, up to a space, if it is this word; if not, it stays. */
bool take(given *from, const char *word);

/* The next part: one of two words, or a number, decimal or in hex after 0x. A part that is none of them ends the program. */
bool take_choice(given *from, const char *no, const char *yes);
uint64_t take_number(given *from);
int64_t take_signed(given *from);
uint32_t take_width(given *from);
size_t take_room(given *from);
size_t take_size(given *from);

/* A row of words, each perhaps repeated, as 0x5a00,0x1*2 for 0x5a00,0x1,0x1; `-` where it is empty. The answer is their number. */
size_t take_words(given *from, uint64_t *words, size_t most);

/* The bytes of a block: pieces of hex digits, each piece perhaps repeated, as 5410,00*3 for 5410000000; `-` where there are none. */
size_t take_bytes(given *from, uint8_t *bytes, size_t most);

/* The answer, put together piece by piece. */
typedef struct answer {
    char text[16384];
    size_t length;
} answer;

void put(answer *to, const char *text);
void put_lower(answer *to, const char *before, const char *name); /* a name, in small letters */
void put_number(answer *to, const char *before, uint64_t number);
void put_signed(answer *to, const char *before, int64_t number);
void put_hex(answer *to, const char *before, uint64_t number);
void put_words(answer *to, const char *before, const uint64_t *words, size_t count);
void put_bytes(answer *to, const char *before, const uint8_t *bytes, size_t count);

/* Whether the text is the one that a case expects. There the bytes after `written` may be pieces; here each byte is spelled out. */
bool is_expected(const char *text, const char *expected);

/* Ends the program: the case can't be understood. */
void stop(const char *why, const char *text);

#endif
