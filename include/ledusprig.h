/* Linear takums of width 2 to 64: the calls of libledusprig.a, a library in which every function is proved to do what its contract says. This page
 * says the same in words, and tests/face tries it.
 *
 *     takum_saying_answer tag = takum_write_whole(16, TAKUM_ROUNDED, 515);
 *     if (tag.refusal == 0 && tag.saying == TAKUM_ABOVE) puts("515 went up: the tag reads 516");
 *
 * It needs C99 or later, or C++11 or later. The archive is for x86-64 or for Arm (aarch64), under Linux. It is linked like any other, cc program.c
 * libledusprig.a, or, where it is installed, cc program.c $(pkg-config --cflags --libs ledusprig). It stands on nothing else, not even the C library,
 * holds no state, asks for no memory and may be called from any thread; a call uses no more than 512 bytes of stack (read off the machine code, not
 * proved). No answer depends on the floating-point rounding mode; no call changes it, and none raises an exception of IEEE 754 unless it says so below.
 * (The processors' own flag for a subnormal operand is none of these; a subnormal double may set it.)
 *
 * A word of width n (in bits, 2 to 64) is carried in the low n bits of a uint64_t; the bits above must be zero. Zero is all bits zero, NaR
 * ("not a real") is the highest of the n bits alone. As n-bit two's complement numbers, words are in the order of their values.
 *
 * Every call takes every value of its arguments and returns. Each answer is a struct with the field `refusal`:
 *
 * - It is 0 (TAKUM_OK) where the call was answered, and the other fields are the answer.
 * - It is a number from 1 to 11, or 13, where the call was refused. Then all other fields are zero (but for the position of a column, or of a block to be
 *   written), and a lent slice is as it was before the call. takum_refusal_name gives its name. Where several refusals apply, the first is given, in
 *   this order: words: WIDTH, STRAY, NAR, OVER, INEXACT; columns: WIDTH, ROOM, then position by position, at each STRAY and INEXACT; blocks: SIZE,
 *   MARK, CHECK, WIDTH, COUNT, FILL, ROOM; written blocks: WIDTH, RETIRED, COUNT, SIZE, then STRAY at the lowest position.
 *
 * What a proof can't see is how the calls are used from C. It rests on this:
 *
 * - A lent slice is a pointer and a length, counted in elements. The pointer is not null and is aligned for its elements; as many of them
 *   as the length says lie there, initialized, and may be read, and results and the buffer for a block written, until the call returns. For an
 *   empty slice the length is 0; its pointer, too, is not null and is aligned, as the address of any uint64_t (for bytes any address) is, and
 *   nothing is read or written there. Don't pass NULL, which malloc(0) or the data() of an empty std::vector may be.
 * - The two slices of a call do not overlap, and nothing else changes them during the call.
 * - A bool is 0 or 1, as every bool is that C makes itself. */
#ifndef LEDUSPRIG_H
#define LEDUSPRIG_H

#include <stdbool.h>
#include <stddef.h>
#include <stdint.h>

/* The version of this header and of the library that it came with; as a number, 10000 * major + 100 * minor + patch. */
#define TAKUM_VERSION "0.2.0"
#define TAKUM_VERSION_NUMBER 200

#if defined(__cplusplus) && __cplusplus < 201103L
#error "ledusprig.h needs C++11 or later, or C99 or later"
#endif

/* No call throws. A compiler that can tells where an answer is dropped, since what was not looked at may have been refused, and where a slice is
 * NULL. */
#ifdef __cplusplus
#define TAKUM_NOEXCEPT noexcept
#else
#define TAKUM_NOEXCEPT
#endif
#ifdef __GNUC__
#define TAKUM_MUST_USE __attribute__((warn_unused_result))
#define TAKUM_NOT_NULL __attribute__((nonnull))
#else
#define TAKUM_MUST_USE
#define TAKUM_NOT_NULL
#endif

/* A rule has 32 bits and may be any number of them. Where the language can't say so, it is tested below. */
#if defined(__cplusplus) || (defined(__STDC_VERSION__) && __STDC_VERSION__ >= 202311L)
#define TAKUM_32_BITS : uint32_t
#else
#define TAKUM_32_BITS
#endif

#ifdef __cplusplus
extern "C" {
#endif

/* Why a call was refused. Every call that takes a width can give WIDTH, and every call that takes a word STRAY; what else it can give stands at
 * the call. */
enum takum_refusal {
    TAKUM_OK = 0,      /* it was not refused */
    TAKUM_WIDTH = 1,   /* a width isn't 2 to 64, or a block's isn't 8, 16, 32 or 64 */
    TAKUM_STRAY = 2,   /* a word has a bit set at or above its width */
    TAKUM_NAR = 3,     /* a whole number is wanted of NaR */
    TAKUM_INEXACT = 4, /* strict, and no word, or no whole number, has the value; or no width from 2 to 64 has a word with it */
    TAKUM_OVER = 5,    /* the whole number falls outside signed 64 bits */
    TAKUM_ROOM = 6,    /* the result slice is too short */
    TAKUM_SIZE = 7,    /* a block, or the buffer for one, isn't 512 bytes */
    TAKUM_MARK = 8,    /* a block's byte 0 isn't 0x54 */
    TAKUM_CHECK = 9,   /* a block's check sum A or B differs */
    TAKUM_COUNT = 10,  /* a block has more words than its width has room for */
    TAKUM_FILL = 11,   /* an unused word byte of a block isn't zero */
    TAKUM_RETIRED = 13 /* blocks of width 8 are read, but no longer written */
};

/* The paper's name of a refusal: "INEXACT" for 4, "OK" for 0, and "UNKNOWN" for a number that this header doesn't have, as a later library may. */
static inline const char *takum_refusal_name(uint32_t refusal) TAKUM_NOEXCEPT {
    switch (refusal) {
    case TAKUM_OK: return "OK";
    case TAKUM_WIDTH: return "WIDTH";
    case TAKUM_STRAY: return "STRAY";
    case TAKUM_NAR: return "NAR";
    case TAKUM_INEXACT: return "INEXACT";
    case TAKUM_OVER: return "OVER";
    case TAKUM_ROOM: return "ROOM";
    case TAKUM_SIZE: return "SIZE";
    case TAKUM_MARK: return "MARK";
    case TAKUM_CHECK: return "CHECK";
    case TAKUM_COUNT: return "COUNT";
    case TAKUM_FILL: return "FILL";
    case TAKUM_RETIRED: return "RETIRED";
    default: return "UNKNOWN";
    }
}

/* Which way a value went: where the word that was written for it, or that it was moved to, lies as seen from the value. Signs count: -512 is above -513.
 *
 * - EXACT: the word has the value. Zero and NaR are exact, and so is every word that the strict rule gives.
 * - BELOW, ABOVE: the word is less than the value, or greater. At 16 bits 515 goes to the word of 516, which is above it; -515 to that of -516,
 *   which is below it; and -513 to that of -512, which is above it.
 * - PAST_THE_END: the size is beyond the largest word, or isn't zero and is short of the smallest one, and the word is the end word. This is said in
 *   place of BELOW and ABOVE, since an end word may be any distance away. */
enum takum_saying {
    TAKUM_EXACT = 0,       /* the word has exactly the value */
    TAKUM_BELOW = 1,       /* the word is below the value */
    TAKUM_ABOVE = 2,       /* the word is above the value */
    TAKUM_PAST_THE_END = 3 /* the size is beyond the largest word, or short of the smallest */
};

/* The name of a saying: "ABOVE" for 2, and "UNKNOWN" for a number that this header doesn't have. */
static inline const char *takum_saying_name(uint32_t saying) TAKUM_NOEXCEPT {
    switch (saying) {
    case TAKUM_EXACT: return "EXACT";
    case TAKUM_BELOW: return "BELOW";
    case TAKUM_ABOVE: return "ABOVE";
    case TAKUM_PAST_THE_END: return "PAST_THE_END";
    default: return "UNKNOWN";
    }
}

/* The bounds of a width in bits, the size of a block in bytes, and the most words that a block has. */
enum { TAKUM_LEAST_WIDTH = 2, TAKUM_GREATEST_WIDTH = 64, TAKUM_BLOCK_SIZE = 512, TAKUM_BLOCK_WORDS = 496 };

/* The rule of writing and moving. Any number but 0 is strict, so that a rule that is none never rounds.
 *
 * - ROUNDED: of the nonzero words with the value's sign the one nearest to it by value; of two that are equally near the one whose lowest
 *   bit is 0; past the ends the end word, never zero and never NaR. Zero gives zero.
 * - STRICT: the word with exactly the value, or INEXACT. */
typedef enum takum_rule TAKUM_32_BITS { TAKUM_ROUNDED = 0, TAKUM_STRICT = 1 } takum_rule;

/* The rule of taking a whole number. Any number but 0 is strict.
 *
 * - NEAREST: the whole number nearest to the value. A half, which is equally near to two of them, goes to the even one: 2.5 gives 2, 3.5 gives 4, -2.5
 *   gives -2.
 * - STRICT: exactly the value, or INEXACT. */
typedef enum takum_taking TAKUM_32_BITS { TAKUM_NEAREST = 0, TAKUM_TAKE_STRICT = 1 } takum_taking;

/* Both are handed over as 32 bits. A C compiler that is told -fshort-enums makes them shorter, and then this is no type. */
typedef char takum_needs_no_short_enums[sizeof(takum_rule) == 4 && sizeof(takum_taking) == 4 ? 1 : -1];

/* The field `kind` of a reading. TAKUM_KIND_NAR is not TAKUM_NAR, which is a refusal. */
enum takum_kind { TAKUM_KIND_ZERO = 0, TAKUM_KIND_NAR = 1, TAKUM_KIND_NUMBER = 2 };

typedef struct takum_word_answer {
    uint32_t refusal;
    uint64_t word;
} takum_word_answer;

/* A word that was written or moved, and by `saying` which way the value went: one of enum takum_saying. Beside a refusal it is 0, as the word is, and
 * says nothing; so look at the refusal first. */
typedef struct takum_saying_answer {
    uint32_t refusal;
    uint32_t saying;
    uint64_t word;
} takum_saying_answer;

/* The fields after `kind` are zero unless it is TAKUM_KIND_NUMBER. Then the size is m * 2^(h - p), with 2^p <= m < 2^(p + 1), p being the number of
 * fraction bits (of a word of fewer than 12 bits with zero bits appended up to 12), and `negative` the sign.
 *
 * `own` tells how fine the reading is, whatever its kind: how many fraction bits are the word's own. That is p less the zero bits that were appended,
 * which are no precision, or 0 where it would be negative. So it never exceeds p, and from 12 bits on it is p. Zero and NaR have 0. It is a count of the
 * word's bits: a move to a wider width keeps the value and can raise it, and a word and its negation can differ (2 at 16 bits has 10, -2 has 11). */
typedef struct takum_reading_answer {
    uint32_t refusal;
    uint32_t kind;
    bool negative;
    int32_t h;
    uint64_t m;
    uint32_t p;
    uint32_t own;
} takum_reading_answer;

typedef struct takum_order_answer {
    uint32_t refusal;
    int32_t order;
} takum_order_answer;

typedef struct takum_limit_answer {
    uint32_t refusal;
    uint64_t limit;
} takum_limit_answer;

/* A width in bits. */
typedef struct takum_width_answer {
    uint32_t refusal;
    uint32_t width;
} takum_width_answer;

typedef struct takum_whole_answer {
    uint32_t refusal;
    int64_t whole;
} takum_whole_answer;

/* `real` is false where the word is NaR: there is no reading, and the number is a NaN, so that a void is not booked as 0. */
typedef struct takum_number_answer {
    uint32_t refusal;
    bool real;
    double number;
} takum_number_answer;

/* `moved` is how many words were moved, and `exact` how many of these have kept their value, NaR being kept too (TAKUM_EXACT): all of them if the rule
 * is strict or the width isn't a narrower one. Where the refusal is STRAY or INEXACT, `position` is that of the word that was refused, counted from 0;
 * otherwise it is 0. */
typedef struct takum_column_answer {
    uint32_t refusal;
    size_t position;
    size_t moved;
    size_t exact;
} takum_column_answer;

/* The width of a block's words in bits, the block's number, and how many words it has. */
typedef struct takum_block_answer {
    uint32_t refusal;
    uint32_t width;
    uint32_t number;
    uint32_t count;
} takum_block_answer;

/* Where the refusal is STRAY, `position` is that of the first word with a stray bit, counted from 0; otherwise it is 0, and so it is where the block
 * was written. */
typedef struct takum_written_answer {
    uint32_t refusal;
    size_t position;
} takum_written_answer;

/* What belongs to width n: its largest positive word 2^(n - 1) - 1, its smallest positive word 1, and its NaR word 2^(n - 1). */
TAKUM_MUST_USE takum_word_answer takum_largest(uint32_t n) TAKUM_NOEXCEPT;
TAKUM_MUST_USE takum_word_answer takum_smallest(uint32_t n) TAKUM_NOEXCEPT;
TAKUM_MUST_USE takum_word_answer takum_nar(uint32_t n) TAKUM_NOEXCEPT;

/* The exact-count limit of width n, a power of two: each whole number from -limit to limit has a word, and limit + 1 has none. */
TAKUM_MUST_USE takum_limit_answer takum_limit(uint32_t n) TAKUM_NOEXCEPT;

/* The value of a word, which is zero, NaR, or a number by its parts, and the word's own fraction bits. */
TAKUM_MUST_USE takum_reading_answer takum_read(uint32_t n, uint64_t word) TAKUM_NOEXCEPT;

/* -1, 0 or 1 as x is below, equal to or above y. NaR is below everything and equals itself. STRAY for either word. */
TAKUM_MUST_USE takum_order_answer takum_compare(uint32_t n, uint64_t x, uint64_t y) TAKUM_NOEXCEPT;

/* The word with the negated value; zero and NaR stay. */
TAKUM_MUST_USE takum_word_answer takum_negate(uint32_t n, uint64_t word) TAKUM_NOEXCEPT;

/* The word for m * 2^k, or for -m * 2^k where `negative` is true, and which way it went; m = 0 is zero, whichever the sign. INEXACT by the strict
 * rule. */
TAKUM_MUST_USE takum_saying_answer takum_write(uint32_t n, takum_rule rule, bool negative, uint64_t m, int32_t k) TAKUM_NOEXCEPT;

/* The word of width `to` for the value of a word of width `from`, and which way it went; NaR gives NaR. Going wider never changes a value, so it is
 * always exact. INEXACT by the strict rule. Move directly: a rounded move by way of a narrower width need not give the same word. 513 + 2^-20 goes
 * from 64 bits to 514 at 16, and by way of 32 bits to 512. */
TAKUM_MUST_USE takum_saying_answer takum_move(uint32_t from, uint32_t to, takum_rule rule, uint64_t word) TAKUM_NOEXCEPT;

/* The word for a whole number, and which way it went. INEXACT by the strict rule. */
TAKUM_MUST_USE takum_saying_answer takum_write_whole(uint32_t n, takum_rule rule, int64_t x) TAKUM_NOEXCEPT;

/* The whole number of a word, the nearest or strictly its own. NAR for NaR; OVER where the nearest whole number is below -2^63 or above 2^63 - 1; and,
 * by the strict rule, INEXACT where the value isn't whole. OVER is judged on the rounded number, but near those ends nothing is rounded: from 2^55 on
 * every word, of any width, is a whole number. */
TAKUM_MUST_USE takum_whole_answer takum_take_whole(uint32_t n, takum_taking taking, uint64_t word) TAKUM_NOEXCEPT;

/* How wide a word a whole number needs: the least width, from 2 to 64, at which one has exactly the value x. Every greater width up to 64 has one too,
 * so takum_write_whole(n, TAKUM_STRICT, x) gives a word from this width on, and refuses below it. From 8 on a power of two needs far less than its
 * neighbours: 512 needs 7, 513 needs 17. Zero and one need 2; a number and its negation need the same. INEXACT where no width up to 64 has one. */
TAKUM_MUST_USE takum_width_answer takum_shortest_width(int64_t x) TAKUM_NOEXCEPT;

/* The word for a double (binary64), and which way it went: NaN and both infinities give NaR, both zeros give zero, and these are exact. INEXACT by the
 * strict rule. A signalling NaN raises the floating-point exception INVALID, as every comparison with it does. */
TAKUM_MUST_USE takum_saying_answer takum_write_binary64(uint32_t n, takum_rule rule, double x) TAKUM_NOEXCEPT;

/* The double for a word: exactly its value up to width 57; from 58 on the nearest double, ties to even, in every rounding mode. Zero is positive
 * zero. No floating-point exception is raised: nothing is rounded by the processor. */
TAKUM_MUST_USE takum_number_answer takum_take_binary64(uint32_t n, uint64_t word) TAKUM_NOEXCEPT;

/* Moves a column, each of the words as takum_move does: the first results are the moved words, in order, and the others stay as they were. The answer
 * counts the exact ones; which way one of the others went, takum_move tells. ROOM where there are fewer results than words, even if a word would be
 * refused too. A word's refusal, STRAY or INEXACT, comes with its position: the lowest at which there is one. An empty column moves 0 words. */
TAKUM_MUST_USE TAKUM_NOT_NULL takum_column_answer takum_move_column(uint32_t from, uint32_t to, takum_rule rule, const uint64_t *words,
                                                                    size_t words_length, uint64_t *results,
                                                                    size_t results_length) TAKUM_NOEXCEPT;

/* A sheet block, its numbers little-endian: byte 0 is 0x54; byte 1 the width of its words, 8, 16, 32 or 64; bytes 2 and 3 their count; bytes 4 to 7
 * the block's number; bytes 8 to 503 the words, and zeros behind them; bytes 504 to 507 the sum A, and 508 to 511 the sum B, both modulo 2^32. A is
 * the sum of the 126 numbers of 32 bits before it, B that of the 126 values that A has after each of them.
 *
 * Reads a block of 512 bytes: the first results are its words, in order, and the others stay as they were. TAKUM_BLOCK_WORDS results
 * are enough for every block. SIZE, MARK, CHECK, WIDTH, COUNT, FILL or ROOM, in this order; any word that a block holds is a good one. */
TAKUM_MUST_USE TAKUM_NOT_NULL takum_block_answer takum_read_block(const uint8_t *block, size_t block_length, uint64_t *results,
                                                                  size_t results_length) TAKUM_NOEXCEPT;

/* Writes the block that has this width, number and words: all 512 bytes of the buffer, which is initialized, as every slice, with whatever it may be.
 * It reads back as the same width, number and words, and any block of 16, 32 or 64 bits that can be read is what this makes of its width, number and
 * words. The width is 16, 32 or 64, with room for 248, 124 or 62 words (TAKUM_BLOCK_WORDS * 8 / width); the number is any; without words the block
 * has the count 0. Old blocks of width 8 are still read; no more are written.
 *
 * WIDTH where the width isn't 8, 16, 32 or 64; RETIRED where it is 8, with whatever words and buffer; COUNT where there are more words than the width
 * has room for; SIZE where the buffer isn't 512 bytes; or STRAY with the lowest position that has one, in this order. */
TAKUM_MUST_USE TAKUM_NOT_NULL takum_written_answer takum_write_block(uint32_t width, uint32_t number, const uint64_t *words, size_t words_length,
                                                                     uint8_t *buffer, size_t buffer_length) TAKUM_NOEXCEPT;

#ifdef __cplusplus
}
#endif

#endif
