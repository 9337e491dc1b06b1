/* The calls that are lent slices. Each slice lies between guards, and what the call may not change is compared afterwards. */
#include "calls.h"

#include <string.h>

/* An odd number of guards around a buffer leaves it at an odd address, where it may be. */
enum { GUARDS = 8, BUFFER_GUARDS = 9, MOST_WORDS = 66000, MOST_BYTES = 1100 };

/* What stands in each place of the results or of the buffer, and of the guards around them, before the call. */
static uint64_t sentinel(size_t place) {
    return 0xa5a5a5a5a5a5a5a5u ^ place;
}

/* A result slice of `room` words, with its guards. */
static uint64_t row[GUARDS + MOST_WORDS + GUARDS];

static uint64_t *lend_results(size_t room) {
    if (room > MOST_WORDS) {
        stop("too much room", "");
    }
    for (size_t i = 0; i < GUARDS + room + GUARDS; i++) {
        row[i] = sentinel(i);
    }
    return row + GUARDS;
}

/* Says so where a place changed that is not one of the `written` first results. */
static void put_changes(answer *to, size_t room, size_t written) {
    for (size_t i = 0; i < GUARDS + room + GUARDS; i++) {
        bool may_change = i >= GUARDS && i < GUARDS + written;
        if (!may_change && row[i] != sentinel(i)) {
            put_signed(to, ", with place ", (int64_t)i - GUARDS);
            put_hex(to, " of the results changed to ", row[i]);
        }
    }
}

/* What was lent to be read, and a copy made before the call: guards and all are compared. */
static void put_difference(answer *to, const void *lent, const void *copy, size_t size) {
    if (memcmp(lent, copy, size) != 0) {
        put(to, ", with what was lent to be read changed");
    }
}

void of_move_column(given *from, answer *to) {
    uint32_t source = take_width(from);
    uint32_t target = take_width(from);
    takum_rule rule = take_rule(from);
    static uint64_t lent[GUARDS + MOST_WORDS + GUARDS], copy[GUARDS + MOST_WORDS + GUARDS];
    size_t count = take_words(from, lent + GUARDS, MOST_WORDS);
    size_t size = (GUARDS + count + GUARDS) * sizeof lent[0];
    size_t room = take_room(from);
    uint64_t *results = lend_results(room);
    memcpy(copy, lent, size);

    takum_column_answer got = takum_move_column(source, target, rule, lent + GUARDS, count, results, room);

    bool has_position = got.refusal == TAKUM_STRAY || got.refusal == TAKUM_INEXACT;
    if (put_refusal(to, got.refusal, got.moved == 0 && got.exact == 0 && (has_position || got.position == 0))) {
        if (has_position) {
            put_number(to, " at ", got.position);
        }
        put_changes(to, room, 0);
    } else {
        put_number(to, "moved ", got.moved);
        put_number(to, " exact ", got.exact);
        put_words(to, " ", results, got.moved <= room ? got.moved : room);
        if (got.position != 0) {
            put(to, " beside a position that is not zero");
        }
        put_changes(to, room, got.moved);
    }
    put_difference(to, lent, copy, size);
}

void of_read_block(given *from, answer *to) {
    static uint8_t lent[GUARDS + MOST_BYTES + GUARDS], copy[GUARDS + MOST_BYTES + GUARDS];
    size_t size = take_bytes(from, lent + GUARDS, MOST_BYTES);
    size_t room = take_room(from);
    uint64_t *results = lend_results(room);
    memcpy(copy, lent, sizeof lent);

    takum_block_answer got = takum_read_block(lent + GUARDS, size, results, room);

    if (put_refusal(to, got.refusal, got.width == 0 && got.number == 0 && got.count == 0)) {
        put_changes(to, room, 0);
    } else {
        put_number(to, "block ", got.width);
        put_number(to, " ", got.number);
        put_number(to, " ", got.count);
        put_words(to, " ", results, got.count <= room ? got.count : room);
        put_changes(to, room, got.count);
    }
    put_difference(to, lent, copy, sizeof lent);
}

/* A buffer of `size` bytes, with its guards. */
static uint8_t bytes[BUFFER_GUARDS + MOST_BYTES + BUFFER_GUARDS];

static uint8_t *lend_buffer(size_t size) {
    if (size > MOST_BYTES) {
        stop("too large a buffer", "");
    }
    for (size_t i = 0; i < BUFFER_GUARDS + size + BUFFER_GUARDS; i++) {
        bytes[i] = (uint8_t)sentinel(i);
    }
    return bytes + BUFFER_GUARDS;
}

/* Says so where a byte changed that is not one of the buffer's first `written`, of several the first. */
static void put_changed_byte(answer *to, size_t size, size_t written) {
    for (size_t i = 0; i < BUFFER_GUARDS + size + BUFFER_GUARDS; i++) {
        bool may_change = i >= BUFFER_GUARDS && i < BUFFER_GUARDS + written;
        if (!may_change && bytes[i] != (uint8_t)sentinel(i)) {
            put_signed(to, ", with byte ", (int64_t)i - BUFFER_GUARDS);
            put_hex(to, " of the buffer changed to ", bytes[i]);
            return;
        }
    }
}

void of_write_block(given *from, answer *to) {
    uint32_t width = take_width(from);
    uint32_t number = (uint32_t)take_number(from);
    static uint64_t lent[GUARDS + MOST_WORDS + GUARDS], copy[GUARDS + MOST_WORDS + GUARDS];
    size_t count = take_words(from, lent + GUARDS, MOST_WORDS);
    size_t lent_size = (GUARDS + count + GUARDS) * sizeof lent[0];
    size_t size = take_size(from);
    uint8_t *buffer = lend_buffer(size);
    memcpy(copy, lent, lent_size);

    takum_written_answer got = takum_write_block(width, number, lent + GUARDS, count, buffer, size);

    bool has_position = got.refusal == TAKUM_STRAY;
    if (put_refusal(to, got.refusal, has_position || got.position == 0)) {
        if (has_position) {
            put_number(to, " at ", got.position);
        }
        put_changed_byte(to, size, 0);
    } else {
        put_bytes(to, "written ", buffer, size);
        if (got.position != 0) {
            put(to, " beside a position that is not zero");
        }
        put_changed_byte(to, size, size);
    }
    put_difference(to, lent, copy, lent_size);
}
