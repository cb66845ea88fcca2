/* Writing Avro data in binary by hand, in plain form, and the keys of a map. */

#pragma once

#include "reading.h"

static void stop(const char *text) {
    fprintf(stderr, "%s\n", text);
    exit(3);
}

static void *enough(void *room) {
    if (room == NULL) {
        stop("out of memory");
    }
    return room;
}

/* Bytes that are to be written. */
struct out {
    uint8_t *bytes;
    size_t length;
    size_t room;
};

static inline void make_room(struct out *out, size_t count) {
    if (out->room - out->length < count) {
        size_t room = 2 * out->room + count;
        out->bytes = enough(realloc(out->bytes, room));
        out->room = room;
    }
}

static inline void put(struct out *out, const uint8_t *bytes, size_t length) {
    make_room(out, length);
    if (length > 0) {
        memcpy(out->bytes + out->length, bytes, length);
    }
    out->length += length;
}

static inline void put_byte(struct out *out, uint8_t byte) {
    make_room(out, 1);
    out->bytes[out->length++] = byte;
}

static inline void put_number(struct out *out, int64_t value) {
    uint64_t rest = ((uint64_t)value << 1) ^ (uint64_t)(value >> 63);
    make_room(out, 10);
    while (rest >= 0x80) {
        out->bytes[out->length++] = (uint8_t)(0x80 | rest);
        rest >>= 7;
    }
    out->bytes[out->length++] = (uint8_t)rest;
}

static inline void put_slice(struct out *out, struct slice slice) {
    put_number(out, (int64_t)slice.length);
    put(out, slice.bytes, slice.length);
}

/* The keys of a map so far. */
struct keys {
    struct slice *keys;
    size_t count;
    size_t room;
};

static inline int is_same(struct slice one, struct slice other) {
    return one.length == other.length && memcmp(one.bytes, other.bytes, one.length) == 0;
}

/* Keeps a key, unless it is one of those before. */
static inline int keep_key(struct keys *keys, struct slice key) {
    for (size_t at = 0; at < keys->count; at++) {
        if (is_same(keys->keys[at], key)) {
            return 0;
        }
    }
    if (keys->count == keys->room) {
        keys->room = 2 * keys->room + 16;
        keys->keys = enough(realloc(keys->keys, keys->room * sizeof *keys->keys));
    }
    keys->keys[keys->count++] = key;
    return 1;
}
