/* Reading Avro data in binary by hand, with the checks of `avro_binary`: what the walkers share. */

#pragma once

#include <stdint.h>
#include <stdio.h>
#include <stdlib.h>
#include <string.h>

#define NODES 1048576
#define BLOB 16777216

/* The codes of `avro_binary::ReadError`. */
enum fault {
    NONE = 0,
    END_OF_INPUT = 1,
    INVALID_NUMBER = 2,
    INVALID_BOOLEAN = 3,
    INVALID_TEXT = 4,
    INVALID_INDEX = 5,
    INVALID_LENGTH = 6,
    WRONG_BLOCK_SIZE = 7,
    KEY_TWICE = 8,
    LIMIT_EXCEEDED = 9,
};

struct walk {
    const uint8_t *at;
    const uint8_t *end;
    /* The part that fails. */
    const uint8_t *place;
    uint64_t nodes_left;
};

static enum fault fail(struct walk *walk, enum fault fault, const uint8_t *place) {
    walk->place = place;
    return fault;
}

/* A number of at most `most` bytes, the last of which is at most `top` where there are as many. */
static inline enum fault read_number(struct walk *walk, unsigned most, uint8_t top, int64_t *value) {
    const uint8_t *place = walk->at;
    const uint8_t *at = place;
    uint64_t number = 0;
    for (unsigned group = 0;; group++) {
        if (at == walk->end) {
            return fail(walk, END_OF_INPUT, place);
        }
        uint8_t byte = *at++;
        number |= (uint64_t)(byte & 0x7f) << (7 * group);
        if (group + 1 == most && byte > top) {
            return fail(walk, INVALID_NUMBER, place);
        }
        if (byte < 0x80) {
            break;
        }
    }
    walk->at = at;
    *value = (int64_t)(number >> 1) ^ -(int64_t)(number & 1);
    return NONE;
}

static inline enum fault read_long(struct walk *walk, int64_t *value) {
    return read_number(walk, 10, 0x01, value);
}

static inline enum fault read_int(struct walk *walk, int64_t *value) {
    return read_number(walk, 5, 0x0f, value);
}

static inline int is_within(uint8_t byte, uint8_t low, uint8_t high) {
    return low <= byte && byte <= high;
}

/* The number of bytes of the character at the front, or 0 where there is none. */
static unsigned char_length(const uint8_t *text, size_t left) {
    uint8_t first = text[0];
    if (first < 0x80) {
        return 1;
    }
    if (is_within(first, 0xc2, 0xdf)) {
        return left >= 2 && is_within(text[1], 0x80, 0xbf) ? 2 : 0;
    }
    if (is_within(first, 0xe0, 0xef)) {
        uint8_t low = first == 0xe0 ? 0xa0 : 0x80;
        uint8_t high = first == 0xed ? 0x9f : 0xbf;
        return left >= 3 && is_within(text[1], low, high) && is_within(text[2], 0x80, 0xbf) ? 3 : 0;
    }
    if (is_within(first, 0xf0, 0xf4)) {
        uint8_t low = first == 0xf0 ? 0x90 : 0x80;
        uint8_t high = first == 0xf4 ? 0x8f : 0xbf;
        return left >= 4 && is_within(text[1], low, high) && is_within(text[2], 0x80, 0xbf) &&
                       is_within(text[3], 0x80, 0xbf)
                   ? 4
                   : 0;
    }
    return 0;
}

static int is_utf8(const uint8_t *text, size_t length) {
    size_t at = 0;
    while (at < length) {
        if (length - at >= 8) {
            uint64_t word;
            memcpy(&word, text + at, 8);
            if ((word & 0x8080808080808080u) == 0) {
                at += 8;
                continue;
            }
        }
        unsigned char_bytes = char_length(text + at, length - at);
        if (char_bytes == 0) {
            return 0;
        }
        at += char_bytes;
    }
    return 1;
}

static inline enum fault take_node(struct walk *walk) {
    if (walk->nodes_left == 0) {
        return fail(walk, LIMIT_EXCEEDED, walk->at);
    }
    walk->nodes_left--;
    return NONE;
}

static inline enum fault take_nodes(struct walk *walk, uint64_t count) {
    if (walk->nodes_left < count) {
        return fail(walk, LIMIT_EXCEEDED, walk->at);
    }
    walk->nodes_left -= count;
    return NONE;
}

/* Some bytes of the input. */
struct slice {
    const uint8_t *bytes;
    size_t length;
};

/* A length, and as many bytes. */
static inline enum fault read_bytes(struct walk *walk, struct slice *found) {
    const uint8_t *place = walk->at;
    int64_t length;
    enum fault fault = read_long(walk, &length);
    if (fault != NONE) {
        return fault;
    }
    if (length < 0) {
        return fail(walk, INVALID_LENGTH, place);
    }
    if (length > BLOB) {
        return fail(walk, LIMIT_EXCEEDED, place);
    }
    if (length > walk->end - walk->at) {
        return fail(walk, END_OF_INPUT, walk->at);
    }
    found->bytes = walk->at;
    found->length = (size_t)length;
    walk->at += length;
    return NONE;
}

/* The same in UTF-8. */
static inline enum fault read_text(struct walk *walk, struct slice *found) {
    enum fault fault = read_bytes(walk, found);
    if (fault != NONE) {
        return fault;
    }
    return is_utf8(found->bytes, found->length) ? NONE : fail(walk, INVALID_TEXT, found->bytes);
}

/* A block of an array or a map: its items, 0 of them at the end, and where its size stands, if it has one. */
struct items {
    uint64_t count;
    int64_t size;
    const uint8_t *size_place;
    const uint8_t *start;
};

static inline enum fault begin_items(struct walk *walk, struct items *items) {
    const uint8_t *place = walk->at;
    int64_t count;
    enum fault fault = read_long(walk, &count);
    if (fault != NONE) {
        return fault;
    }
    if (count == INT64_MIN) {
        return fail(walk, INVALID_LENGTH, place);
    }
    items->count = (uint64_t)(count < 0 ? -count : count);
    if (items->count > walk->nodes_left) {
        return fail(walk, LIMIT_EXCEEDED, place);
    }
    items->size_place = NULL;
    if (count < 0) {
        items->size_place = walk->at;
        if ((fault = read_long(walk, &items->size)) != NONE) {
            return fault;
        }
        if (items->size < 0) {
            return fail(walk, INVALID_LENGTH, items->size_place);
        }
    }
    items->start = walk->at;
    return NONE;
}

static inline enum fault end_items(struct walk *walk, const struct items *items) {
    int is_wrong = items->size_place != NULL && walk->at - items->start != items->size;
    return is_wrong ? fail(walk, WRONG_BLOCK_SIZE, items->size_place) : NONE;
}

/* The bytes of a file; the program ends where they cannot be read. */
static uint8_t *read_file(const char *path, size_t *length) {
    FILE *file = fopen(path, "rb");
    if (file == NULL || fseek(file, 0, SEEK_END) != 0) {
        perror(path);
        exit(4);
    }
    *length = (size_t)ftell(file);
    rewind(file);
    uint8_t *bytes = malloc(*length + 1);
    if (bytes == NULL || fread(bytes, 1, *length, file) != *length) {
        perror(path);
        exit(4);
    }
    fclose(file);
    return bytes;
}
