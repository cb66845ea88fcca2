/* Walks a file of Avro data in binary, one after another until the bytes end:
 *
 *     walk FILE records|strings
 *
 * Each datum of `records` is an array of records {a long, b int, c string}, each of `strings` an array of strings.
 * The checks are those of `avro_binary::walk` under the default limits: a number is in range, a count is within the
 * nodes that are left, a length is within the limit and the input, a string is UTF-8, and a block's size is that of its
 * items. A number may be padded. The depth is that of the type, so it needs no check.
 */

#include "reading.h"

static inline enum fault walk_string(struct walk *walk) {
    enum fault fault = take_node(walk);
    if (fault != NONE) {
        return fault;
    }
    const uint8_t *place = walk->at;
    int64_t length;
    if ((fault = read_long(walk, &length)) != NONE) {
        return fault;
    }
    if (length < 0) {
        return fail(walk, INVALID_LENGTH, place);
    }
    if (length > BLOB) {
        return fail(walk, LIMIT_EXCEEDED, place);
    }
    if (length > walk->end - walk->at) {
        return fail(walk, END_OF_INPUT, walk->at);
    }
    if (!is_utf8(walk->at, (size_t)length)) {
        return fail(walk, INVALID_TEXT, walk->at);
    }
    walk->at += length;
    return NONE;
}

static inline enum fault walk_record(struct walk *walk) {
    enum fault fault;
    int64_t value;
    if ((fault = take_node(walk)) != NONE || (fault = take_node(walk)) != NONE ||
        (fault = read_long(walk, &value)) != NONE || (fault = take_node(walk)) != NONE ||
        (fault = read_int(walk, &value)) != NONE) {
        return fault;
    }
    return walk_string(walk);
}

static inline enum fault walk_array(struct walk *walk, enum fault (*walk_item)(struct walk *)) {
    enum fault fault = take_node(walk);
    if (fault != NONE) {
        return fault;
    }
    for (;;) {
        const uint8_t *place = walk->at;
        int64_t count;
        if ((fault = read_long(walk, &count)) != NONE) {
            return fault;
        }
        if (count == 0) {
            return NONE;
        }
        if (count == INT64_MIN) {
            return fail(walk, INVALID_LENGTH, place);
        }
        uint64_t items = (uint64_t)(count < 0 ? -count : count);
        if (items > walk->nodes_left) {
            return fail(walk, LIMIT_EXCEEDED, place);
        }
        const uint8_t *size_place = walk->at;
        int64_t size = 0;
        if (count < 0) {
            if ((fault = read_long(walk, &size)) != NONE) {
                return fault;
            }
            if (size < 0) {
                return fail(walk, INVALID_LENGTH, size_place);
            }
        }
        const uint8_t *start = walk->at;
        for (; items > 0; items--) {
            if ((fault = walk_item(walk)) != NONE) {
                return fault;
            }
        }
        if (count < 0 && walk->at - start != size) {
            return fail(walk, WRONG_BLOCK_SIZE, size_place);
        }
    }
}

int main(int count, char **words) {
    int records = count == 3 && strcmp(words[2], "records") == 0;
    if (!records && (count != 3 || strcmp(words[2], "strings") != 0)) {
        fprintf(stderr, "walk FILE records|strings\n");
        return 64;
    }
    size_t length;
    uint8_t *bytes = read_file(words[1], &length);
    struct walk walk = {.at = bytes, .end = bytes + length};
    unsigned long data = 0;
    while (walk.at < walk.end) {
        const uint8_t *datum = walk.at;
        walk.nodes_left = NODES;
        enum fault fault = records ? walk_array(&walk, walk_record) : walk_array(&walk, walk_string);
        if (fault == LIMIT_EXCEEDED) {
            fprintf(stderr, "datum %lu: B9\n", data);
            return 3;
        }
        if (fault != NONE) {
            fprintf(stderr, "datum %lu: B%d at %td\n", data, fault, walk.place - datum);
            return 3;
        }
        data++;
    }
    printf("data %lu bytes %zu\n", data, length);
    free(bytes);
    return 0;
}
