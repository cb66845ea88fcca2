/* Checks and copies container files of `containers.py`:
 *
 *     copy check narrow|wide|strings FILE
 *     copy copy narrow|wide|strings IN OUT [READER]
 *
 * READER is the file of the reader's schema, whose fields this program has in its code, as it has the writer's; no schema is read. The
 * checks are those of `avro check` under the default limits: numbers, lengths and counts, UTF-8, sizes of blocks, keys that stand twice,
 * counts, sizes and markers of the file's blocks. A copy has each datum in its plain form. The header stands in the first 64 KiB of
 * these files. Keys of a map are compared one by one, since these maps are short.
 */

#include "files.h"

enum mode { CHECK, COPY, RESOLVE };

/* ---- narrow: {a long, b int, c string}, for the reader {c string, d int default 7, b long} */

static inline enum fault narrow(struct walk *walk, struct out *out, enum mode mode) {
    enum fault fault;
    int64_t a, b;
    struct slice c;
    if ((fault = take_nodes(walk, 2)) != NONE || (fault = read_long(walk, &a)) != NONE || (fault = take_node(walk)) != NONE ||
        (fault = read_int(walk, &b)) != NONE || (fault = take_node(walk)) != NONE || (fault = read_text(walk, &c)) != NONE) {
        return fault;
    }
    if (mode == COPY) {
        put_number(out, a);
        put_number(out, b);
        put_slice(out, c);
    } else if (mode == RESOLVE) {
        put_slice(out, c);
        put_number(out, 7);
        put_number(out, b);
    }
    return NONE;
}

/* ---- strings, for the reader ["null","string"] */

static inline enum fault one_string(struct walk *walk, struct out *out, enum mode mode) {
    enum fault fault;
    struct slice text;
    if ((fault = take_node(walk)) != NONE || (fault = read_text(walk, &text)) != NONE) {
        return fault;
    }
    if (mode == RESOLVE) {
        put_number(out, 1);
    }
    if (mode != CHECK) {
        put_slice(out, text);
    }
    return NONE;
}

/* ---- wide: four groups of ten fields; the reader has them from the last to the first, without bytes and map, behind one string */

/* The items of an array or a map in their plain form, which stand in a room of their own. */
struct packed {
    uint64_t count;
    size_t start;
    size_t length;
};

struct group {
    int64_t boolean, number, large, symbol, branch;
    struct slice text, bytes, fixed, choice;
    struct packed longs, entries;
};

#define GROUPS 4
#define SYMBOLS 5
#define FIXED 8

static inline enum fault read_index(struct walk *walk, int64_t count, int64_t *index) {
    const uint8_t *place = walk->at;
    enum fault fault = read_int(walk, index);
    if (fault != NONE) {
        return fault;
    }
    return *index < 0 || *index >= count ? fail(walk, INVALID_INDEX, place) : NONE;
}

static inline enum fault read_boolean(struct walk *walk, int64_t *value) {
    if (walk->at == walk->end) {
        return fail(walk, END_OF_INPUT, walk->at);
    }
    if (*walk->at > 1) {
        return fail(walk, INVALID_BOOLEAN, walk->at);
    }
    *value = *walk->at++;
    return NONE;
}

static inline enum fault read_fixed(struct walk *walk, struct slice *found) {
    if (walk->end - walk->at < FIXED) {
        return fail(walk, END_OF_INPUT, walk->at);
    }
    *found = (struct slice){walk->at, FIXED};
    walk->at += FIXED;
    return NONE;
}

/* An array of longs. */
static inline enum fault read_longs(struct walk *walk, struct out *room, struct packed *found, enum mode mode) {
    enum fault fault = take_node(walk);
    *found = (struct packed){0, room->length, 0};
    while (fault == NONE) {
        struct items block;
        if ((fault = begin_items(walk, &block)) != NONE || block.count == 0) {
            break;
        }
        for (uint64_t item = 0; item < block.count; item++) {
            int64_t value;
            if ((fault = take_node(walk)) != NONE || (fault = read_long(walk, &value)) != NONE) {
                return fault;
            }
            if (mode != CHECK) {
                put_number(room, value);
            }
        }
        found->count += block.count;
        fault = end_items(walk, &block);
    }
    found->length = room->length - found->start;
    return fault;
}

/* A key, which none of the keys before is. */
static inline enum fault read_key(struct walk *walk, struct keys *keys, struct slice *key) {
    const uint8_t *place = walk->at;
    enum fault fault = read_text(walk, key);
    if (fault != NONE) {
        return fault;
    }
    return keep_key(keys, *key) ? NONE : fail(walk, KEY_TWICE, place);
}

/* A map of ints. */
static inline enum fault read_entries(struct walk *walk, struct out *room, struct packed *found, enum mode mode) {
    static struct keys keys;
    enum fault fault = take_node(walk);
    *found = (struct packed){0, room->length, 0};
    keys.count = 0;
    while (fault == NONE) {
        struct items block;
        if ((fault = begin_items(walk, &block)) != NONE || block.count == 0) {
            break;
        }
        for (uint64_t item = 0; item < block.count; item++) {
            struct slice key;
            int64_t value;
            if ((fault = read_key(walk, &keys, &key)) != NONE || (fault = take_node(walk)) != NONE ||
                (fault = read_int(walk, &value)) != NONE) {
                return fault;
            }
            if (mode == COPY) {
                put_slice(room, key);
                put_number(room, value);
            }
        }
        found->count += block.count;
        fault = end_items(walk, &block);
    }
    found->length = room->length - found->start;
    return fault;
}

static inline enum fault read_choice(struct walk *walk, struct group *group) {
    enum fault fault;
    if ((fault = take_node(walk)) != NONE || (fault = read_index(walk, 2, &group->branch)) != NONE ||
        (fault = take_node(walk)) != NONE) {
        return fault;
    }
    return group->branch == 1 ? read_text(walk, &group->choice) : NONE;
}

static inline enum fault read_group(struct walk *walk, struct out *room, struct group *group, enum mode mode) {
    enum fault fault;
    if ((fault = take_node(walk)) != NONE || (fault = read_boolean(walk, &group->boolean)) != NONE ||
        (fault = take_node(walk)) != NONE || (fault = read_int(walk, &group->number)) != NONE ||
        (fault = take_node(walk)) != NONE || (fault = read_long(walk, &group->large)) != NONE ||
        (fault = take_node(walk)) != NONE || (fault = read_text(walk, &group->text)) != NONE ||
        (fault = take_node(walk)) != NONE || (fault = read_bytes(walk, &group->bytes)) != NONE ||
        (fault = take_node(walk)) != NONE || (fault = read_fixed(walk, &group->fixed)) != NONE ||
        (fault = take_node(walk)) != NONE || (fault = read_index(walk, SYMBOLS, &group->symbol)) != NONE ||
        (fault = read_choice(walk, group)) != NONE || (fault = read_longs(walk, room, &group->longs, mode)) != NONE) {
        return fault;
    }
    return read_entries(walk, room, &group->entries, mode);
}

static inline void put_choice(struct out *out, const struct group *group) {
    put_number(out, group->branch);
    if (group->branch == 1) {
        put_slice(out, group->choice);
    }
}

static inline void put_packed(struct out *out, const struct out *room, struct packed packed) {
    if (packed.count > 0) {
        put_number(out, (int64_t)packed.count);
        put(out, room->bytes + packed.start, packed.length);
    }
    put_number(out, 0);
}

static inline void put_group(struct out *out, const struct out *room, const struct group *group) {
    put_byte(out, (uint8_t)group->boolean);
    put_number(out, group->number);
    put_number(out, group->large);
    put_slice(out, group->text);
    put_slice(out, group->bytes);
    put(out, group->fixed.bytes, FIXED);
    put_number(out, group->symbol);
    put_choice(out, group);
    put_packed(out, room, group->longs);
    put_packed(out, room, group->entries);
}

static inline void put_resolved_group(struct out *out, const struct out *room, const struct group *group) {
    put_packed(out, room, group->longs);
    put_choice(out, group);
    put_number(out, group->symbol);
    put(out, group->fixed.bytes, FIXED);
    put_slice(out, group->text);
    put_number(out, group->large);
    put_number(out, group->number);
    put_byte(out, (uint8_t)group->boolean);
}

static inline enum fault wide(struct walk *walk, struct out *out, enum mode mode) {
    static struct out room;
    struct group groups[GROUPS];
    enum fault fault = take_node(walk);
    room.length = 0;
    for (int at = 0; at < GROUPS && fault == NONE; at++) {
        fault = read_group(walk, &room, &groups[at], mode);
    }
    if (fault != NONE || mode == CHECK) {
        return fault;
    }
    if (mode == RESOLVE) {
        static const char added[] = "added by the reader";
        put_slice(out, (struct slice){(const uint8_t *)added, sizeof added - 1});
    }
    for (int at = 0; at < GROUPS; at++) {
        if (mode == COPY) {
            put_group(out, &room, &groups[at]);
        } else {
            put_resolved_group(out, &room, &groups[GROUPS - 1 - at]);
        }
    }
    return NONE;
}

/* ---- the data of a block, for each kind and mode */

#define DATA(kind, mode)                                                                                   \
    static enum fault kind##_##mode(struct walk *walk, uint64_t count, struct out *out, uint64_t *datum) { \
        for (*datum = 0; *datum < count; ++*datum) {                                                       \
            walk->nodes_left = NODES;                                                                      \
            enum fault fault = kind(walk, out, mode);                                                      \
            if (fault != NONE) {                                                                           \
                return fault;                                                                              \
            }                                                                                              \
        }                                                                                                  \
        return NONE;                                                                                       \
    }

DATA(narrow, CHECK)
DATA(narrow, COPY)
DATA(narrow, RESOLVE)
DATA(wide, CHECK)
DATA(wide, COPY)
DATA(wide, RESOLVE)
DATA(one_string, CHECK)
DATA(one_string, COPY)
DATA(one_string, RESOLVE)

int main(int count, char **words) {
    static const char *const kinds[] = {"narrow", "wide", "strings"};
    static const read_data readers[3][3] = {{narrow_CHECK, narrow_COPY, narrow_RESOLVE},
                                            {wide_CHECK, wide_COPY, wide_RESOLVE},
                                            {one_string_CHECK, one_string_COPY, one_string_RESOLVE}};
    int is_check = count == 4 && strcmp(words[1], "check") == 0;
    int is_copy = (count == 5 || count == 6) && strcmp(words[1], "copy") == 0;
    enum mode mode = is_check ? CHECK : count == 5 ? COPY : RESOLVE;
    for (int kind = 0; kind < 3 && (is_check || is_copy); kind++) {
        if (strcmp(words[2], kinds[kind]) == 0) {
            return copy_file(words[3], is_check ? NULL : words[4], mode == RESOLVE ? words[5] : NULL, readers[kind][mode]);
        }
    }
    fprintf(stderr, "copy check KIND FILE, or copy copy KIND IN OUT [READER]\n");
    return 64;
}
