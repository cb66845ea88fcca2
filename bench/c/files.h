/* Container files in C: reading their blocks, and writing copies. */

#pragma once

#include "writing.h"

#include <fcntl.h>
#include <sys/uio.h>
#include <unistd.h>

#define GROWTH 65536
#define HEADER 65536
#define DATA_LIMIT 1048576
#define BLOCK_LIMIT 16777216
#define SYNC 16
#define ENTRIES 16

/* What was read of a file and is not done with. */
struct input {
    int file;
    uint8_t *bytes;
    size_t start;
    size_t end;
    size_t room;
};

/* Reads until `want` bytes are there, or the file ends. */
static int is_there(struct input *input, size_t want) {
    while (input->end - input->start < want) {
        if (input->room - input->end < GROWTH) {
            memmove(input->bytes, input->bytes + input->start, input->end - input->start);
            input->end -= input->start;
            input->start = 0;
        }
        if (input->room - input->end < GROWTH) {
            input->room = input->end + GROWTH;
            input->bytes = enough(realloc(input->bytes, input->room));
        }
        ssize_t count = read(input->file, input->bytes + input->end, GROWTH);
        if (count < 0) {
            stop("cannot read");
        }
        if (count == 0) {
            return 0;
        }
        input->end += (size_t)count;
    }
    return 1;
}

static void write_parts(int file, struct iovec *parts, int count) {
    size_t whole = 0;
    for (int part = 0; part < count; part++) {
        whole += parts[part].iov_len;
    }
    if (writev(file, parts, count) != (ssize_t)whole) {
        stop("cannot write");
    }
}

struct header {
    int count;
    struct slice keys[ENTRIES];
    struct slice values[ENTRIES];
    uint8_t sync[SYNC];
};

/* Reads the `count` data of a block, and puts their copies; of a fault it tells the datum. */
typedef enum fault (*read_data)(struct walk *walk, uint64_t count, struct out *out, uint64_t *datum);

/* The entries of the metadata; the header must be in the first bytes of the file. */
static void read_entries_of_header(struct walk *walk, struct header *header) {
    for (;;) {
        struct items block;
        if (begin_items(walk, &block) != NONE) {
            stop("C2");
        }
        if (block.count == 0) {
            return;
        }
        for (uint64_t item = 0; item < block.count; item++) {
            int at = header->count;
            if (at == ENTRIES || read_text(walk, &header->keys[at]) != NONE || read_bytes(walk, &header->values[at]) != NONE) {
                stop("C2");
            }
            for (int before = 0; before < at; before++) {
                if (is_same(header->keys[before], header->keys[at])) {
                    stop("C2");
                }
            }
            header->count++;
        }
        if (end_items(walk, &block) != NONE) {
            stop("C2");
        }
    }
}

static struct slice text_of(const char *text) {
    return (struct slice){(const uint8_t *)text, strlen(text)};
}

static void read_header(struct input *input, struct header *header) {
    is_there(input, HEADER);
    const uint8_t *start = input->bytes;
    struct walk walk = {.at = start + 4, .end = start + input->end, .nodes_left = NODES};
    if (input->end < 4 || memcmp(start, "Obj\x01", 4) != 0) {
        stop("C1");
    }
    read_entries_of_header(&walk, header);
    if (walk.end - walk.at < SYNC) {
        stop("C16");
    }
    memcpy(header->sync, walk.at, SYNC);
    input->start = (size_t)(walk.at + SYNC - start);
    int has_schema = 0;
    for (int at = 0; at < header->count; at++) {
        has_schema |= is_same(header->keys[at], text_of("avro.schema"));
        if (is_same(header->keys[at], text_of("avro.codec")) && !is_same(header->values[at], text_of("null"))) {
            stop("C5");
        }
    }
    if (!has_schema) {
        stop("C3");
    }
}

/* Puts the header, with the text of a file in the place of the schema where one is named. */
static void put_header(int file, const struct header *header, const char *reader, struct out *out) {
    size_t length = 0;
    struct slice text = {reader == NULL ? NULL : read_file(reader, &length), 0};
    text.length = length;
    put(out, (const uint8_t *)"Obj\x01", 4);
    put_number(out, header->count);
    for (int at = 0; at < header->count; at++) {
        int is_schema = is_same(header->keys[at], text_of("avro.schema"));
        put_slice(out, header->keys[at]);
        put_slice(out, is_schema && reader != NULL ? text : header->values[at]);
    }
    put_number(out, 0);
    put(out, header->sync, SYNC);
    write_parts(file, &(struct iovec){out->bytes, out->length}, 1);
    free((void *)text.bytes);
}

static void put_block(int file, uint64_t count, struct out *body, const uint8_t *sync) {
    uint8_t front[20];
    struct out head = {front, 0, sizeof front};
    put_number(&head, (int64_t)count);
    put_number(&head, (int64_t)body->length);
    struct iovec parts[] = {{front, head.length}, {body->bytes, body->length}, {(void *)sync, SYNC}};
    write_parts(file, parts, 3);
}

/* A number of a block's start, which is not negative. */
static uint64_t count_in(struct walk *walk, int is_end) {
    int64_t count;
    enum fault fault = read_long(walk, &count);
    if (fault == END_OF_INPUT && is_end) {
        stop("C16");
    }
    if (fault != NONE || count < 0) {
        stop("C6");
    }
    return (uint64_t)count;
}

/* Reads the next block and puts its copy, if there is a file for it. */
static uint64_t copy_block(struct input *input, uint64_t number, const struct header *header, int file, read_data reads, struct out *out) {
    int is_end = !is_there(input, 20);
    struct walk start = {.at = input->bytes + input->start, .end = input->bytes + input->end};
    uint64_t count = count_in(&start, is_end);
    uint64_t size = count_in(&start, is_end);
    if (count > DATA_LIMIT || size > BLOCK_LIMIT) {
        stop("C9");
    }
    input->start = (size_t)(start.at - input->bytes);
    if (!is_there(input, size + SYNC)) {
        stop("C16");
    }
    const uint8_t *body = input->bytes + input->start;
    if (memcmp(body + size, header->sync, SYNC) != 0) {
        stop("C8");
    }
    struct walk walk = {.at = body, .end = body + size};
    uint64_t datum;
    out->length = 0;
    enum fault fault = reads(&walk, count, out, &datum);
    if (fault != NONE) {
        fprintf(stderr, "block %lu datum %lu: B%d at %td\n", number, datum, fault, walk.place - body);
        exit(3);
    }
    if (walk.at != walk.end || out->length > BLOCK_LIMIT) {
        stop(walk.at != walk.end ? "C7" : "C9");
    }
    if (file >= 0) {
        put_block(file, count, out, header->sync);
    }
    input->start += size + SYNC;
    return count;
}

/* Checks a file, or copies it. */
static int copy_file(const char *from, const char *to, const char *reader, read_data reads) {
    struct input input = {.file = open(from, O_RDONLY)};
    struct header header = {0};
    struct out out = {0};
    if (input.file < 0) {
        stop("cannot read");
    }
    read_header(&input, &header);
    int file = to == NULL ? -1 : open(to, O_WRONLY | O_CREAT | O_TRUNC, 0644);
    if (to != NULL && file < 0) {
        stop("cannot write");
    }
    if (to != NULL) {
        put_header(file, &header, reader, &out);
    }
    uint64_t data = 0, blocks = 0;
    while (is_there(&input, 1)) {
        data += copy_block(&input, blocks, &header, file, reads, &out);
        blocks++;
    }
    printf("data %lu blocks %lu\n", data, blocks);
    return 0;
}
