/*
 * The answers of the program `avro` as a library for C.
 *
 * Texts. Each call takes the bytes of whole texts, by a pointer and a length: schemas as JSON in UTF-8, certificates as
 * `avro judge --certificate` writes them. They need no zero byte at their end, and are only read. A pointer is never
 * NULL, also for a length of 0. A schema's text of more than 1,048,576 bytes is refused with S12.
 *
 * The answer's text. It is what the program prints, without a zero byte at its end. `out` has room for `room` bytes and
 * is never NULL; the call puts there as much of the text as there is room for, and changes nothing after it. `wanted`
 * gets the length of the whole text: where it is greater than `room`, the text was cut, and the same call with `wanted`
 * bytes of room gives all of it. `out` and `wanted` overlap with nothing else that the call takes.
 *
 * Statuses. Each call returns one of those below. After AVROJUDGE_OUT_OF_MEMORY and AVROJUDGE_USAGE there is no text,
 * and `wanted` is 0.
 *
 * Ownership. A call keeps nothing: it frees what it allocates, by the program's malloc, realloc and free, and no
 * pointer outlives it.
 *
 * Threads. There is no state between calls. Calls may run at once in any number of threads, as long as no two share an
 * `out` or a `wanted`. None is made from a signal handler, or in the child of a fork of a process with threads.
 *
 * Stack. Each thread that calls needs 512 KiB of stack or more, which is more than the default of some systems'
 * threads.
 */
#ifndef AVROJUDGE_H
#define AVROJUDGE_H

#include <stddef.h>
#include <stdint.h>

#ifdef __cplusplus
extern "C" {
#endif

enum avrojudge_status {
    /* Good, yes or confirmed. */
    AVROJUDGE_YES = 0,
    /* No, or not confirmed. */
    AVROJUDGE_NO = 1,
    /* Undecided: a limit is passed. */
    AVROJUDGE_UNDECIDED = 2,
    /*
     * A text is refused. The answer's text is the program's line for a file of the name `writer`, `reader`,
     * `certificate` or `data`, as "avro: writer: S2\n"; docs/COMMANDS.md has the codes.
     */
    AVROJUDGE_REFUSED = 3,
    /* Memory ran out. */
    AVROJUDGE_OUT_OF_MEMORY = 5,
    /* A number is out of its range, or lengths are not those of the texts. */
    AVROJUDGE_USAGE = 64
};

/* Limits of judging. A limit of 0 is the default one: avrojudge_limits limits = {.struct_size = sizeof limits}; */
typedef struct avrojudge_limits {
    /* sizeof(avrojudge_limits). A struct of another version of this header is AVROJUDGE_USAGE. */
    uint32_t struct_size;
    /* The product of the two numbers of nodes: 1 to 16,777,216, and 4,194,304 by default. */
    uint32_t pairs;
    /* The number of nodes of a datum that fails: 1 to 1,048,576, and 4,096 by default. */
    uint32_t size;
    /* Its depth: 1 to 256, and 128 by default. */
    uint32_t depth;
} avrojudge_limits;

/* How data are read. A limit of 0 is the default one. */
typedef struct avrojudge_reading {
    /* How many bytes are skipped before the datum; 5 for a registry's messages. */
    size_t skip;
    /* 1 where there is a reader's text; 0 where there is none, and the one that is given is not looked at. */
    uint32_t has_reader;
    /* The greatest depth of a datum: 1 to 256, and 128 by default. */
    uint32_t depth;
    /* Its greatest number of nodes: 1 to 16,777,216, and 1,048,576 by default. */
    uint32_t nodes;
    /* The greatest length of one of its strings, bytes, keys or fixeds: 1 to 16,777,216, which is the default. */
    uint32_t blob;
} avrojudge_reading;

/* What avrojudge_schema_text shows. */
enum avrojudge_shown {
    /* "ok N\n", for a schema of N nodes. */
    AVROJUDGE_COUNT = 0,
    /* The Parsing Canonical Form and a line feed. */
    AVROJUDGE_CANONICAL = 1,
    /* The 64 digits of its SHA-256 and a line feed. */
    AVROJUDGE_FINGERPRINT = 2
};

/*
 * Does the reader's schema read all data of the writer's, as `avro judge`? AVROJUDGE_YES, AVROJUDGE_NO with the fault
 * and a least datum that fails, or AVROJUDGE_UNDECIDED with the cause.
 */
uint32_t avrojudge_judge_text(const uint8_t *writer, size_t writer_length, const uint8_t *reader, size_t reader_length,
                              const avrojudge_limits *limits, uint8_t *out, size_t room, size_t *wanted);

/* The same as a line of JSON, as `avro judge --json`. */
uint32_t avrojudge_judge_json_text(const uint8_t *writer, size_t writer_length, const uint8_t *reader,
                                   size_t reader_length, const avrojudge_limits *limits, uint8_t *out, size_t room,
                                   size_t *wanted);

/*
 * All faults of two schemas by names, as `avro explain`: AVROJUDGE_YES where there is none, AVROJUDGE_NO with a line
 * for each, or AVROJUDGE_UNDECIDED where the roots lead to more than `max_pairs` pairs of nodes. `max_pairs` is 1 to
 * 16,777,216; 0 is 4,194,304.
 */
uint32_t avrojudge_explain_text(const uint8_t *writer, size_t writer_length, const uint8_t *reader,
                                size_t reader_length, uint32_t max_pairs, uint8_t *out, size_t room, size_t *wanted);

/* The same as a line of JSON, as `avro explain --json`. */
uint32_t avrojudge_explain_json_text(const uint8_t *writer, size_t writer_length, const uint8_t *reader,
                                     size_t reader_length, uint32_t max_pairs, uint8_t *out, size_t room,
                                     size_t *wanted);

/*
 * The certificate of a yes, as `avro judge --certificate` writes it. AVROJUDGE_YES, or without a text AVROJUDGE_NO or
 * AVROJUDGE_UNDECIDED.
 */
uint32_t avrojudge_certify_text(const uint8_t *writer, size_t writer_length, const uint8_t *reader,
                                size_t reader_length, const avrojudge_limits *limits, uint8_t *out, size_t room,
                                size_t *wanted);

/* Does the certificate show that the two schemas are compatible, as `avro confirm`? AVROJUDGE_YES or AVROJUDGE_NO. */
uint32_t avrojudge_confirm_text(const uint8_t *writer, size_t writer_length, const uint8_t *reader,
                                size_t reader_length, const uint8_t *certificate, size_t certificate_length,
                                uint8_t *out, size_t room, size_t *wanted);

/*
 * Does the last schema read all data of each one before it, as `avro history`? The texts follow one another in `texts`;
 * `lengths` has the length of each, in order, and there are at least two. The answer's text has a line for each schema
 * but the last, which begins with its number, from 0. AVROJUDGE_NO where some line is a no, else AVROJUDGE_UNDECIDED
 * where some is undecided, else AVROJUDGE_YES. AVROJUDGE_USAGE where there are fewer than two lengths, where their sum
 * is not `texts_length`, or where a limit is out of range.
 */
uint32_t avrojudge_history_text(const uint8_t *texts, size_t texts_length, const size_t *lengths, size_t lengths_count,
                                const avrojudge_limits *limits, uint8_t *out, size_t room, size_t *wanted);

/* Shows a schema, as `avro schema`: AVROJUDGE_YES, or AVROJUDGE_REFUSED with a line that names `writer`. */
uint32_t avrojudge_schema_text(const uint8_t *text, size_t text_length, uint32_t shown, uint8_t *out, size_t room,
                               size_t *wanted);

/*
 * The datum that stands in data after the bytes that are skipped, whatever follows it, as `avro read`: AVROJUDGE_YES
 * with the length of its encoding and its display on two lines, resolved to the reader's schema where there is one.
 * AVROJUDGE_REFUSED where a text is refused, or the data, with the line of their first fault, as
 * "avro: data: B4 at 7\n".
 */
uint32_t avrojudge_read_text(const uint8_t *writer, size_t writer_length, const uint8_t *reader, size_t reader_length,
                             const uint8_t *data, size_t data_length, const avrojudge_reading *asked, uint8_t *out,
                             size_t room, size_t *wanted);

/*
 * The same of each of several data, which follow one another in `data`; `lengths` has the length of each, in order. The
 * schemas are read once. The answer's text has a line of JSON for each: {"bytes":11,"datum":{..}}, or
 * {"fault":"B4 at 7"}. AVROJUDGE_YES where each is read, else AVROJUDGE_NO. AVROJUDGE_USAGE where the sum of the
 * lengths is not `data_length`, or where a number is out of range.
 */
uint32_t avrojudge_read_texts(const uint8_t *writer, size_t writer_length, const uint8_t *reader, size_t reader_length,
                              const uint8_t *data, size_t data_length, const size_t *lengths, size_t lengths_count,
                              const avrojudge_reading *asked, uint8_t *out, size_t room, size_t *wanted);

/* The line that `avro --version` prints. AVROJUDGE_YES. */
uint32_t avrojudge_version(uint8_t *out, size_t room, size_t *wanted);

#ifdef __cplusplus
}
#endif

#endif
