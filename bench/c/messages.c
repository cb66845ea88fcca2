/*
 * Reads encoded data that follow one another into a reader's schema: by avrojudge_read_texts, or by Apache Avro C's generic
 * reader.
 *
 *     messages library|calls|peer WRITER READER DATA LENGTHS
 *
 * LENGTHS has the length of each of the data, as a size_t. It prints the status, or how many were read. `library` is one call,
 * `calls` a call for 10,000 of the data each, whose lines go into the same buffer.
 */
#include <avro.h>
#include <avrojudge.h>
#include <stdio.h>
#include <stdlib.h>
#include <string.h>

typedef struct {
    uint8_t *bytes;
    size_t length;
} file;

static file read_file(const char *path) {
    file read = {NULL, 0};
    FILE *from = fopen(path, "rb");
    if (from == NULL || fseek(from, 0, SEEK_END) != 0) exit(4);
    read.length = (size_t)ftell(from);
    read.bytes = malloc(read.length + 1);
    rewind(from);
    if (read.bytes == NULL || fread(read.bytes, 1, read.length, from) != read.length) exit(4);
    fclose(from);
    return read;
}

/* One call that has room for all lines. */
static unsigned by_library(file writer, file reader, file data, file lengths) {
    avrojudge_reading asked = {0, 1, 0, 0, 0};
    size_t count = lengths.length / sizeof(size_t), wanted, room = 4 * data.length + 64 * count;
    uint8_t *out = malloc(room);
    if (out == NULL) exit(5);
    unsigned status = avrojudge_read_texts(writer.bytes, writer.length, reader.bytes, reader.length, data.bytes,
                                           data.length, (const size_t *)lengths.bytes, count, &asked, out, room, &wanted);
    if (wanted > room) exit(1);
    return status;
}

/* The number of bytes of some data. */
static size_t length_of(const size_t *lengths, size_t count) {
    size_t bytes = 0;
    for (size_t i = 0; i < count; i++) bytes += lengths[i];
    return bytes;
}

/* A call for so many data, with one buffer for the lines of each call. */
static unsigned by_calls(file writer, file reader, file data, file lengths, size_t each) {
    avrojudge_reading asked = {0, 1, 0, 0, 0};
    const size_t *length = (const size_t *)lengths.bytes;
    size_t count = lengths.length / sizeof(size_t), place = 0, wanted, room = 1024 * each;
    uint8_t *out = malloc(room);
    if (out == NULL) exit(5);
    for (size_t i = 0; i < count; i += each) {
        size_t part = count - i < each ? count - i : each, bytes = length_of(length + i, part);
        unsigned status = avrojudge_read_texts(writer.bytes, writer.length, reader.bytes, reader.length, data.bytes + place,
                                               bytes, length + i, part, &asked, out, room, &wanted);
        if (status != 0 || wanted > room) exit(1);
        place += bytes;
    }
    return 0;
}

/* One value, into which each is read. */
static unsigned by_peer(file writer, file reader, file data, file lengths) {
    const size_t *length = (const size_t *)lengths.bytes;
    size_t count = lengths.length / sizeof(size_t), place = 0;
    avro_schema_t from, into;
    if (avro_schema_from_json_length((char *)writer.bytes, writer.length, &from) != 0) exit(3);
    if (avro_schema_from_json_length((char *)reader.bytes, reader.length, &into) != 0) exit(3);
    avro_value_iface_t *values = avro_generic_class_from_schema(into);
    avro_value_iface_t *resolved = avro_resolved_writer_new(from, into);
    avro_value_t value, resolving;
    if (resolved == NULL || avro_generic_value_new(values, &value) != 0) exit(3);
    if (avro_resolved_writer_new_value(resolved, &resolving) != 0) exit(3);
    avro_resolved_writer_set_dest(&resolving, &value);
    avro_reader_t source = avro_reader_memory(NULL, 0);
    for (size_t i = 0; i < count; i++) {
        avro_reader_memory_set_source(source, (const char *)data.bytes + place, (int64_t)length[i]);
        avro_value_reset(&value);
        if (avro_value_read(source, &resolving) != 0) exit(3);
        place += length[i];
    }
    return (unsigned)count;
}

int main(int argc, char **argv) {
    if (argc != 6) return 64;
    file writer = read_file(argv[2]), reader = read_file(argv[3]), data = read_file(argv[4]), lengths = read_file(argv[5]);
    unsigned answer;
    if (strcmp(argv[1], "peer") == 0) {
        answer = by_peer(writer, reader, data, lengths);
    } else if (strcmp(argv[1], "calls") == 0) {
        answer = by_calls(writer, reader, data, lengths, 10000);
    } else {
        answer = by_library(writer, reader, data, lengths);
    }
    printf("%u\n", answer);
    return 0;
}
