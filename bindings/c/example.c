/*
 * Judges the schemas of two files, and explains a no.
 *
 *     example WRITER READER
 *
 * It prints what `avro judge` prints, after a no also what `avro explain` prints, and ends with the status.
 */
#include <stdio.h>
#include <stdlib.h>

#include "avrojudge.h"

/* One byte more than a schema's text may have, so that a longer file is refused as such. */
#define LONGEST 1048577

struct text {
    uint8_t *bytes;
    size_t length;
};

/* The bytes of a file; none where it cannot be read. */
static struct text read_file(const char *name) {
    struct text text = {malloc(LONGEST), 0};
    FILE *file = fopen(name, "rb");
    if (file == NULL || text.bytes == NULL) {
        free(text.bytes);
        text.bytes = NULL;
    } else {
        text.length = fread(text.bytes, 1, LONGEST, file);
    }
    if (file != NULL) {
        fclose(file);
    }
    return text;
}

/* Prints the verdict. The text of most verdicts fits the first room; a longer one is asked for once more. */
static uint32_t judge(struct text writer, struct text reader) {
    avrojudge_limits limits = {.struct_size = sizeof limits};
    size_t room = 4096, wanted = 0;
    uint8_t *out = malloc(room);
    uint32_t status = AVROJUDGE_OUT_OF_MEMORY;
    while (out != NULL) {
        status = avrojudge_judge_text(writer.bytes, writer.length, reader.bytes, reader.length, &limits, out, room, &wanted);
        if (wanted <= room) {
            fwrite(out, 1, wanted, status == AVROJUDGE_REFUSED ? stderr : stdout);
            free(out);
            return status;
        }
        free(out);
        room = wanted;
        out = malloc(room);
    }
    return AVROJUDGE_OUT_OF_MEMORY;
}

/* Prints the first faults, as far as the room takes them. */
static void explain(struct text writer, struct text reader) {
    uint8_t out[4096];
    size_t wanted;
    avrojudge_explain_text(writer.bytes, writer.length, reader.bytes, reader.length, 0, out, sizeof out, &wanted);
    fwrite(out, 1, wanted < sizeof out ? wanted : sizeof out, stdout);
}

int main(int count, char **words) {
    if (count != 3) {
        fputs("example WRITER READER\n", stderr);
        return AVROJUDGE_USAGE;
    }
    struct text writer = read_file(words[1]), reader = read_file(words[2]);
    if (writer.bytes == NULL || reader.bytes == NULL) {
        fputs("cannot read\n", stderr);
        return 4;
    }
    uint32_t status = judge(writer, reader);
    if (status == AVROJUDGE_NO) {
        explain(writer, reader);
    }
    free(writer.bytes);
    free(reader.bytes);
    return (int)status;
}
