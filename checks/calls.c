/*
 * Judges two texts again and again: microseconds a call.
 *
 *     calls WRITER READER COUNT
 */
#define _POSIX_C_SOURCE 199309L

#include <stdio.h>
#include <stdlib.h>
#include <time.h>

#include "avrojudge.h"

static double seconds(void) {
    struct timespec now;
    clock_gettime(CLOCK_MONOTONIC, &now);
    return (double)now.tv_sec + (double)now.tv_nsec / 1e9;
}

static size_t read_file(const char *name, uint8_t *bytes, size_t room) {
    FILE *file = fopen(name, "rb");
    if (file == NULL) {
        perror(name);
        exit(4);
    }
    size_t length = fread(bytes, 1, room, file);
    fclose(file);
    return length;
}

int main(int count, char **words) {
    static uint8_t writer[1048577], reader[1048577], out[4096];
    if (count != 4) {
        return 64;
    }
    size_t writer_length = read_file(words[1], writer, sizeof writer);
    size_t reader_length = read_file(words[2], reader, sizeof reader);
    long calls = atol(words[3]);
    avrojudge_limits limits = {.struct_size = sizeof limits};
    size_t wanted;
    double start = seconds();
    for (long call = 0; call < calls; call++) {
        avrojudge_judge_text(writer, writer_length, reader, reader_length, &limits, out, sizeof out, &wanted);
    }
    printf("%.1f\n", (seconds() - start) * 1e6 / (double)calls);
    return 0;
}
