/* build KEYS DUMP: builds the dump of kind func of the lines of the file KEYS in memory, and writes it
 * to the file DUMP, as `sux build func DUMP < KEYS` does. */
#define _POSIX_C_SOURCE 200809L
#include "sux.h"

#include <inttypes.h>
#include <stdio.h>
#include <stdlib.h>
#include <string.h>

/* the bytes of a file, none where it can't be read; `size` gets their number */
static char *read_file(const char *name, size_t *size) {
    FILE *file = fopen(name, "rb");
    char *bytes = NULL;
    size_t room = 0;
    *size = 0;
    while (file != NULL && !feof(file) && !ferror(file)) {
        room = 2 * room + 4096;
        char *more = realloc(bytes, room);
        if (more == NULL) {
            break;
        }
        bytes = more;
        *size += fread(bytes + *size, 1, room - *size, file);
    }
    if (file == NULL || !feof(file)) {
        perror(name);
        exit(5);
    }
    fclose(file);
    return bytes;
}

int main(int count, char **names) {
    if (count != 3) {
        fprintf(stderr, "usage: build KEYS DUMP\n");
        return 2;
    }
    size_t size = 0, keys = 0;
    char *bytes = read_file(names[1], &size);
    sux_line *lines = malloc((size + 1) * sizeof *lines);
    size_t room = 65536;
    uint64_t *words = malloc(room * sizeof *words);
    if (lines == NULL || words == NULL) {
        return 5;
    }
    for (size_t at = 0; at < size; keys++) {
        const char *end = memchr(bytes + at, '\n', size - at);
        size_t after = end == NULL ? size : (size_t)(end - bytes);
        lines[keys] = (sux_line){(const uint8_t *)bytes + at, after - at};
        at = after + 1;
    }
    const sux_plan plan = {.sig_bits = 192, .kind = SUX_FUNC};
    const uint64_t seeds[4] = {0, 1, 2, 3};
    sux_told told = {0};
    uint8_t status;
    while ((status = sux_build(lines, keys, NULL, 0, &plan, seeds, 4, words, room, &told)) == SUX_NO_ROOM) {
        free(words);
        room = (size_t)told.words;
        words = malloc(room * sizeof *words);
        if (words == NULL) {
            return 5;
        }
    }
    if (status != SUX_DONE) {
        fprintf(stderr, "status %d, key %" PRIu64 ", rule %" PRIu32 "\n", status, told.number, told.rule);
        return 3;
    }
    FILE *dump = fopen(names[2], "wb");
    bool all = dump != NULL && fwrite(words, 8, (size_t)told.words, dump) == told.words;
    if (dump == NULL || fclose(dump) != 0 || !all) {
        perror(names[2]);
        return 5;
    }
    printf("keys %zu seed %" PRIu64 " words %" PRIu64 "\n", keys, told.seed, told.words);
    free(words);
    free(lines);
    free(bytes);
    return 0;
}
