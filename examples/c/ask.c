/* ask DUMP LINES: maps the dump into memory, opens it there, and prints the reply to each line of the
 * file LINES, as `sux query DUMP < LINES` does. */
#define _POSIX_C_SOURCE 200809L
#include "sux.h"

#include <fcntl.h>
#include <inttypes.h>
#include <stdio.h>
#include <stdlib.h>
#include <sys/mman.h>
#include <sys/stat.h>
#include <unistd.h>

/* the words of a file, none where it can't be mapped; `bytes` gets its size */
static const uint64_t *map_file(const char *name, uint64_t *bytes) {
    int file = open(name, O_RDONLY);
    struct stat about;
    if (file < 0 || fstat(file, &about) != 0) {
        perror(name);
        return NULL;
    }
    *bytes = (uint64_t)about.st_size;
    if (*bytes == 0) {
        close(file);
        return sux_no_words;
    }
    void *memory = mmap(NULL, (size_t)*bytes, PROT_READ, MAP_PRIVATE, file, 0);
    close(file);
    if (memory == MAP_FAILED) {
        perror(name);
        return NULL;
    }
    return memory;
}

/* prints the reply to each line; whether all of them could be asked */
static bool ask_all(const sux_dump *dump, FILE *lines) {
    char *line = NULL;
    size_t room = 0;
    ssize_t length;
    bool all = true;
    while (all && (length = getline(&line, &room, lines)) > 0) {
        if (line[length - 1] == '\n') {
            length--;
        }
        uint64_t value = 0;
        uint8_t status = sux_reply(dump, (const uint8_t *)line, (size_t)length, &value);
        if (status == SUX_DONE) {
            printf("%" PRIu64 "\n", value);
        } else if (status == SUX_NO_NUMBER) {
            printf("-1\n");
        } else {
            fprintf(stderr, "a line is too long\n");
            all = false;
        }
    }
    free(line);
    return all;
}

/* opens the dump in these words; `room` gets memory for what a hollow trie is answered by beside them */
static uint8_t open_dump(const uint64_t *words, uint64_t bytes, sux_dump *dump, uint64_t **room) {
    size_t count = (size_t)((bytes + 7) / 8);
    uint8_t check = 0;
    uint64_t wanted = 0;
    uint8_t status = sux_open(words, count, bytes, NULL, 0, dump, &check, &wanted);
    if (status == SUX_NO_ROOM) {
        *room = malloc((size_t)wanted * sizeof **room);
        if (*room == NULL) {
            return SUX_NO_MEMORY;
        }
        status = sux_open(words, count, bytes, *room, (size_t)wanted, dump, &check, &wanted);
    }
    if (status == SUX_NO_DUMP) {
        fprintf(stderr, "check %d fails\n", check);
    }
    return status;
}

int main(int count, char **names) {
    if (count != 3) {
        fprintf(stderr, "usage: ask DUMP LINES\n");
        return 2;
    }
    uint64_t bytes = 0;
    const uint64_t *words = map_file(names[1], &bytes);
    if (words == NULL) {
        return 5;
    }
    sux_dump dump = SUX_DUMP_CLOSED;
    uint64_t *room = NULL;
    uint8_t status = open_dump(words, bytes, &dump, &room);
    if (status != SUX_DONE) {
        fprintf(stderr, "%s: not opened, status %d\n", names[1], status);
        return status == SUX_NO_DUMP ? 4 : 5;
    }
    FILE *lines = fopen(names[2], "rb");
    if (lines == NULL) {
        perror(names[2]);
        return 5;
    }
    bool all = ask_all(&dump, lines);
    fclose(lines);
    free(room);
    return all && fflush(stdout) == 0 ? 0 : 1;
}
