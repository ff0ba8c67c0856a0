/* What the example hosts share: a file is read, what it holds is told, and the exit status goes with that. */
#ifndef ON_FILE_H
#define ON_FILE_H

#include "gcr_reader.h"
#include <stdio.h>

#define LOST 3 /* the file could not be read, or the lines could not be written */

/* The first bytes of a file, `most` of them or all there are; 0 where it cannot be read. */
static int read_bytes(const char *name, uint8_t *bytes, size_t most, size_t *len) {
    FILE *file = fopen(name, "rb");
    if (!file)
        return 0;
    *len = fread(bytes, 1, most, file);
    int was_read = !ferror(file);
    return fclose(file) == 0 && was_read;
}

/* `tell` writes the lines about a record, and gives the exit status that goes with them. */
static int host(int argc, char **argv, const char *name, int (*tell)(const uint8_t *record, size_t len)) {
    static uint8_t record[GCR_RECORD_MOST + 1]; /* one byte more, so that a longer file is refused and not cut */
    size_t len;
    if (argc != 2) {
        fprintf(stderr, "usage: %s RECORD\n", name);
        return LOST;
    }
    if (!read_bytes(argv[1], record, sizeof record, &len)) {
        perror(argv[1]);
        return LOST;
    }
    int status = tell(record, len);
    if (fflush(stdout) != 0 || ferror(stdout)) {
        fputs("the lines can't be written\n", stderr);
        return LOST;
    }
    return status;
}

/* The line of what was refused, and its exit status. */
static int tell_refusal(uint64_t answer) {
    printf("refused %u %u\n", gcr_refused_number(answer), gcr_refused_place(answer));
    return 2;
}

#endif
