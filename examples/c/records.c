/* Reads a record file and writes it as Intel HEX or as S-records: records FILE SIZE ihex|srec [ROOM] >OUT
 * SIZE is the size of the memory in bytes; ROOM is the number of bytes written at a time (default 4096).
 * Build it with the folder DIR that build.sh filled: cc -I../../include records.c DIR/libavr_records.a; or, if the
 * library is installed: cc records.c $(pkg-config --cflags --libs avr_records) */
#include "avr_records.h"

#include <errno.h>
#include <stdio.h>
#include <stdlib.h>
#include <string.h>

/* Returns a file's bytes, or NULL if it can't be read. */
static uint8_t *load(const char *name, size_t *length) {
    FILE *file = fopen(name, "rb");
    uint8_t *bytes = malloc(1);
    size_t room = 1, got = 0;
    *length = 0;
    while (file != NULL && bytes != NULL && (got = fread(bytes + *length, 1, room - *length, file)) > 0) {
        *length += got;
        if (*length == room) {
            uint8_t *more = realloc(bytes, room *= 2);
            if (more == NULL) free(bytes);
            bytes = more;
        }
    }
    if (file == NULL || bytes == NULL || ferror(file)) {
        free(bytes);
        bytes = NULL;
    }
    if (file != NULL) fclose(file);
    return bytes;
}

/* Parses an argument as a size: decimal digits, below 2 to the power 32. */
static bool is_size(const char *word, size_t *size) {
    char *end;
    errno = 0;
    unsigned long long told = strtoull(word, &end, 10);
    *size = (size_t)told;
    return word[0] >= '0' && word[0] <= '9' && *end == '\0' && errno == 0 && told <= UINT32_MAX;
}

/* Prints the memory as a record file, piece by piece. Returns the number of the fault, or 0. */
static uint8_t print(uint8_t format, const uint8_t *bytes, size_t size, const uint8_t *present, size_t length) {
    struct avr_records_cursor cursor = AVR_RECORDS_START;
    struct avr_records_piece piece;
    uint8_t *room = malloc(length);
    if (room == NULL) return AVR_RECORDS_NO_MEMORY;
    do {
        piece = avr_records_write(format, bytes, size, present, AVR_RECORDS_BITMAP(size), &cursor, room, length);
        /* (main checks stdout for errors) */
        fwrite(room, 1, piece.length, stdout);
    } while (piece.fault == 0 && piece.length == length);
    free(room);
    return piece.fault;
}

/* Prints what is wrong with a file, and in which line. */
static void complain(const char *name, struct avr_records_outcome read) {
    char text[AVR_RECORDS_FAULT_TEXT];
    avr_records_fault_text(read.fault, text, sizeof text);
    if (read.line == 0) {
        fprintf(stderr, "%s: %s\n", name, text);
    } else if (read.fault == AVR_RECORDS_OUT_OF_RANGE) {
        fprintf(stderr, "line %lu: %s: %08lX\n", (unsigned long)read.line, text, (unsigned long)read.address);
    } else {
        fprintf(stderr, "line %lu: %s\n", (unsigned long)read.line, text);
    }
}

int main(int argc, char **argv) {
    size_t length, size, room = 4096;
    if (argc < 4 || argc > 5 || !is_size(argv[2], &size) || (argc == 5 && (!is_size(argv[4], &room) || room == 0))) {
        fprintf(stderr, "usage: records FILE SIZE ihex|srec [ROOM]\n");
        return 2;
    }
    uint8_t *file = load(argv[1], &length);
    uint8_t *bytes = malloc(size > 0 ? size : 1), *present = malloc(AVR_RECORDS_BITMAP(size) + 1);
    if (file == NULL || bytes == NULL || present == NULL) {
        fprintf(stderr, "%s: cannot be read\n", argv[1]);
        return 2;
    }
    struct avr_records_outcome read = avr_records_read(avr_records_detect(file, length), file, length, bytes, size,
                                                       present, AVR_RECORDS_BITMAP(size));
    if (read.fault != 0) {
        complain(argv[1], read);
        return 1;
    }
    if (!read.ended) fprintf(stderr, "%s: no end record\n", argv[1]);
    uint8_t format = strcmp(argv[3], "srec") == 0 ? AVR_RECORDS_SREC : AVR_RECORDS_IHEX;
    uint8_t fault = print(format, bytes, size, present, room);
    free(file);
    free(bytes);
    free(present);
    if (fault != 0) {
        char text[AVR_RECORDS_FAULT_TEXT];
        avr_records_fault_text(fault, text, sizeof text);
        fprintf(stderr, "%s\n", text);
    }
    return fault == 0 && fflush(stdout) == 0 && !ferror(stdout) ? 0 : 1;
}
