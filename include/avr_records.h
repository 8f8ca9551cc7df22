/*
 * Reads record files of microcontrollers' memories, Intel HEX and Motorola S-records, into a memory that the caller
 * lends, and writes them from one.
 *
 * examples/c/build.sh makes the archive libavr_records.a with these functions, and the shared library
 * libavr_records.so. Except for the time of a call, all that this header states is proved (crates/avr_records_c) for
 * callers that follow these rules:
 *
 * - No pointer is NULL, even with length 0. Each points to as many bytes as its length says. Nothing else writes to
 *   them during the call. What a function changes overlaps none of its other arguments.
 * - malloc, realloc and free come from one allocator. A call allocates with them and frees all before it returns. So
 *   don't call from a signal handler, or in the forked child of a process with threads.
 *
 * Nothing is global and nothing outlives a call, so calls from several threads need no lock.
 *
 * A memory of `size` bytes is its bytes, address 0 first, and a bitmap of those that are there: bit n % 8 (0 is the
 * lowest) of octet n / 8 is 1 if address n holds a byte.
 */
#ifndef AVR_RECORDS_H
#define AVR_RECORDS_H

#include <stdbool.h>
#include <stddef.h>
#include <stdint.h>

#ifdef __cplusplus
extern "C" {
#endif

/* The version of avrstk that this header belongs to, as a text and as numbers. */
#define AVR_RECORDS_VERSION "0.9.0"
#define AVR_RECORDS_VERSION_MAJOR 0
#define AVR_RECORDS_VERSION_MINOR 9
#define AVR_RECORDS_VERSION_PATCH 0

/* The version as one number, which avr_records_version returns: 900 for 0.9.0. */
#define AVR_RECORDS_VERSION_NUMBER \
    (10000 * AVR_RECORDS_VERSION_MAJOR + 100 * AVR_RECORDS_VERSION_MINOR + AVR_RECORDS_VERSION_PATCH)

/* Formats of files. */
enum {
    AVR_RECORDS_RAW = 0,  /* raw bytes */
    AVR_RECORDS_IHEX = 1, /* Intel HEX */
    AVR_RECORDS_SREC = 2, /* Motorola S-records */
    AVR_RECORDS_ELF = 3   /* an executable in the ELF format */
};

/* Faults. Those of a line come with its 1-based number. */
enum {
    AVR_RECORDS_BAD_MARK = 1,      /* the line doesn't begin with ':', or with 'S' and a decimal digit */
    AVR_RECORDS_BAD_DIGIT = 2,     /* after the mark there is something other than hexadecimal digits */
    AVR_RECORDS_BAD_LENGTH = 3,    /* the number of digits isn't what the record says or its type requires */
    AVR_RECORDS_BAD_SUM = 4,       /* the checksum doesn't match the record's other bytes */
    AVR_RECORDS_BAD_TYPE = 5,      /* no record has this type */
    AVR_RECORDS_OUT_OF_RANGE = 6,  /* an address, which comes with the fault, is outside the memory */
    AVR_RECORDS_LINE_TOO_LONG = 7, /* the line is longer than 600 bytes */
    AVR_RECORDS_BAD_COUNT = 8,     /* the record's count differs from the number of data records before it */
    AVR_RECORDS_NO_MEMORY = 10,    /* malloc failed */
    AVR_RECORDS_MISFIT = 11,       /* the arguments don't fit one another: see the functions */
    AVR_RECORDS_NO_RECORDS = 12    /* the file is no record file: raw bytes or an executable */
};

/* The number of octets of the bitmap of `size` bytes. */
#define AVR_RECORDS_BITMAP(size) (((size_t)(size) + 7) / 8)

/* Whether the address holds a byte by the bitmap. */
#define AVR_RECORDS_IS_THERE(present, address) ((((present)[(address) / 8]) >> ((address) % 8)) & 1)

/* How a read ended: it succeeded if `fault` is 0. */
struct avr_records_outcome {
    uint32_t line;    /* the 1-based line at fault, or 0 */
    uint32_t address; /* for AVR_RECORDS_OUT_OF_RANGE the line's first byte address outside the memory; else 0 */
    uint8_t fault;    /* 0, or the number of the fault */
    bool ended;       /* whether the end record came; only this shows that a file was cut short at a line's end */
};

/* How far a file is written; only avr_records_write may change these numbers. */
struct avr_records_cursor {
    uint32_t address;     /* all bytes below this address are in lines that were put */
    uint32_t gone;        /* how many bytes of the next line were put */
    uint16_t upper;       /* Intel HEX: the upper half of the address now in force */
    uint8_t address_size; /* S-records: how many bytes an address has, 2 to 4; 0 at the beginning */
    uint8_t ended;        /* 1 if the end record was put, else 0 */
};

/* A cursor at a file's beginning: struct avr_records_cursor cursor = AVR_RECORDS_START; */
#define AVR_RECORDS_START {0, 0, 0, 0, 0}

/* How much of a file was put, or how long it is; valid if `fault` is 0. */
struct avr_records_piece {
    size_t length; /* in bytes; at the file's end fewer than the buffer takes, or 0 */
    uint8_t fault; /* 0, or the number of the fault */
};

/* Detects the format of a file (AVR_RECORDS_RAW, _IHEX, _SREC or _ELF) from its first 1,024 bytes. */
uint8_t avr_records_detect(const uint8_t *first, size_t length);

/*
 * Reads a whole file of a format (AVR_RECORDS_IHEX or _SREC) into the bytes of a memory, FF in gaps, and into its
 * bitmap. Start addresses and the headers of S-records (S0) are dropped. After a fault bytes and bitmap are
 * unchanged.
 *
 * AVR_RECORDS_MISFIT: the format is unknown, the file or memory has 2 to the power 32 bytes or more, or the bitmap
 * doesn't have AVR_RECORDS_BITMAP(size) octets. AVR_RECORDS_NO_RECORDS: all these fit, but the format is
 * AVR_RECORDS_RAW or _ELF. So the result of avr_records_detect can be passed on as it is.
 */
struct avr_records_outcome avr_records_read(uint8_t format, const uint8_t *file, size_t length,
                                            uint8_t *bytes, size_t size, uint8_t *present, size_t octets);

/*
 * Puts the next piece of a memory's file, in a format (AVR_RECORDS_IHEX or _SREC), into the buffer `room`: as many
 * bytes as the buffer takes, or as are left. The cursor keeps the position in the file; at the beginning it is
 * AVR_RECORDS_START. So the pieces of calls with one cursor, joined, are the file, whatever the sizes of the buffers. A
 * piece that is shorter than its buffer is the last one.
 *
 * A call allocates nothing. It takes the time of the bytes that it puts, of the gap before them, and of a line that the
 * last buffer cut, which is made again. At the beginning S-records also need the address of the memory's last byte.
 *
 * The file has the bytes that the bitmap marks, in records of at most 32 bytes, and the end record. It has no header
 * and no start address, which is 0 in the end record of S-records.
 *
 * AVR_RECORDS_MISFIT: the format is another one, the memory has 2 to the power 32 bytes or more, the bitmap doesn't
 * have AVR_RECORDS_BITMAP(size) octets, or the cursor is invalid. It is invalid if `ended` is above 1, or for
 * AVR_RECORDS_SREC if `address_size` is 1 or above 4. Buffer and cursor are then unchanged. A cursor that was otherwise
 * changed, or comes from another memory or format, is taken by its numbers: the result may be no file, but all else
 * that this header states holds.
 */
struct avr_records_piece avr_records_write(uint8_t format, const uint8_t *bytes, size_t size,
                                           const uint8_t *present, size_t octets,
                                           struct avr_records_cursor *cursor, uint8_t *room, size_t length);

/*
 * Returns the length in bytes of a memory's file, in a format (AVR_RECORDS_IHEX or _SREC), to get a buffer for the
 * whole file. The fault is AVR_RECORDS_MISFIT for the same arguments as in avr_records_write; the length is then 0. A
 * call allocates nothing and takes the time of writing the file.
 */
struct avr_records_piece avr_records_length(uint8_t format, const uint8_t *bytes, size_t size,
                                            const uint8_t *present, size_t octets);

/* The number of chars that hold any text of avr_records_fault_text and the 0 after it. */
#define AVR_RECORDS_FAULT_TEXT 40

/*
 * Puts the ASCII text of a fault's number and a 0 into the buffer `room`, and returns the number of chars of the text
 * without the 0. A buffer that is too small gets as much of the text as leaves space for the 0; if `length` is 0, it
 * gets nothing. The text of 0 is "no fault", that of an unknown number "no fault of this number".
 */
size_t avr_records_fault_text(uint8_t fault, char *room, size_t length);

/*
 * Returns AVR_RECORDS_VERSION_NUMBER of the library, so that a program can compare it with its header's. Until
 * version 1.0 each new MINOR, and from then on each new MAJOR, may change these declarations. The shared library then
 * has another name (libavr_records.so.0.9 for 0.9.0).
 */
uint32_t avr_records_version(void);

#ifdef __cplusplus
}
#endif

#endif
