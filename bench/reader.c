/*
 * Times readers of record files, without a process for each file: avr_records_read, and a typical simple reader.
 *
 *     reader own|plain ihex|srec FILE SIZE ROUNDS     prints the best round in microseconds, and a checksum of the memory
 */
#include <stdio.h>
#include <stdlib.h>
#include <string.h>
#include <time.h>

#include "avr_records.h"

static int digit(int c)
{
    if (c >= '0' && c <= '9')
        return c - '0';
    if (c >= 'A' && c <= 'F')
        return c - 'A' + 10;
    if (c >= 'a' && c <= 'f')
        return c - 'a' + 10;
    return -1;
}

/* Decodes a line's digits. Returns the number of bytes, or -1. */
static int decode(const uint8_t *digits, size_t length, uint8_t *fields)
{
    if (length % 2 != 0 || length / 2 > 256)
        return -1;
    for (size_t i = 0; i < length / 2; i++) {
        int high = digit(digits[2 * i]), low = digit(digits[2 * i + 1]);
        if (high < 0 || low < 0)
            return -1;
        fields[i] = (uint8_t)(high * 16 + low);
    }
    return (int)(length / 2);
}

static int put(const uint8_t *from, int count, uint64_t address, uint8_t *bytes, size_t size)
{
    if (address + (uint64_t)count > size)
        return -1;
    memcpy(bytes + address, from, (size_t)count);
    return 0;
}

static uint32_t number(const uint8_t *bytes, int count)
{
    uint32_t n = 0;
    for (int i = 0; i < count; i++)
        n = n << 8 | bytes[i];
    return n;
}

/* Each returns 1 at an end record, 0 at another good line, and -1 at a faulty one. */
static int ihex_line(const uint8_t *fields, int count, uint32_t *base, uint8_t *bytes, size_t size)
{
    uint8_t sum = 0;
    for (int i = 0; i < count; i++)
        sum = (uint8_t)(sum + fields[i]);
    if (count < 5 || fields[0] != count - 5 || sum != 0)
        return -1;
    switch (fields[3]) {
    case 0:
        return put(fields + 4, fields[0], (uint64_t)*base + number(fields + 1, 2), bytes, size);
    case 1:
        return 1;
    case 2:
        *base = number(fields + 4, 2) * 16;
        return 0;
    case 4:
        *base = number(fields + 4, 2) << 16;
        return 0;
    default:
        return fields[3] > 5 ? -1 : 0;
    }
}

static int srec_line(int type, const uint8_t *fields, int count, uint8_t *bytes, size_t size)
{
    uint8_t sum = 0;
    for (int i = 0; i < count; i++)
        sum = (uint8_t)(sum + fields[i]);
    if (count < 3 || fields[0] != count - 1 || sum != 255)
        return -1;
    if (type >= 1 && type <= 3)
        return put(fields + 2 + type, count - 3 - type, number(fields + 1, 1 + type), bytes, size);
    return type >= 7;
}

static int plain_read(int format, const uint8_t *file, size_t length, uint8_t *bytes, size_t size)
{
    const uint8_t *end = file + length;
    uint32_t base = 0;
    memset(bytes, 255, size);
    while (file < end) {
        const uint8_t *line_end = memchr(file, '\n', (size_t)(end - file));
        const uint8_t *next = line_end ? line_end + 1 : end, *last = line_end ? line_end : end;
        uint8_t fields[256];
        int mark = format == AVR_RECORDS_IHEX ? 1 : 2;
        while (last > file && (last[-1] == '\r' || last[-1] == ' '))
            last--;
        if (last - file >= mark) {
            int count = decode(file + mark, (size_t)(last - file - mark), fields);
            int said = count < 0 ? -1 : mark == 1 ? ihex_line(fields, count, &base, bytes, size)
                                                  : srec_line(file[1] - '0', fields, count, bytes, size);
            if (said != 0)
                return said;
        }
        file = next;
    }
    return 0;
}

static int own_read(int format, const uint8_t *file, size_t length, uint8_t *bytes, size_t size)
{
    size_t octets = AVR_RECORDS_BITMAP(size);
    uint8_t *present = malloc(octets);
    struct avr_records_outcome read = avr_records_read((uint8_t)format, file, length, bytes, size, present, octets);
    free(present);
    return read.fault != 0 ? -1 : read.ended;
}

static double now(void)
{
    struct timespec time;
    clock_gettime(CLOCK_MONOTONIC, &time);
    return (double)time.tv_sec * 1e6 + (double)time.tv_nsec / 1e3;
}

int main(int count, char **words)
{
    if (count != 6)
        return 2;
    int format = strcmp(words[2], "ihex") == 0 ? AVR_RECORDS_IHEX : AVR_RECORDS_SREC;
    size_t size = strtoul(words[4], NULL, 0), room = 1 << 26;
    uint8_t *text = malloc(room), *bytes = malloc(size);
    FILE *file = fopen(words[3], "rb");
    size_t length = file ? fread(text, 1, room, file) : 0;
    double best = 1e18;
    uint32_t sum = 0;
    for (long round = strtol(words[5], NULL, 0); round > 0; round--) {
        double begin = now();
        int said = (strcmp(words[1], "own") == 0 ? own_read : plain_read)(format, text, length, bytes, size);
        double taken = now() - begin;
        if (said != 1)
            return 1;
        best = taken < best ? taken : best;
    }
    for (size_t i = 0; i < size; i++)
        sum = sum * 31 + bytes[i];
    printf("%.1f %u\n", best, sum);
    return 0;
}
