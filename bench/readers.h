/* The three libraries, each behind the same few functions: a terminal of 80 columns is fed a stream in chunks, and after
 * each chunk the rows that changed are asked for. */
#ifndef READERS_H
#define READERS_H

#include <stddef.h>
#include <stdint.h>

enum { ROWS = 24, MAX_ROWS = 48, COLUMNS = 80, CHUNK = 4096, READERS = 3 };

struct memory {
    size_t bytes, pieces;
};

struct reader {
    const char *name;
    /* A fresh terminal, of which no row is noted as changed. */
    void *(*start)(size_t rows);
    /* Feeds a chunk, and answers the set of rows that changed, row 1 as the lowest bit. */
    uint64_t (*feed)(void *terminal, const uint8_t *bytes, size_t length);
    /* Bytes replied since the start. */
    uint64_t (*replied)(void *terminal);
    /* The code of a cell, row and column from 0, or 0 where it has no code of ASCII. */
    uint8_t (*read)(void *terminal, size_t row, size_t column);
    /* What it has allocated, or NULL where it allocates nothing. */
    void (*memory)(void *terminal, struct memory *memory);
    void (*stop)(void *terminal);
};

extern const struct reader ours, libvterm, alacritty;

/* What came out: folded together, so that nothing is left undone. */
struct outcome {
    uint64_t changed;
    uint64_t replied;
    uint8_t page[MAX_ROWS * COLUMNS];
};

/* Feeds a terminal in chunks, and answers the sets of changed rows folded together. */
uint64_t feed_chunks(const struct reader *reader, void *terminal, const uint8_t *bytes, size_t length, size_t chunk);

/* Feeds a fresh terminal. Only the feeding and the asking are timed: the answer is their nanoseconds. */
double feed_stream(const struct reader *reader, size_t rows, const uint8_t *bytes, size_t length, size_t chunk,
                   struct outcome *outcome);

/* Nanoseconds of this program's processor time: what else runs on the machine does not count. */
double processor_time(void);

#endif
