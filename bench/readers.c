#define _POSIX_C_SOURCE 199309L
#include "readers.h"

#include <string.h>
#include <time.h>

double processor_time(void)
{
    struct timespec time;

    clock_gettime(CLOCK_PROCESS_CPUTIME_ID, &time);
    return 1e9 * (double)time.tv_sec + (double)time.tv_nsec;
}

/* callgrind counts between its entry and its end, so it is no part of another function. */
__attribute__((noinline)) uint64_t feed_chunks(const struct reader *reader, void *terminal, const uint8_t *bytes,
                                               size_t length, size_t chunk)
{
    uint64_t changed = 0;
    size_t at;

    /* A set is folded in as FNV-1a does a byte. */
    for (at = 0; at < length; at += chunk)
        changed = (changed ^ reader->feed(terminal, bytes + at, length - at < chunk ? length - at : chunk)) *
                  0x100000001B3u;
    return changed;
}

double feed_stream(const struct reader *reader, size_t rows, const uint8_t *bytes, size_t length, size_t chunk,
                   struct outcome *outcome)
{
    void *terminal = reader->start(rows);
    double from, to;
    size_t row, column;

    memset(outcome, 0, sizeof *outcome);
    from = processor_time();
    outcome->changed = feed_chunks(reader, terminal, bytes, length, chunk);
    to = processor_time();
    outcome->replied = reader->replied(terminal);
    for (row = 0; row < rows; row++)
        for (column = 0; column < COLUMNS; column++)
            outcome->page[row * COLUMNS + column] = reader->read(terminal, row, column);
    reader->stop(terminal);
    return to - from;
}
