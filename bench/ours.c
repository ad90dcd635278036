#include "pankholim.h"
#include "readers.h"

#include <stdlib.h>

/* One terminal at a time. */
static struct {
    pankholim_terminal record;
    uint16_t page[PANKHOLIM_CELLS(PANKHOLIM_MAX_ROWS)], line[PANKHOLIM_LINE_CELLS];
    size_t cells;
    uint64_t replied;
} it;

static void *start(size_t rows)
{
    it.cells = PANKHOLIM_CELLS(rows);
    it.replied = 0;
    if (pankholim_start(&it.record, rows, it.page, it.cells, it.line, PANKHOLIM_LINE_CELLS) != PANKHOLIM_DONE)
        abort();
    return &it;
}

static uint64_t feed(void *terminal, const uint8_t *bytes, size_t length)
{
    uint8_t reply[256];
    size_t read, replied;
    uint64_t rows;
    uint32_t count;
    uint8_t answer, line_changed;

    (void)terminal;
    do {
        answer = pankholim_feed(&it.record, it.page, it.cells, it.line, PANKHOLIM_LINE_CELLS, bytes, length, reply,
                                sizeof reply, &read, &replied);
        it.replied += replied;
        bytes += read;
        length -= read;
    } while (answer == PANKHOLIM_NO_ROOM);
    if (answer != PANKHOLIM_DONE || pankholim_ask(&it.record, &rows, &count, &line_changed) != PANKHOLIM_DONE)
        abort();
    return rows;
}

static uint64_t replied_of(void *terminal)
{
    (void)terminal;
    return it.replied;
}

static uint8_t read_code(void *terminal, size_t row, size_t column)
{
    uint16_t word = it.page[row * PANKHOLIM_COLUMNS + column];

    (void)terminal;
    return pankholim_set_of(word) == PANKHOLIM_ASCII ? pankholim_code(word) : 0;
}

static void stop(void *terminal)
{
    (void)terminal;
}

const struct reader ours = { "ours", start, feed, replied_of, read_code, NULL, stop };
