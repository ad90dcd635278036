/*
 * Does what bench/counts counts, each between begin_count and end_count, and prints for each count its name and by how
 * much it is divided. Only instructions inside pankholim_feed and pankholim_ask are counted, and these call no other
 * library; so nothing here, and nothing of the C library, counts.
 */
#include "pankholim.h"
#include "readers.h"
#include "streams.h"

#include <stdio.h>
#include <stdlib.h>
#include <string.h>

enum { BYTES = 200000 };

/* The tool sets its counter to 0 at the entry of this one, */
__attribute__((noinline)) static void begin_count(void)
{
    __asm__ volatile("" : : : "memory");
}

/* and writes it down at the entry of this one. */
__attribute__((noinline)) static void end_count(const char *name, unsigned divisor)
{
    printf("%s %u\n", name, divisor);
    fflush(stdout);
}

static void count_stream(const struct stream *stream)
{
    static uint8_t bytes[BYTES];
    void *terminal = ours.start(ROWS);

    make_stream(stream, 1, bytes, sizeof bytes);
    begin_count();
    feed_chunks(&ours, terminal, bytes, sizeof bytes, CHUNK);
    end_count(stream->name, sizeof bytes);
}

/* ---- a call */

static pankholim_terminal terminal;
static uint16_t page[PANKHOLIM_CELLS(ROWS)], line[PANKHOLIM_LINE_CELLS];

static void feed(const char *bytes)
{
    uint8_t reply[PANKHOLIM_REPLY_ROOM];
    size_t length = strlen(bytes), read, replied;

    if (pankholim_feed(&terminal, page, PANKHOLIM_CELLS(ROWS), line, PANKHOLIM_LINE_CELLS, (const uint8_t *)bytes, length,
                       reply, sizeof reply, &read, &replied) != PANKHOLIM_DONE)
        abort();
}

static void ask(void)
{
    uint64_t rows;
    uint32_t count;
    uint8_t line_changed;

    if (pankholim_ask(&terminal, &rows, &count, &line_changed) != PANKHOLIM_DONE)
        abort();
}

struct call {
    const char *name;
    /* What is fed before. */
    const char *before;
    /* The byte, or NULL. */
    const char *byte;
    int asks;
};

static const struct call calls[] = {
    { "character", "\033[12;40H", "a", 0 },
    { "character+ask", "\033[12;40H", "a", 1 },
    { "digit", "\033[1", "2", 0 },
    { "digit+ask", "\033[1", "2", 1 },
    { "final", "\033[12;40", "H", 0 },
    { "final+ask", "\033[12;40", "H", 1 },
    { "tab", "\033[3g\033[1;80H\033H\033[1;1H", "\t", 0 },
    { "ask", "\033[12;40H", NULL, 1 },
};

/* On a fresh terminal, nothing noted as changed. */
static void count_call(const struct call *call)
{
    if (pankholim_start(&terminal, ROWS, page, PANKHOLIM_CELLS(ROWS), line, PANKHOLIM_LINE_CELLS) != PANKHOLIM_DONE)
        abort();
    feed(call->before);
    ask();
    begin_count();
    if (call->byte != NULL)
        feed(call->byte);
    if (call->asks)
        ask();
    end_count(call->name, 1);
}

int main(void)
{
    size_t i;

    for (i = 0; i < STREAMS; i++)
        count_stream(&streams[i]);
    for (i = 0; i < sizeof calls / sizeof calls[0]; i++)
        count_call(&calls[i]);
    return 0;
}
