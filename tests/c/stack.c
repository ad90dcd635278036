/*
 * How much stack the calls take. Each runs on a stack of its own, which is painted before; the bytes from its far
 * end that still hold the paint were not used. What a call of an empty function takes is taken off.
 *
 *     stack CAPTURE...
 *
 * feeds the captures and random bytes, makes every other call with every answer, prints the most that any call
 * took, and exits with 1 if that is not less than the header says.
 */
#define _XOPEN_SOURCE 600
#include <stdio.h>
#include <string.h>
#include <ucontext.h>

#include "pankholim.h"

enum { STACK = 262144, PAINT = 0xA5, SAID = 2560, PIECE = 1000, ROUNDS = 300 };

static uint8_t stack[STACK];
static ucontext_t caller, callee;

static pankholim_terminal terminal;
static uint16_t page[PANKHOLIM_CELLS(48)], line[PANKHOLIM_LINE_CELLS];
static pankholim_part part;
static size_t rows, length, row, column, read_count, replied;
static uint8_t input[PIECE], reply[256], text[PANKHOLIM_TEXT_ROOM(48)], flag, wrap, shown;
static uint64_t changed;
static uint32_t count;
static uint16_t word;

static void nothing(void)
{
}

static void start(void)
{
    pankholim_start(&terminal, rows, page, PANKHOLIM_CELLS(rows), line, PANKHOLIM_LINE_CELLS);
}

static void feed(void)
{
    pankholim_feed(&terminal, page, PANKHOLIM_CELLS(rows), line, PANKHOLIM_LINE_CELLS, input, length, reply,
                   sizeof reply, &read_count, &replied);
}

static void ask(void)
{
    pankholim_ask(&terminal, &changed, &count, &flag);
}

/* With the record that goes by value. */
static void find_row(void)
{
    pankholim_row(terminal, page, PANKHOLIM_CELLS(rows), line, PANKHOLIM_LINE_CELLS, row, &part);
}

static void read_cell(void)
{
    pankholim_read(&terminal, page, PANKHOLIM_CELLS(rows), row, column, &word);
}

static void cursor(void)
{
    pankholim_cursor(&terminal, &row, &column, &wrap, &shown);
}

static void write_text(void)
{
    pankholim_write_text(page, PANKHOLIM_CELLS(rows), text, sizeof text, &length);
}

/* The bytes of its stack that a function used. */
static size_t used(void (*function)(void))
{
    size_t left = 0;

    memset(stack, PAINT, sizeof stack);
    getcontext(&callee);
    callee.uc_stack.ss_sp = stack;
    callee.uc_stack.ss_size = sizeof stack;
    callee.uc_link = &caller;
    makecontext(&callee, function, 0);
    swapcontext(&caller, &callee);
    while (left < sizeof stack && stack[left] == PAINT)
        left++;
    return sizeof stack - left;
}

static size_t most;

static void note(void (*function)(void))
{
    size_t taken = used(function) - used(nothing);

    if (taken > most)
        most = taken;
}

/* Feeds what `input` holds, and makes every other call. */
static void note_all(void)
{
    note(feed);
    note(ask);
    note(cursor);
    note(find_row);
    note(read_cell);
    note(write_text);
}

static uint64_t seed = 0x9E3779B97F4A7C15u;

static unsigned below(unsigned bound)
{
    seed ^= seed << 13;
    seed ^= seed >> 7;
    seed ^= seed << 17;
    return (unsigned)(seed >> 33) % bound;
}

/* A byte of a stream: often part of a sequence. */
static uint8_t random_byte(void)
{
    static const char parts[] = "\033\033[[[;;0123456789?!\"#$()HJKLMPXm@rhlgnc}~\n\r\b\tAB";

    return (uint8_t)(below(3) == 0 ? below(256) : (unsigned)(uint8_t)parts[below(sizeof parts - 1)]);
}

/* Such bytes, with a change to the line or back now and then. */
static void fill_input(void)
{
    static const char *const changes[] = { "\033[1$~\033[1$}", "\033[1$}", "\033[$}", "\033[$~" };
    const char *change = "";

    for (length = 0; length < sizeof input; length++) {
        if (*change == '\0' && below(100) == 0)
            change = changes[below(4)];
        input[length] = *change != '\0' ? (uint8_t)*change++ : random_byte();
    }
}

static int feed_capture(const char *name)
{
    FILE *file = fopen(name, "rb");

    if (file == NULL) {
        perror(name);
        return 0;
    }
    while ((length = fread(input, 1, sizeof input, file)) > 0)
        note_all();
    fclose(file);
    return 1;
}

int main(int argc, char **argv)
{
    int i;

    /* Refused: a start, then every call of a record that is not whole. */
    rows = 25;
    note(start);
    rows = 24;
    note_all();
    for (i = 0; i < ROUNDS; i++) {
        rows = 24 + 12 * (size_t)(i % 3);
        note(start);
        fill_input();
        note_all();
    }
    rows = 24;
    note(start);
    for (i = 1; i < argc; i++)
        if (!feed_capture(argv[i]))
            return 2;
    printf("a call took at most %u bytes of stack\n", (unsigned)most);
    return most < SAID ? 0 : 1;
}
