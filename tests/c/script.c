/*
 * Carries out a script of calls (reference/README.md, "The script") through the C interface.
 *
 *     script < SCRIPT > OUTPUT
 *
 * The output must be what the second program answers, byte for byte.
 */
#include <stdio.h>
#include <stdlib.h>
#include <string.h>

#include "pankholim.h"

#define BUFFER_WORDS 4096
#define LINE_WORDS 128
#define MOST_ROOM 4096
#define UNTOUCHED 0xEE

static pankholim_terminal terminal;
static uint16_t buffer[BUFFER_WORDS], line[LINE_WORDS];
static size_t lent, line_lent = PANKHOLIM_LINE_CELLS;

/* ---- output, lowest byte first */

static void put_number(uint64_t number, unsigned bytes)
{
    while (bytes-- > 0) {
        putchar((int)(number & 0xFF));
        number >>= 8;
    }
}

static void put_words(const uint16_t *words, size_t length)
{
    size_t i;

    for (i = 0; i < length; i++)
        put_number(words[i], 2);
}

static void put_bytes(const uint8_t *bytes, size_t length)
{
    if (fwrite(bytes, 1, length, stdout) != length)
        exit(1);
}

/* ---- the commands */

static size_t at_most(size_t most, unsigned number)
{
    return number < most ? number : most;
}

/* What a refused start returns in the script is the fresh state of 24 rows; the record's leaves the record. */
static void make_fresh(void)
{
    static uint16_t page[PANKHOLIM_CELLS(24)], other[PANKHOLIM_LINE_CELLS];

    if (pankholim_start(&terminal, 24, page, PANKHOLIM_CELLS(24), other, PANKHOLIM_LINE_CELLS) != PANKHOLIM_DONE)
        exit(1);
}

static void start(unsigned rows, unsigned words)
{
    uint8_t answer;

    lent = at_most(BUFFER_WORDS, words);
    answer = pankholim_start(&terminal, rows, buffer, lent, line, line_lent);
    if (answer != PANKHOLIM_DONE)
        make_fresh();
    putchar('S');
    putchar(answer);
}

/* Is there so much input? */
static int feed(unsigned length, unsigned most)
{
    static uint8_t input[65536], reply[MOST_ROOM];
    size_t room = at_most(MOST_ROOM, most);
    size_t read, replied;
    uint8_t answer;

    if (fread(input, 1, length, stdin) != length)
        return 0;
    memset(reply, UNTOUCHED, room);
    answer = pankholim_feed(&terminal, buffer, lent, line, line_lent, input, length, reply, room, &read, &replied);
    putchar('F');
    putchar(answer);
    put_number(read, 2);
    put_number(replied, 2);
    put_bytes(reply, room);
    return 1;
}

static void ask(void)
{
    uint64_t rows;
    uint32_t count;
    uint8_t flag;
    uint8_t answer = pankholim_ask(&terminal, &rows, &count, &flag);

    putchar('A');
    putchar(answer);
    put_number(rows, 8);
    put_number(count, 1);
    putchar(flag);
}

static void read_cell(unsigned row, unsigned column)
{
    uint16_t word;
    uint8_t answer = pankholim_read(&terminal, buffer, lent, row, column, &word);

    putchar('R');
    putchar(answer);
    put_number(word, 2);
}

static void find_row(unsigned row)
{
    pankholim_part part;
    uint8_t answer = pankholim_row(terminal, buffer, lent, line, line_lent, row, &part);

    putchar('O');
    putchar(answer);
    put_number(part.length, 1);
    put_words(part.cells, part.length);
}

static void put_page(void)
{
    putchar('P');
    put_words(buffer, lent);
}

static void put_line(void)
{
    putchar('D');
    put_words(line, line_lent);
}

static void put_text(void)
{
    static uint8_t text[PANKHOLIM_TEXT_ROOM(BUFFER_WORDS / PANKHOLIM_COLUMNS)];
    size_t length;

    if (pankholim_write_text(buffer, lent, text, sizeof text, &length) != PANKHOLIM_DONE)
        exit(1);
    putchar('T');
    put_number(length, 2);
    put_bytes(text, length);
}

/* ---- the record's bytes (crates/record/src/lib.rt), which only a test that breaks records needs */

enum { VALUES = 8, TABS = 40, PARSER = 91 };

/* Where the script's fields lie, and which are flags. */
static const struct {
    unsigned field;
    size_t at;
    int is_flag;
} fields[] = {
    { 0, 50, 0 },                                           /* R */
    { 1, 55, 0 }, { 2, 56, 0 }, { 3, 57, 1 },               /* the cursor's row, column and wrap due */
    { 4, 51, 0 }, { 5, 52, 0 },                             /* T and B */
    { 6, 60, 1 }, { 7, 61, 1 },                             /* origin and autowrap */
    { 8, 75, 0 }, { 9, 76, 0 }, { 10, 77, 1 },              /* the saved row, column and wrap due */
    { 11, 62, 1 },                                          /* cursor shown */
    { 13, 96, 1 }, { 14, 97, 1 },                           /* a line, and whether it is active */
    { 15, 98, 0 }, { 16, 99, 1 },                           /* its column and wrap due */
    { 17, 100, 0 }, { 18, 101, 1 },                         /* its saved column and wrap due */
    { 19, 114, 1 },                                         /* its flag */
};

static void set_field(unsigned field, unsigned value)
{
    uint8_t *record = (uint8_t *)&terminal;
    uint8_t number = (uint8_t)(value % 256);
    size_t i;

    for (i = 0; i < sizeof fields / sizeof fields[0]; i++)
        if (fields[i].field == field)
            record[fields[i].at] = fields[i].is_flag ? number != 0 : number;
    if (field == 12)
        terminal.opaque[0] |= (uint64_t)1 << (value + 63) % 64;
}

/* Is there a whole parser? The script's numbers are lowest byte first, and so are the record's, on x86-64. */
static int set_parser(void)
{
    uint8_t *record = (uint8_t *)&terminal;
    uint8_t parser[5], values[32];

    if (fread(parser, 1, sizeof parser, stdin) != sizeof parser
        || fread(values, 1, sizeof values, stdin) != sizeof values)
        return 0;
    parser[0] = (uint8_t)(parser[0] % 11);
    memcpy(record + PARSER, parser, sizeof parser);
    memcpy(record + VALUES, values, sizeof values);
    return 1;
}

/* The state without parser, changed rows and the line's flag, in the script's order: places in the record, both inside. */
static const struct {
    size_t first, last;
} shown[] = {
    { 50, 50 },             /* R */
    { 55, 57 },             /* the cursor's row, column and wrap due */
    { 51, 52 },             /* T and B */
    { 58, 64 },             /* the modes */
    { 65, 68 },             /* the rendition */
    { 53, 53 },             /* protection */
    { 69, 74 },             /* G0 to G3, GL, GR */
    { 54, 54 },             /* the pending shift */
    { 75, 90 },             /* what is saved */
    { TABS, TABS + 9 },     /* tab flags */
    { 96, 113 },            /* the line */
};

static void put_state(void)
{
    const uint8_t *record = (const uint8_t *)&terminal;
    size_t i;

    putchar('V');
    for (i = 0; i < sizeof shown / sizeof shown[0]; i++)
        put_bytes(record + shown[i].first, shown[i].last - shown[i].first + 1);
}

/* Carries out a command; 0 at the script's end. */
static int carry_out(uint8_t letter, unsigned a, unsigned b)
{
    switch (letter) {
    case 'S': start(a, b); return 1;
    case 'L': lent = at_most(BUFFER_WORDS, a); return 1;
    case 'M': line_lent = at_most(LINE_WORDS, a); return 1;
    case 'F': return feed(a, b);
    case 'A': ask(); return 1;
    case 'R': read_cell(a, b); return 1;
    case 'O': find_row(a); return 1;
    case 'P': put_page(); return 1;
    case 'D': put_line(); return 1;
    case 'T': put_text(); return 1;
    case 'W': if (a < BUFFER_WORDS) buffer[a] = (uint16_t)b; return 1;
    case 'I': if (a < LINE_WORDS) line[a] = (uint16_t)b; return 1;
    case 'B': set_field(a, b); return 1;
    case 'Q': return set_parser();
    case 'V': put_state(); return 1;
    default: return 0;
    }
}

int main(void)
{
    uint8_t head[5];

    make_fresh();
    while (fread(head, 1, sizeof head, stdin) == sizeof head
           && carry_out(head[0], head[1] + 256u * head[2], head[3] + 256u * head[4]))
        ;
    return fflush(stdout) == 0 ? 0 : 1;
}
