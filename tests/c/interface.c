/*
 * Checks every call of the C interface: its answers, what it gives, and that what it must leave is left.
 *
 *     interface CAPTURE...
 *
 * A CAPTURE is a file's name without its ending: CAPTURE.bytes must give CAPTURE.txt and, on the status line,
 * CAPTURE.line.txt, or nothing where there is no such file. Exits with 0 and the number of checks, or with 1 at the
 * first that fails.
 */
#include <stdio.h>
#include <stdlib.h>
#include <string.h>

#include "pankholim.h"

#define GUARD 64
#define MAX_CELLS (PANKHOLIM_CELLS(PANKHOLIM_MAX_ROWS) + 160)
#define MAX_LINE (PANKHOLIM_LINE_CELLS + 160)
#define MAX_BYTES 16384
#define MAX_FILE 1048576

/* Everything that is lent lies between guards. */
static struct {
    uint8_t before[GUARD];
    pankholim_terminal terminal;
    uint8_t after[GUARD];
} record;
static uint16_t words[GUARD + MAX_CELLS + GUARD];
static uint16_t line_words[GUARD + MAX_LINE + GUARD];
static uint8_t reply_bytes[GUARD + MAX_BYTES + GUARD];
static uint8_t text_bytes[GUARD + MAX_BYTES + GUARD];

static uint16_t *const page = words + GUARD;
static uint16_t *const line = line_words + GUARD;
static uint8_t *const reply = reply_bytes + GUARD;
static uint8_t *const text = text_bytes + GUARD;

/* The numbers of rows that a page may have. */
static const size_t sizes[] = { 24, 36, 48 };

/* How many bytes a record has. */
enum { RECORD = 120 };

/* What the last feeding gave. */
static size_t read_count, replied;

static unsigned long checks;

#define CHECK(what) check((what), #what, __LINE__)

static void check(int holds, const char *what, int number)
{
    checks++;
    if (!holds) {
        printf("interface.c:%d: not so: %s\n", number, what);
        exit(1);
    }
}

/* ---- random numbers (xorshift64) */

static uint64_t seed = 0x9E3779B97F4A7C15u;

static unsigned below(unsigned bound)
{
    seed ^= seed << 13;
    seed ^= seed >> 7;
    seed ^= seed << 17;
    return (unsigned)(seed >> 33) % bound;
}

/* ---- guards */

#define WORD_GUARD 0xA5A5
#define BYTE_GUARD 0xA5

/* Fills all that is lent with the guard, the record between its guards with zero. */
static void set_up(void)
{
    size_t i;

    memset(&record, BYTE_GUARD, sizeof record);
    memset(&record.terminal, 0, sizeof record.terminal);
    for (i = 0; i < sizeof words / sizeof words[0]; i++)
        words[i] = WORD_GUARD;
    for (i = 0; i < sizeof line_words / sizeof line_words[0]; i++)
        line_words[i] = WORD_GUARD;
    memset(reply_bytes, BYTE_GUARD, sizeof reply_bytes);
    memset(text_bytes, BYTE_GUARD, sizeof text_bytes);
}

static int are_guards(const uint8_t *bytes, size_t length)
{
    size_t i;

    for (i = 0; i < length; i++)
        if (bytes[i] != BYTE_GUARD)
            return 0;
    return 1;
}

/* Is the buffer whole but for `length` bytes from its first one on? */
static int is_left(const uint8_t *bytes, size_t length)
{
    return are_guards(bytes, GUARD) && are_guards(bytes + GUARD + length, MAX_BYTES - length + GUARD);
}

static int page_is_left(size_t cells)
{
    return are_guards((const uint8_t *)words, GUARD * sizeof(uint16_t))
           && are_guards((const uint8_t *)(page + cells), (MAX_CELLS - cells + GUARD) * sizeof(uint16_t));
}

static int line_is_left(size_t cells)
{
    return are_guards((const uint8_t *)line_words, GUARD * sizeof(uint16_t))
           && are_guards((const uint8_t *)(line + cells), (MAX_LINE - cells + GUARD) * sizeof(uint16_t));
}

static int record_guards_are_left(void)
{
    return are_guards(record.before, GUARD) && are_guards(record.after, GUARD);
}

/* ---- the calls, each on the guarded buffers */

static uint8_t start_on(size_t rows, size_t cells, size_t line_cells)
{
    uint8_t answer = pankholim_start(&record.terminal, rows, page, cells, line, line_cells);

    CHECK(record_guards_are_left());
    CHECK(page_is_left(cells));
    CHECK(line_is_left(line_cells));
    return answer;
}

static uint8_t start(size_t rows, size_t cells)
{
    return start_on(rows, cells, PANKHOLIM_LINE_CELLS);
}

static void start_well(size_t rows)
{
    set_up();
    CHECK(start(rows, PANKHOLIM_CELLS(rows)) == PANKHOLIM_DONE);
}

static uint8_t feed_on(size_t cells, size_t line_cells, const void *input, size_t length, size_t room)
{
    uint8_t answer;

    memset(reply_bytes, BYTE_GUARD, sizeof reply_bytes);
    read_count = replied = 12345;
    answer = pankholim_feed(&record.terminal, page, cells, line, line_cells, input, length, reply, room, &read_count,
                            &replied);
    CHECK(read_count <= length && replied <= room);
    CHECK(is_left(reply_bytes, replied));
    CHECK(page_is_left(cells));
    CHECK(line_is_left(line_cells));
    CHECK(record_guards_are_left());
    return answer;
}

static uint8_t feed_bytes(size_t cells, const void *input, size_t length, size_t room)
{
    return feed_on(cells, PANKHOLIM_LINE_CELLS, input, length, room);
}

static uint8_t feed(size_t cells, const char *input, size_t room)
{
    return feed_bytes(cells, input, strlen(input), room);
}

static uint8_t ask(uint64_t *rows, uint32_t *count, uint8_t *flag)
{
    uint8_t answer;

    *rows = 12345;
    *count = 12345;
    *flag = 123;
    answer = pankholim_ask(&record.terminal, rows, count, flag);
    CHECK(record_guards_are_left());
    return answer;
}

static int asks_with_line(uint64_t rows, uint32_t count, uint8_t flag)
{
    uint64_t changed;
    uint32_t many;
    uint8_t found;

    return ask(&changed, &many, &found) == PANKHOLIM_DONE && changed == rows && many == count && found == flag;
}

/* The line has not changed. */
static int asks(uint64_t rows, uint32_t count)
{
    return asks_with_line(rows, count, 0);
}

/* A row of the active display; nothing that is lent changes. */
static uint8_t find_row(size_t cells, size_t line_cells, size_t row, pankholim_part *part)
{
    static uint16_t page_before[sizeof words / sizeof words[0]], line_before[sizeof line_words / sizeof line_words[0]];
    pankholim_terminal before = record.terminal;
    uint8_t answer;

    memcpy(page_before, words, sizeof words);
    memcpy(line_before, line_words, sizeof line_words);
    memset(part, BYTE_GUARD, sizeof *part);
    answer = pankholim_row(record.terminal, page, cells, line, line_cells, row, part);
    CHECK(memcmp(&before, &record.terminal, sizeof before) == 0 && record_guards_are_left());
    CHECK(memcmp(page_before, words, sizeof words) == 0 && memcmp(line_before, line_words, sizeof line_words) == 0);
    CHECK(part->length == (answer == PANKHOLIM_DONE ? PANKHOLIM_COLUMNS : 0));
    return answer;
}

/* Is the row handed back where it lies? */
static int row_is(size_t cells, size_t row, const uint16_t *at)
{
    pankholim_part part;

    return find_row(cells, PANKHOLIM_LINE_CELLS, row, &part) == PANKHOLIM_DONE && part.cells == at;
}

static int row_is_refused(size_t cells, size_t line_cells, size_t row, uint8_t answer)
{
    pankholim_part part;

    return find_row(cells, line_cells, row, &part) == answer;
}

static uint8_t read_word(size_t cells, size_t row, size_t column, uint16_t *word)
{
    *word = 12345;
    return pankholim_read(&record.terminal, page, cells, row, column, word);
}

static int reads(size_t cells, size_t row, size_t column, uint16_t word)
{
    uint16_t found;

    return read_word(cells, row, column, &found) == PANKHOLIM_DONE && found == word;
}

/* The cursor; all four are set, whatever is answered. */
static uint8_t cursor(size_t *row, size_t *column, uint8_t *wrap, uint8_t *shown)
{
    pankholim_terminal before = record.terminal;
    uint8_t answer;

    *row = *column = 12345;
    *wrap = *shown = 123;
    answer = pankholim_cursor(&record.terminal, row, column, wrap, shown);
    CHECK(memcmp(&before, &record.terminal, sizeof before) == 0 && record_guards_are_left());
    return answer;
}

static int cursor_is(uint8_t answer, size_t row, size_t column, uint8_t wrap, uint8_t shown)
{
    size_t found_row, found_column;
    uint8_t found_wrap, found_shown;

    return cursor(&found_row, &found_column, &found_wrap, &found_shown) == answer && found_row == row
           && found_column == column && found_wrap == wrap && found_shown == shown;
}

static int replied_is(const char *expected)
{
    return replied == strlen(expected) && memcmp(reply, expected, replied) == 0;
}

/* ---- starting */

static int are_blank(const uint16_t *cells, size_t length)
{
    size_t i;

    for (i = 0; i < length; i++)
        if (cells[i] != PANKHOLIM_BLANK)
            return 0;
    return 1;
}

/* A start that must be refused: it leaves all that it was lent. */
static void check_refused_start_on(size_t rows, size_t cells, size_t line_cells, uint8_t answer)
{
    pankholim_terminal before = record.terminal;

    CHECK(start_on(rows, cells, line_cells) == answer);
    CHECK(page_is_left(0));
    CHECK(line_is_left(0));
    CHECK(memcmp(&before, &record.terminal, sizeof before) == 0);
}

static void check_refused_start(size_t rows, size_t cells, uint8_t answer)
{
    check_refused_start_on(rows, cells, PANKHOLIM_LINE_CELLS, answer);
}

static void test_start(void)
{
    size_t rows;

    for (rows = 0; rows <= 1024; rows++) {
        set_up();
        memset(&record.terminal, rows % 2 == 0 ? 0 : BYTE_GUARD, sizeof record.terminal);
        if (rows == 24 || rows == 36 || rows == 48) {
            CHECK(start(rows, PANKHOLIM_CELLS(rows)) == PANKHOLIM_DONE);
            CHECK(are_blank(page, PANKHOLIM_CELLS(rows)) && are_blank(line, PANKHOLIM_LINE_CELLS));
            CHECK(asks(0, 0));
        } else {
            check_refused_start(rows, 1920, PANKHOLIM_BROKEN);
        }
    }
}

/* No number is taken for its lowest bits. */
static void test_start_with_many_rows(void)
{
    size_t i;
    unsigned bit;

    for (i = 0; i < 3; i++)
        for (bit = 8; bit < 64; bit++) {
            set_up();
            check_refused_start(sizes[i] + ((size_t)1 << bit), PANKHOLIM_CELLS(sizes[i]), PANKHOLIM_BROKEN);
        }
    check_refused_start(280, 1920, PANKHOLIM_BROKEN);
    check_refused_start(65560, 1920, PANKHOLIM_BROKEN);
    check_refused_start(4294967320u, 1920, PANKHOLIM_BROKEN);
    check_refused_start((size_t)-1, 1920, PANKHOLIM_BROKEN);
}

static void test_start_on_wrong_pages(void)
{
    static const size_t lengths[] = { 0, 1, 79, 80, 1919, 1920, 1921, 2000, 2879, 2880, 3839, 3840, 4000 };
    size_t i, j;

    for (i = 0; i < 3; i++)
        for (j = 0; j < sizeof lengths / sizeof lengths[0]; j++) {
            if (lengths[j] == PANKHOLIM_CELLS(sizes[i]))
                continue;
            set_up();
            check_refused_start(sizes[i], lengths[j], PANKHOLIM_WRONG_SIZE);
        }
    /* With both wrong, 1 comes first. */
    set_up();
    check_refused_start(25, 0, PANKHOLIM_BROKEN);
    check_refused_start(0, 0, PANKHOLIM_BROKEN);
    check_refused_start(255, 4000, PANKHOLIM_BROKEN);
}

/* Lengths of a line that are not its length. */
static const size_t wrong_lines[] = { 0, 1, 40, 79, 81, 160, MAX_LINE };

enum { WRONG_LINES = sizeof wrong_lines / sizeof wrong_lines[0] };

static void test_start_on_wrong_lines(void)
{
    size_t i, j;

    for (i = 0; i < 3; i++)
        for (j = 0; j < WRONG_LINES; j++) {
            set_up();
            check_refused_start_on(sizes[i], PANKHOLIM_CELLS(sizes[i]), wrong_lines[j], PANKHOLIM_WRONG_SIZE);
            check_refused_start_on(sizes[i], 80, wrong_lines[j], PANKHOLIM_WRONG_SIZE);
            /* 1 comes first. */
            check_refused_start_on(25, 2000, wrong_lines[j], PANKHOLIM_BROKEN);
            CHECK(start_on(sizes[i], PANKHOLIM_CELLS(sizes[i]), 80) == PANKHOLIM_DONE);
        }
}

/* A terminal goes on where it was after refused starts. */
static void test_refused_starts_of_a_terminal(void)
{
    static uint16_t other[80], other_line[80];
    pankholim_terminal before;

    start_well(36);
    CHECK(feed(2880, "Hi\033[5", 0) == PANKHOLIM_DONE);
    before = record.terminal;
    CHECK(pankholim_start(&record.terminal, 25, other, 80, other_line, 80) == PANKHOLIM_BROKEN);
    CHECK(pankholim_start(&record.terminal, 24, other, 80, other_line, 80) == PANKHOLIM_WRONG_SIZE);
    CHECK(start(24, 2880) == PANKHOLIM_WRONG_SIZE);
    CHECK(start_on(36, 2880, 81) == PANKHOLIM_WRONG_SIZE);
    CHECK(memcmp(&before, &record.terminal, sizeof before) == 0);
    CHECK(feed(2880, "n!", 4) == PANKHOLIM_DONE && replied_is("\033[0n"));
    CHECK(reads(2880, 1, 2, 'i') && reads(2880, 1, 3, '!') && asks(1, 1));
}

/* ---- refusals */

/* Every call but a start refuses the record, and leaves everything. */
static void check_broken(void)
{
    pankholim_terminal before = record.terminal;
    uint64_t rows;
    uint32_t count;
    uint16_t word;
    uint8_t flag;

    CHECK(feed(1920, "A\033[6n", 11) == PANKHOLIM_BROKEN && read_count == 0 && replied == 0);
    CHECK(feed(1920, "", 0) == PANKHOLIM_BROKEN && read_count == 0 && replied == 0);
    CHECK(feed(7, "A", 11) == PANKHOLIM_BROKEN && read_count == 0 && replied == 0);
    CHECK(feed_on(1920, 79, "A", 1, 11) == PANKHOLIM_BROKEN && read_count == 0 && replied == 0);
    CHECK(ask(&rows, &count, &flag) == PANKHOLIM_BROKEN && rows == 0 && count == 0 && flag == 0);
    CHECK(row_is_refused(1920, 80, 1, PANKHOLIM_BROKEN) && row_is_refused(7, 0, 0, PANKHOLIM_BROKEN));
    CHECK(read_word(1920, 1, 1, &word) == PANKHOLIM_BROKEN && word == PANKHOLIM_BLANK);
    CHECK(read_word(7, 0, 81, &word) == PANKHOLIM_BROKEN && word == PANKHOLIM_BLANK);
    CHECK(cursor_is(PANKHOLIM_BROKEN, 0, 0, 0, 0));
    CHECK(page_is_left(0) && line_is_left(0));
    CHECK(memcmp(&before, &record.terminal, sizeof before) == 0);
}

static void test_broken_records(void)
{
    set_up();
    check_broken();
    /* Flags on, numbers 1: R is none of the three. */
    memset(&record.terminal, 1, sizeof record.terminal);
    check_broken();
    CHECK(start(24, 1920) == PANKHOLIM_DONE);
    CHECK(feed(1920, "A", 0) == PANKHOLIM_DONE);
}

/* A record of any bytes is taken or refused, and left if refused. */
static int check_any_record(void)
{
    pankholim_terminal before = record.terminal;
    uint64_t rows;
    uint32_t count;
    uint16_t word;
    size_t row, column;
    pankholim_part part;
    uint8_t flag, wrap, shown, read = cursor(&row, &column, &wrap, &shown);
    uint8_t found = find_row(1920, PANKHOLIM_LINE_CELLS, 1, &part);
    uint8_t answer = feed(1920, "A\033[6n", 11);
    int refused = answer == PANKHOLIM_BROKEN || answer == PANKHOLIM_WRONG_SIZE;

    CHECK(refused || answer == PANKHOLIM_DONE);
    CHECK(found == answer && (refused || part.cells == page || part.cells == line));
    CHECK(!refused || (page_is_left(0) && line_is_left(0) && memcmp(&before, &record.terminal, sizeof before) == 0));
    CHECK(ask(&rows, &count, &flag) == (answer == PANKHOLIM_BROKEN ? PANKHOLIM_BROKEN : PANKHOLIM_DONE));
    CHECK(answer == PANKHOLIM_BROKEN ? flag == 0 : flag <= 1);
    CHECK(read_word(1920, 1, 1, &word) == (refused ? answer : PANKHOLIM_DONE));
    CHECK(read == (answer == PANKHOLIM_BROKEN ? PANKHOLIM_BROKEN : PANKHOLIM_DONE));
    if (read == PANKHOLIM_BROKEN)
        CHECK(row == 0 && column == 0 && wrap == 0 && shown == 0);
    else
        CHECK(1 <= row && row <= 48 && 1 <= column && column <= 80 && wrap <= 1 && shown <= 1);
    return refused;
}

static void test_records_of_any_bytes(void)
{
    pankholim_terminal started;
    uint8_t *const bytes = (uint8_t *)&record.terminal;
    unsigned long refused = 0;
    unsigned round;
    size_t i;

    start_well(24);
    started = record.terminal;
    for (i = 0; i < sizeof started; i++) {
        unsigned value;

        for (value = 0; value < 256; value++) {
            set_up();
            record.terminal = started;
            bytes[i] = (uint8_t)value;
            refused += (unsigned)check_any_record();
        }
    }
    CHECK(refused > 0);
    for (round = 0; round < 1000; round++) {
        set_up();
        for (i = 0; i < sizeof started; i++)
            bytes[i] = (uint8_t)below(round % 2 == 0 ? 256 : 3);
        check_any_record();
    }
}

static void test_wrong_pages(void)
{
    static const size_t lengths[] = { 0, 1, 80, 1919, 1921, 2880, 4000 };
    pankholim_terminal before;
    uint16_t word;
    size_t i;

    start_well(24);
    CHECK(feed(1920, "Hi\033[5", 0) == PANKHOLIM_DONE);
    before = record.terminal;
    for (i = 0; i < sizeof lengths / sizeof lengths[0]; i++) {
        size_t j;

        for (j = 0; j < MAX_CELLS; j++)
            page[j] = WORD_GUARD;
        CHECK(feed(lengths[i], "nA", 11) == PANKHOLIM_WRONG_SIZE && read_count == 0 && replied == 0);
        CHECK(feed(lengths[i], "", 0) == PANKHOLIM_WRONG_SIZE && read_count == 0 && replied == 0);
        CHECK(read_word(lengths[i], 1, 1, &word) == PANKHOLIM_WRONG_SIZE && word == PANKHOLIM_BLANK);
        CHECK(read_word(lengths[i], 0, 0, &word) == PANKHOLIM_WRONG_SIZE && word == PANKHOLIM_BLANK);
        CHECK(row_is_refused(lengths[i], 80, 1, PANKHOLIM_WRONG_SIZE));
        CHECK(row_is_refused(lengths[i], 80, 0, PANKHOLIM_WRONG_SIZE));
        CHECK(page_is_left(0) && are_blank(line, PANKHOLIM_LINE_CELLS));
        CHECK(memcmp(&before, &record.terminal, sizeof before) == 0);
    }
    /* The sequence that was cut before the refusals goes on. */
    CHECK(feed(1920, "n", 4) == PANKHOLIM_DONE && replied_is("\033[0n"));
    CHECK(asks(1, 1));
}

/* ---- feeding */

static void test_lengths_of_zero(void)
{
    pankholim_terminal before;

    start_well(24);
    CHECK(feed(1920, "Hi\033[6", 0) == PANKHOLIM_DONE && read_count == 5 && replied == 0);
    before = record.terminal;
    CHECK(feed(1920, "", 0) == PANKHOLIM_DONE && read_count == 0 && replied == 0);
    CHECK(feed(1920, "", 11) == PANKHOLIM_DONE && read_count == 0 && replied == 0);
    CHECK(memcmp(&before, &record.terminal, sizeof before) == 0);
    CHECK(reads(1920, 1, 1, 'H') && reads(1920, 1, 2, 'i') && reads(1920, 1, 3, PANKHOLIM_BLANK));
}

static void test_room(void)
{
    size_t room;

    start_well(24);
    CHECK(feed(1920, "\033[6n", 0) == PANKHOLIM_NO_ROOM && read_count == 3 && replied == 0);
    for (room = 0; room < 6; room++)
        CHECK(feed(1920, "nAB", room) == PANKHOLIM_NO_ROOM && read_count == 0 && replied == 0);
    CHECK(asks(0, 0));
    CHECK(feed(1920, "nAB", 6) == PANKHOLIM_DONE && read_count == 3 && replied_is("\033[1;1R"));
    CHECK(asks(1, 1));
    /* Replies before the one without room are given; what came before its last byte is done. */
    CHECK(feed(1920, "\033[5n\033[HC\033[cD", 10) == PANKHOLIM_NO_ROOM && read_count == 10);
    CHECK(replied_is("\033[0n"));
    CHECK(reads(1920, 1, 1, 'C') && reads(1920, 1, 2, 'B'));
    CHECK(feed(1920, "cD", 8) == PANKHOLIM_DONE && read_count == 2 && replied_is("\033[?64;6c"));
    CHECK(reads(1920, 1, 2, 'D'));
    /* The longest reply, and the room that lets every feeding go on. */
    CHECK(feed(1920, "\033[24;80H\033[?6n", 10) == PANKHOLIM_NO_ROOM && read_count == 12);
    CHECK(feed(1920, "n", PANKHOLIM_REPLY_ROOM) == PANKHOLIM_DONE && replied_is("\033[?24;80;1R"));
}

static void test_example_11(void)
{
    start_well(24);
    CHECK(feed(1920, "\033[c\033[5n\033[6n", 18) == PANKHOLIM_DONE);
    CHECK(replied_is("\033[?64;6c\033[0n\033[1;1R") && replied == 18);
}

/* ---- the changed rows */

static void test_ask(void)
{
    size_t i;

    start_well(24);
    CHECK(asks(0, 0));
    CHECK(feed(1920, "A", 0) == PANKHOLIM_DONE && asks(1, 1) && asks(0, 0));
    CHECK(feed(1920, "\033[HA", 0) == PANKHOLIM_DONE && asks(0, 0));
    CHECK(feed(1920, "\033[24H\n", 0) == PANKHOLIM_DONE && asks(1, 1));
    CHECK(feed(1920, "\033[?7h\033[24HA\033[24;80H ", 0) == PANKHOLIM_DONE && asks((uint64_t)1 << 23, 1));
    CHECK(feed(1920, "A", 0) == PANKHOLIM_DONE && asks((uint64_t)3 << 22, 2));
    for (i = 0; i < 3; i++) {
        start_well(sizes[i]);
        CHECK(feed(PANKHOLIM_CELLS(sizes[i]), "\033#8", 0) == PANKHOLIM_DONE);
        CHECK(asks(((uint64_t)1 << sizes[i]) - 1, (uint32_t)sizes[i]));
    }
}

/* ---- reading cells */

static void test_read(void)
{
    static const size_t off[] = { 0, 81, 49, 256, 65537, (size_t)-1, (size_t)1 << 63 };
    size_t i;
    uint16_t word;

    start_well(48);
    CHECK(feed(3840, "\033[5;77H1.10\033[48;80Hx", 0) == PANKHOLIM_DONE);
    CHECK(reads(3840, 5, 77, '1') && reads(3840, 5, 78, '.') && reads(3840, 5, 80, '0'));
    CHECK(reads(3840, 48, 80, 'x') && reads(3840, 1, 1, PANKHOLIM_BLANK));
    for (i = 0; i < sizeof off / sizeof off[0]; i++) {
        CHECK(off[i] == 49 || read_word(3840, 1, off[i], &word) == PANKHOLIM_OFF_PAGE);
        CHECK(off[i] == 49 || word == PANKHOLIM_BLANK);
        CHECK(read_word(3840, off[i], 1, &word) == PANKHOLIM_OFF_PAGE && word == PANKHOLIM_BLANK);
        CHECK(read_word(3840, off[i], off[i], &word) == PANKHOLIM_OFF_PAGE && word == PANKHOLIM_BLANK);
    }
    /* A word is given as it was found. */
    page[PANKHOLIM_INDEX(7, 9)] = 0xFFFF;
    CHECK(reads(3840, 7, 9, 0xFFFF));
}

static void test_cells(void)
{
    uint16_t word;

    start_well(24);
    CHECK(feed(1920, "\033[1;5;4;7m\033[1\"q\033(0q", 0) == PANKHOLIM_DONE);
    CHECK(read_word(1920, 1, 1, &word) == PANKHOLIM_DONE && word == 0x3EF1);
    CHECK(pankholim_code(word) == 'q' && pankholim_set_of(word) == PANKHOLIM_SPECIAL_GRAPHICS);
    CHECK(pankholim_is_bold(word) && pankholim_is_underlined(word) && pankholim_is_blinking(word));
    CHECK(pankholim_is_reversed(word) && pankholim_is_protected(word));
    CHECK(feed(1920, "\033[0;1m\033[0\"q\033.A\351", 0) == PANKHOLIM_DONE);
    CHECK(read_word(1920, 1, 2, &word) == PANKHOLIM_DONE && word == 0x03E9);
    CHECK(pankholim_code(word) == 0x69 && pankholim_set_of(word) == PANKHOLIM_LATIN_1);
    CHECK(pankholim_is_bold(word) && !pankholim_is_underlined(word) && !pankholim_is_blinking(word));
    CHECK(!pankholim_is_reversed(word) && !pankholim_is_protected(word));
    CHECK(!pankholim_row_changed(1, 0) && pankholim_row_changed(1, 1) && !pankholim_row_changed(1, 65));
    CHECK(pankholim_row_changed((uint64_t)1 << 47, 48) && !pankholim_row_changed(~(uint64_t)0, (size_t)-1));
}

/* ---- reading the cursor */

static void test_cursor(void)
{
    start_well(24);
    CHECK(cursor_is(PANKHOLIM_DONE, 1, 1, 0, 1));
    CHECK(feed(1920, "\033[5;77H1.1", 0) == PANKHOLIM_DONE && cursor_is(PANKHOLIM_DONE, 5, 80, 0, 1));
    CHECK(feed(1920, "\033[?7h0", 0) == PANKHOLIM_DONE && cursor_is(PANKHOLIM_DONE, 5, 80, 1, 1));
    CHECK(feed(1920, "x\033[?25l", 0) == PANKHOLIM_DONE && cursor_is(PANKHOLIM_DONE, 6, 2, 0, 0));
    /* Its place on the page, not the one that is replied with origin mode on. */
    CHECK(feed(1920, "\033[6;10r\033[?6h\033[2;5H\033[6n", 6) == PANKHOLIM_DONE && replied_is("\033[2;5R"));
    CHECK(cursor_is(PANKHOLIM_DONE, 7, 5, 0, 0));
    CHECK(feed(1920, "\033[?25h\033[24;80H", 0) == PANKHOLIM_DONE && cursor_is(PANKHOLIM_DONE, 10, 80, 0, 1));
    /* A page of the wrong length says nothing of the cursor. */
    CHECK(feed(1921, "A", 0) == PANKHOLIM_WRONG_SIZE && cursor_is(PANKHOLIM_DONE, 10, 80, 0, 1));
    start_well(48);
    CHECK(feed(3840, "\033[48;80H", 0) == PANKHOLIM_DONE && cursor_is(PANKHOLIM_DONE, 48, 80, 0, 1));
}

/* ---- tabs */

/* The next column that has a tab, column by column; else the last one. */
static size_t next_tab(const uint8_t *tabs, size_t column)
{
    for (column++; column < PANKHOLIM_COLUMNS; column++)
        if (tabs[column])
            return column;
    return PANKHOLIM_COLUMNS;
}

/* HT from each column, with a tab in each column that `tabs` has; tabs[0] is no column's. */
static void check_tabs(const uint8_t *tabs)
{
    char input[32];
    size_t column;

    start_well(24);
    CHECK(feed(1920, "\033[3g", 0) == PANKHOLIM_DONE);
    for (column = 1; column <= PANKHOLIM_COLUMNS; column++)
        if (tabs[column]) {
            snprintf(input, sizeof input, "\033[1;%zuH\033H", column);
            CHECK(feed(1920, input, 0) == PANKHOLIM_DONE);
        }
    for (column = 1; column <= PANKHOLIM_COLUMNS; column++) {
        snprintf(input, sizeof input, "\033[3;%zuH\t", column);
        CHECK(feed(1920, input, 0) == PANKHOLIM_DONE);
        CHECK(cursor_is(PANKHOLIM_DONE, 3, next_tab(tabs, column), 0, 1));
    }
}

/* No tab, all of them, each alone, and each two of the same eight. */
static void test_tabs(void)
{
    uint8_t tabs[PANKHOLIM_COLUMNS + 1] = { 0 };
    size_t one, other;

    check_tabs(tabs);
    for (one = 1; one <= PANKHOLIM_COLUMNS; one++) {
        for (other = one; other <= PANKHOLIM_COLUMNS && (other - 1) / 8 == (one - 1) / 8; other++) {
            tabs[one] = tabs[other] = 1;
            check_tabs(tabs);
            tabs[one] = tabs[other] = 0;
        }
    }
    memset(tabs, 1, sizeof tabs);
    check_tabs(tabs);
}

/* ---- the saved cursor */

static const char *const protections[] = { "\033[0\"q", "\033[1\"q" };
static const char *const shifts[] = { "", "\216", "\217" };

/* Feeds byte by byte, so that the record alone holds what is between two bytes. */
static void feed_apart(const char *input)
{
    for (; *input != '\0'; input++)
        CHECK(feed_bytes(1920, input, 1, 0) == PANKHOLIM_DONE);
}

/* Protection and a pending shift, on or off, come back with ESC 8, whatever they are then; a second time too. */
static void test_saved_cursor(void)
{
    /* a of GL, of Special Graphics in G2, of Latin-1 in G3 */
    static const uint16_t as[] = { 0x0061, 0x00E1, 0x01E1 };
    unsigned saved, now, times;

    for (saved = 0; saved < 6; saved++)
        for (now = 0; now < 6; now++) {
            unsigned flag = saved / 3 == 1 ? PANKHOLIM_PROTECTED : 0;

            start_well(24);
            feed_apart("\033*0\033/A\033[5;77H");
            feed_apart(protections[saved / 3]);
            feed_apart(shifts[saved % 3]);
            feed_apart("\0337x\033[H");
            feed_apart(protections[now / 3]);
            feed_apart(shifts[now % 3]);
            for (times = 0; times < 2; times++) {
                feed_apart("\0338ab");
                CHECK(reads(1920, 5, 77, (uint16_t)(as[saved % 3] | flag)));
                CHECK(reads(1920, 5, 78, (uint16_t)('b' | flag)));
            }
            feed_apart("\033[?2J");
            CHECK(reads(1920, 5, 78, (uint16_t)(flag != 0 ? 'b' | flag : PANKHOLIM_BLANK)));
        }
}

/* ---- rectangles */

enum { RECTANGLE = 64 };

/* Is this place inside these edges? */
static int inside(size_t row, size_t column, size_t top, size_t left, size_t bottom, size_t right)
{
    return top <= row && row <= bottom && left <= column && column <= right;
}

/* A bar is filled, copied down and right over itself, restyled as a rectangle and as a stream, and erased in part. */
static void test_rectangles(void)
{
    size_t row, column;

    start_well(24);
    feed_apart("\033[?7h\033[9;80Hw\033*0\216");
    feed_apart("\033[35;2;3;4;12$x");
    CHECK(asks(0x10E, 4) && cursor_is(PANKHOLIM_DONE, 9, 80, 1, 1));
    feed_apart("\033[2;3;4;12;1;3;5;1$v");
    CHECK(asks(0x01C, 3));
    feed_apart("\033[2*x\033[4;5;5;6;7$r\033[0*x\033[3;13;4;14;4$t");
    CHECK(asks(0x01C, 3));
    feed_apart("\033[5;1;5;8$z\033[;;;;4$v\033[35;5;9;4;10$x");
    CHECK(asks(0x010, 1) && cursor_is(PANKHOLIM_DONE, 9, 80, 1, 1));
    for (row = 1; row <= 8; row++)
        for (column = 1; column <= 80; column++) {
            int filled = inside(row, column, 2, 3, 4, 12) || inside(row, column, 3, 5, 5, 14);
            int erased = inside(row, column, 5, 1, 5, 8);
            uint16_t expected = filled && !erased ? '#' : PANKHOLIM_BLANK;

            if (inside(row, column, 4, 5, 5, 6) && !erased)
                expected |= PANKHOLIM_REVERSE;
            if (inside(row, column, 3, 13, 3, 80) || inside(row, column, 4, 1, 4, 14))
                expected |= PANKHOLIM_UNDERLINE;
            CHECK(reads(1920, row, column, expected));
        }
    /* Wrap due and the shift are still there: a of Special Graphics in the next row. */
    feed_apart("a");
    CHECK(reads(1920, 10, 1, 0x00E1) && reads(1920, 9, 80, 'w'));
}

/* The extent is a byte of the record: kept by CSI ! p, fresh after ESC c, and another number than 0 and 1 is refused. */
static void test_extent(void)
{
    const uint8_t *extent = (const uint8_t *)&record.terminal + RECTANGLE;
    unsigned byte;

    start_well(24);
    CHECK(*extent == 0);
    feed_apart("\033[2*x\033[3*x\033[!p\0337\0338");
    CHECK(*extent == 1);
    feed_apart("\033[*x");
    CHECK(*extent == 0);
    feed_apart("\033[2*x\033c");
    CHECK(*extent == 0);
    for (byte = 2; byte < 256; byte++) {
        ((uint8_t *)&record.terminal)[RECTANGLE] = (uint8_t)byte;
        CHECK(feed(1920, "", 0) == PANKHOLIM_BROKEN && *extent == byte);
    }
}

/* ---- subparameters */

enum { VALUES = 8, MARK = 92, WITH_SUBPARAMETERS = 0x80 };

/* SGR skips what has subparameters and obeys the rest. */
static void test_subparameters(void)
{
    start_well(24);
    feed_apart("\033[4:3;7mA\033[;:mB\033[1;4:3:2;27mC\033[0:1mD\033[?0:mE");
    CHECK(reads(1920, 1, 1, 'A' | PANKHOLIM_REVERSE) && reads(1920, 1, 2, 'B'));
    CHECK(reads(1920, 1, 3, 'C' | PANKHOLIM_BOLD) && reads(1920, 1, 4, 'D' | PANKHOLIM_BOLD) && reads(1920, 1, 5, 'E' | PANKHOLIM_BOLD));
    /* One of the seventeenth parameter marks nothing; one that finds no place marks the sixteenth. */
    feed_apart("\033[3;4;;;;;;;;;;;;;;;5:6H");
    CHECK(cursor_is(PANKHOLIM_DONE, 3, 4, 0, 1));
    feed_apart("\033[5;6;;;;;;;;;;;;;;7:H");
    CHECK(cursor_is(PANKHOLIM_DONE, 3, 4, 0, 1));
}

/* Every other function with one in it is ignored: no reply, no row changed, and wrap due stays. */
static void test_ignored_with_subparameters(void)
{
    static const char *const before[] = {
        "1:2", ":", "2;3;2;4:", "?6:1", "?7;25:", ">0:", "6:1", "1:$", "1;1;5;5:2$", "2:*", "1:\"", ":!"
    };
    char sequence[32];
    size_t i;
    int last;

    for (i = 0; i < sizeof before / sizeof before[0]; i++) {
        start_well(24);
        feed_apart("\033[?7h\033[1;80Hw");
        CHECK(asks(1, 1));
        for (last = 0x40; last <= 0x7E; last++) {
            sprintf(sequence, "\033[%s%c", before[i], last);
            CHECK(feed(1920, sequence, 64) == PANKHOLIM_DONE && replied == 0);
            CHECK(asks(0, 0) && cursor_is(PANKHOLIM_DONE, 1, 80, 1, 1));
        }
        feed_apart("x");
        CHECK(reads(1920, 2, 1, 'x'));
    }
}

/* That there is one is a bit of the mark. Without it a value above 9,999 is refused, and with it one above 10,000. */
static void test_record_with_subparameters(void)
{
    uint8_t *bytes = (uint8_t *)&record.terminal;
    uint16_t *first = (uint16_t *)(void *)(bytes + VALUES);

    start_well(24);
    feed_apart("\033[4:3");
    CHECK(bytes[MARK] == WITH_SUBPARAMETERS && *first == 10000);
    *first = 10001;
    CHECK(feed(1920, "", 0) == PANKHOLIM_BROKEN);
    *first = 9999;
    CHECK(feed(1920, "", 0) == PANKHOLIM_DONE);
    *first = 10000;
    CHECK(feed(1920, "", 0) == PANKHOLIM_DONE);
    bytes[MARK] = 0;
    CHECK(feed(1920, "", 0) == PANKHOLIM_BROKEN);
    bytes[MARK] = WITH_SUBPARAMETERS + '?';
    CHECK(feed(1920, "h", 0) == PANKHOLIM_DONE);
    bytes[MARK] = WITH_SUBPARAMETERS + ';';
    CHECK(feed(1920, "", 0) == PANKHOLIM_BROKEN);
}

/* ---- the version */

static void test_version(void)
{
    CHECK(pankholim_version() == PANKHOLIM_VERSION);
}

/* ---- the page as text */

static uint8_t write_text_of(const uint16_t *from, size_t cells, size_t room, size_t *length)
{
    uint8_t answer;

    memset(text_bytes, BYTE_GUARD, sizeof text_bytes);
    *length = 12345;
    answer = pankholim_write_text(from, cells, text, room, length);
    CHECK(is_left(text_bytes, answer == PANKHOLIM_DONE ? *length : 0));
    return answer;
}

static uint8_t write_text(size_t cells, size_t room, size_t *length)
{
    return write_text_of(page, cells, room, length);
}

static int text_of_is(const uint16_t *from, size_t cells, const char *expected)
{
    size_t length = strlen(expected);
    size_t written;

    return pankholim_text_len(from, cells) == length
           && write_text_of(from, cells, length, &written) == PANKHOLIM_DONE && written == length
           && memcmp(text, expected, length) == 0;
}

static int text_is(const char *expected, size_t cells)
{
    return text_of_is(page, cells, expected);
}

static void test_text(void)
{
    size_t room, length, i;

    start_well(24);
    CHECK(feed(1920, "Hi\033(0q\032", 0) == PANKHOLIM_DONE);
    CHECK(text_is("Hi\342\224\200\342\220\246\n\n", 160));
    CHECK(text_is("Hi\342\224\200\342\220\246\n", 159));
    CHECK(text_is("Hi\342\224\200\342\220\246\n", PANKHOLIM_COLUMNS));
    CHECK(text_is("Hi\342\224\200\342\220\246\n\n\n\n\n\n\n\n\n\n\n\n\n\n\n\n\n\n\n\n\n\n\n\n", 1920));
    CHECK(pankholim_text_len(page, 0) == 0 && pankholim_text_len(page, 79) == 0);
    CHECK(write_text(0, 0, &length) == PANKHOLIM_DONE && length == 0);
    CHECK(write_text(79, 0, &length) == PANKHOLIM_DONE && length == 0);
    for (room = 0; room < 10; room++)
        CHECK(write_text(160, room, &length) == PANKHOLIM_NO_ROOM && length == 10);
    CHECK(write_text(160, 10, &length) == PANKHOLIM_DONE && length == 10);
    CHECK(write_text(160, MAX_BYTES, &length) == PANKHOLIM_DONE && length == 10);
    /* The longest text: three bytes for each cell. */
    for (i = 0; i < 3840; i++)
        page[i] = 0x00F1;
    CHECK(pankholim_text_len(page, 3840) == PANKHOLIM_TEXT_ROOM(48));
    CHECK(write_text(3840, PANKHOLIM_TEXT_ROOM(48), &length) == PANKHOLIM_DONE);
}

/* Every word is safe to write. */
static void test_text_of_every_word(void)
{
    unsigned long word;
    size_t i, length;

    set_up();
    for (word = 0; word < 65536; word += 80) {
        for (i = 0; i < 80; i++)
            page[i] = (uint16_t)(word + i);
        CHECK(write_text(80, MAX_BYTES, &length) == PANKHOLIM_DONE);
        CHECK(length == pankholim_text_len(page, 80) && length <= PANKHOLIM_TEXT_ROOM(1));
        CHECK(length > 0 && text[length - 1] == '\n' && memchr(text, '\n', length) == text + length - 1);
    }
}

/* ---- the status line */

/* Where the record has what is the line's (crates/record/src/lib.rt), and autowrap. */
enum {
    AUTOWRAP = 61,
    LINE_PRESENT = 96, LINE_ACTIVE, LINE_COLUMN, LINE_WRAP,
    LINE_SAVED_COLUMN, LINE_SAVED_WRAP, LINE_SAVED_RENDITION,
    LINE_SAVED_SETS = 106, LINE_SAVED_PROTECTED = 112, LINE_SAVED_SHIFT,
    LINE_CHANGED, UNUSED
};

#define ON_LINE "\033[1$~\033[1$}"
#define ON_PAGE "\033[$}"

/* Does the line begin with this text, in plain ASCII, and has it only blank cells after that? */
static int line_holds(const char *expected)
{
    size_t length = strlen(expected), i;

    for (i = 0; i < length; i++)
        if (line[i] != (uint8_t)expected[i])
            return 0;
    return are_blank(line + length, PANKHOLIM_LINE_CELLS - length);
}

/* Which display is active? */
static int is_on_page(void)
{
    return row_is(1920, 1, page) && row_is(1920, 24, page + PANKHOLIM_INDEX(24, 1));
}

static int is_on_line(void)
{
    return row_is(1920, 1, line) && row_is_refused(1920, 80, 2, PANKHOLIM_OFF_PAGE);
}

/* What refused feedings and findings of rows leave, whichever display is active. */
static void check_wrong_lines(const char *before)
{
    static uint16_t page_before[1920];
    pankholim_terminal terminal;
    size_t i, j;

    start_well(24);
    CHECK(feed(1920, "Hi", 0) == PANKHOLIM_DONE && feed(1920, before, 0) == PANKHOLIM_DONE);
    CHECK(feed(1920, "Ho\033[5", 0) == PANKHOLIM_DONE);
    terminal = record.terminal;
    memcpy(page_before, page, sizeof page_before);
    for (i = 0; i < WRONG_LINES; i++) {
        for (j = 0; j < MAX_LINE; j++)
            line[j] = WORD_GUARD;
        CHECK(feed_on(1920, wrong_lines[i], "nA", 2, 11) == PANKHOLIM_WRONG_SIZE && read_count == 0 && replied == 0);
        CHECK(feed_on(1920, wrong_lines[i], "", 0, 0) == PANKHOLIM_WRONG_SIZE && read_count == 0 && replied == 0);
        CHECK(row_is_refused(1920, wrong_lines[i], 1, PANKHOLIM_WRONG_SIZE));
        CHECK(row_is_refused(1920, wrong_lines[i], 0, PANKHOLIM_WRONG_SIZE));
        CHECK(row_is_refused(1919, wrong_lines[i], 1, PANKHOLIM_WRONG_SIZE));
        CHECK(row_is_refused(1919, 80, 1, PANKHOLIM_WRONG_SIZE));
        CHECK(line_is_left(0) && memcmp(page_before, page, sizeof page_before) == 0);
        CHECK(memcmp(&terminal, &record.terminal, sizeof terminal) == 0);
    }
    /* The sequence that was cut before the refusals goes on. */
    CHECK(feed(1920, "n", 4) == PANKHOLIM_DONE && replied_is("\033[0n"));
}

static void test_wrong_lines(void)
{
    check_wrong_lines("");
    CHECK(asks(1, 1));
    check_wrong_lines(ON_LINE);
    CHECK(asks_with_line(1, 1, 1));
}

/* Rows of the display that is active, handed back where they lie. */
static void test_row(void)
{
    static const size_t off[] = { 0, 49, 81, 256, 257, 65537, ((size_t)1 << 32) + 1, (size_t)1 << 63, (size_t)-1 };
    size_t i, j, row;

    for (i = 0; i < 3; i++) {
        size_t cells = PANKHOLIM_CELLS(sizes[i]);

        start_well(sizes[i]);
        for (row = 1; row <= sizes[i]; row++)
            CHECK(row_is(cells, row, page + PANKHOLIM_INDEX(row, 1)));
        CHECK(row_is_refused(cells, 80, sizes[i] + 1, PANKHOLIM_OFF_PAGE));
        for (j = 0; j < sizeof off / sizeof off[0]; j++)
            CHECK(row_is_refused(cells, 80, off[j], PANKHOLIM_OFF_PAGE));
        CHECK(feed(cells, ON_LINE "up", 0) == PANKHOLIM_DONE && row_is(cells, 1, line) && line_holds("up"));
        for (row = 2; row <= sizes[i] + 1; row++)
            CHECK(row_is_refused(cells, 80, row, PANKHOLIM_OFF_PAGE));
        for (j = 0; j < sizeof off / sizeof off[0]; j++)
            CHECK(row_is_refused(cells, 80, off[j], PANKHOLIM_OFF_PAGE));
        CHECK(feed(cells, ON_PAGE, 0) == PANKHOLIM_DONE && row_is(cells, 1, page));
        CHECK(row_is(cells, sizes[i], page + PANKHOLIM_INDEX(sizes[i], 1)));
    }
}

/* Which display is chosen by which numbers; what the line held is kept. */
static void test_choosing_the_line(void)
{
    static const char *const ignored[] = { "\033[2$}", "\033[3$~", "\033[99$}", "\033[?$~", "\033[>$}", "\033[0:$~" };
    size_t i;

    start_well(24);
    CHECK(is_on_page() && feed(1920, "\033[1$}A", 0) == PANKHOLIM_DONE && is_on_page());
    CHECK(reads(1920, 1, 1, 'A') && asks(1, 1));
    CHECK(feed(1920, "\033[2$~", 0) == PANKHOLIM_DONE && is_on_page());
    CHECK(feed(1920, "\033[1$}up", 0) == PANKHOLIM_DONE && is_on_line() && line_holds("up"));
    for (i = 0; i < sizeof ignored / sizeof ignored[0]; i++)
        CHECK(feed(1920, ignored[i], 0) == PANKHOLIM_DONE && is_on_line());
    CHECK(feed(1920, "\033[1$~\033[1$}", 0) == PANKHOLIM_DONE && is_on_line());
    /* No line: back to the page. The line and its cursor are still there when it is chosen again. */
    CHECK(feed(1920, "\033[$~B", 0) == PANKHOLIM_DONE && is_on_page() && line_holds("up") && reads(1920, 1, 2, 'B'));
    CHECK(feed(1920, "\033[1$}C", 0) == PANKHOLIM_DONE && is_on_page() && reads(1920, 1, 3, 'C'));
    CHECK(feed(1920, ON_LINE "!", 0) == PANKHOLIM_DONE && line_holds("up!"));
    CHECK(asks_with_line(1, 1, 1));
}

/* The flag is set by a change of a cell of the line, not counted, and cleared by asking. */
static void test_line_flag(void)
{
    start_well(24);
    CHECK(feed(1920, ON_LINE, 0) == PANKHOLIM_DONE && asks_with_line(0, 0, 0));
    CHECK(feed(1920, "A", 0) == PANKHOLIM_DONE && asks_with_line(0, 0, 1) && asks_with_line(0, 0, 0));
    CHECK(feed(1920, "\rA", 0) == PANKHOLIM_DONE && asks_with_line(0, 0, 0));
    CHECK(feed(1920, "\r\033[K", 0) == PANKHOLIM_DONE && asks_with_line(0, 0, 1));
    CHECK(feed(1920, "\r\033[K\n\033M", 0) == PANKHOLIM_DONE && asks_with_line(0, 0, 0));
    /* Changed, and changed back. */
    CHECK(feed(1920, "A\r\033[K", 0) == PANKHOLIM_DONE && asks_with_line(0, 0, 1));
    /* It waits while the page is written. */
    CHECK(feed(1920, "B" ON_PAGE, 0) == PANKHOLIM_DONE && feed(1920, "C\033[9HD", 0) == PANKHOLIM_DONE);
    CHECK(asks_with_line(0x101, 2, 1) && asks_with_line(0, 0, 0));
    CHECK(feed(1920, "\033[2J", 0) == PANKHOLIM_DONE && asks_with_line(0x101, 2, 0) && line_holds("B"));
    /* ESC c sets it where it blanks a cell, and keeps it. */
    CHECK(feed(1920, "\033c", 0) == PANKHOLIM_DONE && asks_with_line(0, 0, 1) && line_holds(""));
    CHECK(feed(1920, "\033c", 0) == PANKHOLIM_DONE && asks_with_line(0, 0, 0));
    CHECK(feed(1920, ON_LINE "A\033c\033c", 0) == PANKHOLIM_DONE && asks_with_line(0, 0, 1));
    CHECK(feed(1920, ON_LINE "A", 0) == PANKHOLIM_DONE && start(24, 1920) == PANKHOLIM_DONE && asks_with_line(0, 0, 0));
}

/* With answer 1 it is unset, whatever the record says, and the record is left. */
static void test_flag_of_broken_records(void)
{
    uint8_t *const bytes = (uint8_t *)&record.terminal;
    uint64_t rows;
    uint32_t count;
    uint8_t flag;

    start_well(24);
    CHECK(feed(1920, ON_LINE "A", 0) == PANKHOLIM_DONE && bytes[LINE_CHANGED] == 1);
    bytes[LINE_PRESENT] = 0;
    CHECK(ask(&rows, &count, &flag) == PANKHOLIM_BROKEN && rows == 0 && count == 0 && flag == 0);
    CHECK(bytes[LINE_CHANGED] == 1);
    bytes[LINE_PRESENT] = 1;
    CHECK(asks_with_line(0, 0, 1) && bytes[LINE_CHANGED] == 0);
}

/* While the modem writes to the line, the page and its cursor stay. */
static void test_line_beside_the_page(void)
{
    static const char *const pieces[] = {
        "signal -61 dBm", "\033[2J\033[H\033[1mup\033[m", "\n\v\f\033D\033M\033E\205", "\033[5L\033[5M\033[2;3r\033[?6l\033[?6h",
        "\033[99B\033[99A\033[40C\033[9D\t\b", "\033[4h+\033[4l\033[3@\033[2P\033[9X", "\0337\033[99C\0338", "\033#8",
        "\033[35;1;1;24;80$x\033[1;1;24;80$z\033[1;1;1;9;1;2;5;1$v", "\033[1\"q**\033[0\"q\033[?2J\033[?K", "\032\033[99;99H||||", "\033#8"
    };
    static uint16_t page_before[1920];
    size_t i;

    start_well(24);
    CHECK(feed(1920, "\033[?7h\033[5;10r\033[?6h\033[2;77H1.10", 0) == PANKHOLIM_DONE && asks(0x20, 1));
    memcpy(page_before, page, sizeof page_before);
    feed_apart(ON_LINE);
    for (i = 0; i < sizeof pieces / sizeof pieces[0]; i++) {
        feed_apart(pieces[i]);
        CHECK(memcmp(page_before, page, sizeof page_before) == 0 && cursor_is(PANKHOLIM_DONE, 6, 80, 1, 1));
        CHECK(reads(1920, 6, 80, '0') && reads(1920, 1, 1, PANKHOLIM_BLANK) && is_on_line());
    }
    for (i = 0; i < PANKHOLIM_LINE_CELLS; i++)
        CHECK(line[i] == 'E');
    CHECK(asks_with_line(0, 0, 1));
    /* Each has its own place; on the page origin and the wrap due are as they were. */
    CHECK(feed(1920, "\033[;7H\033[6n", 6) == PANKHOLIM_DONE && replied_is("\033[1;7R"));
    CHECK(feed(1920, ON_PAGE "\033[6n", 7) == PANKHOLIM_DONE && replied_is("\033[2;80R"));
    CHECK(feed(1920, "x", 0) == PANKHOLIM_DONE && reads(1920, 7, 1, 'x') && asks(0x40, 1));
}

/* A character with wrap due goes to column 1 of the line; each display has its own saved cursor. */
static void test_cursors_of_the_line(void)
{
    start_well(24);
    feed_apart("\033[?7h\033[5;77H\0337" ON_LINE "\033[;77H1.10\0337x");
    CHECK(line[0] == 'x' && line[76] == '1' && line[79] == '0');
    feed_apart("\0338y");
    CHECK(line[0] == 'y' && are_blank(line + 1, 75) && line[79] == '0');
    feed_apart(ON_PAGE "\033[H\0338z");
    CHECK(reads(1920, 5, 77, 'z') && cursor_is(PANKHOLIM_DONE, 5, 78, 0, 1));
    /* CSI ?7l ends both wrap dues, wherever it comes. */
    feed_apart("\033[5;80Hw" ON_LINE "\033[;80Hw");
    CHECK(cursor_is(PANKHOLIM_DONE, 5, 80, 1, 1) && ((uint8_t *)&record.terminal)[LINE_WRAP] == 1);
    feed_apart("\033[?7l");
    CHECK(cursor_is(PANKHOLIM_DONE, 5, 80, 0, 1) && ((uint8_t *)&record.terminal)[LINE_WRAP] == 0);
    /* A soft reset goes back to the page and renews what both saved; the line's cells and place stay. */
    feed_apart("\033[;9H\033[!p");
    CHECK(is_on_page() && line[0] == 'y' && cursor_is(PANKHOLIM_DONE, 5, 80, 0, 1));
    feed_apart("\0338a\033[1$}b\0338c");
    CHECK(reads(1920, 1, 1, 'a') && line[8] == 'b' && line[0] == 'c');
}

/* The same bytes at once and cut anywhere leave the same record, page and line. */
static void test_line_in_pieces(void)
{
    static const char session[] = "Page\033[2$~\033[?7h\033[1$}\033[1;5msignal\033[m -61 dBm\0337\033[;77H1.10x\033[4h>\0338\033(0q"
                                  ON_PAGE "\0337!\033[1$}\033[?7l\033[0K\033[$~?";
    static uint16_t page_whole[1920], line_whole[80];
    size_t length = sizeof session - 1, cut;
    pankholim_terminal whole;

    start_well(24);
    CHECK(feed(1920, session, 0) == PANKHOLIM_DONE);
    whole = record.terminal;
    CHECK(is_on_page());
    memcpy(page_whole, page, sizeof page_whole);
    memcpy(line_whole, line, sizeof line_whole);
    CHECK(text_of_is(line, 80, "x>ignal -61 dB\342\224\200\n") && text_is("Page!?\n", 80) && asks_with_line(1, 1, 1));
    for (cut = 0; cut <= length + 1; cut++) {
        start_well(24);
        if (cut > length) {
            feed_apart(session);
        } else {
            CHECK(feed_bytes(1920, session, cut, 0) == PANKHOLIM_DONE);
            CHECK(feed_bytes(1920, session + cut, length - cut, 0) == PANKHOLIM_DONE);
        }
        CHECK(memcmp(&whole, &record.terminal, sizeof whole) == 0);
        CHECK(memcmp(page_whole, page, sizeof page_whole) == 0 && memcmp(line_whole, line, sizeof line_whole) == 0);
    }
}

/* ---- the line's bytes of a record */

/* All that can be saved is, and a wrap is due. */
#define FULL_LINE "\033[?7h" ON_LINE "\033[80Cx\033[1;7m\033[1\"q\033)0\033.A\033+B\033o\033~\217\0337"

/* Where all bytes before these are whole. */
static int line_is_whole(const uint8_t *bytes)
{
    size_t i;

    for (i = 0; i < 4; i++)
        if (bytes[LINE_SAVED_RENDITION + i] > 1)
            return 0;
    for (i = 0; i < 6; i++)
        if (bytes[LINE_SAVED_SETS + i] > 3)
            return 0;
    return bytes[LINE_PRESENT] <= 1 && bytes[LINE_ACTIVE] <= bytes[LINE_PRESENT] && bytes[LINE_WRAP] <= 1
           && bytes[LINE_SAVED_WRAP] <= 1 && bytes[LINE_SAVED_PROTECTED] <= 1 && bytes[LINE_SAVED_SHIFT] <= 2
           && bytes[LINE_CHANGED] <= 1 && 1 <= bytes[LINE_COLUMN] && bytes[LINE_COLUMN] <= 80
           && 1 <= bytes[LINE_SAVED_COLUMN] && bytes[LINE_SAVED_COLUMN] <= 80
           && (bytes[LINE_WRAP] == 0 || (bytes[LINE_COLUMN] == 80 && bytes[AUTOWRAP] == 1))
           && (bytes[LINE_SAVED_WRAP] == 0 || bytes[LINE_SAVED_COLUMN] == 80);
}

/* A record is taken or refused as it should be. Taken, the unused bytes are 0 then, and all else is as it was. */
static int check_line_bytes(void)
{
    pankholim_terminal before = record.terminal;
    int whole = line_is_whole((const uint8_t *)&before);

    CHECK(feed(1920, "", 0) == (whole ? PANKHOLIM_DONE : PANKHOLIM_BROKEN));
    if (whole)
        memset((uint8_t *)&before + UNUSED, 0, RECORD - UNUSED);
    CHECK(memcmp(&before, &record.terminal, sizeof before) == 0);
    CHECK(page_is_left(0) && line_is_left(0));
    check_any_record();
    return whole;
}

static void test_line_bytes(void)
{
    static const char *const states[] = { "", ON_LINE "A", FULL_LINE, FULL_LINE "\033[?7l", FULL_LINE "\033[$~" };
    uint8_t *const bytes = (uint8_t *)&record.terminal;
    unsigned value, round, taken = 0;
    size_t i, at;

    for (i = 0; i < sizeof states / sizeof states[0]; i++) {
        pankholim_terminal good;

        start_well(24);
        CHECK(feed(1920, states[i], 0) == PANKHOLIM_DONE);
        good = record.terminal;
        for (at = LINE_PRESENT; at < RECORD; at++)
            for (value = 0; value < 256; value++) {
                set_up();
                record.terminal = good;
                bytes[at] = (uint8_t)value;
                check_line_bytes();
            }
        for (round = 0; round < 2000; round++) {
            set_up();
            record.terminal = good;
            for (at = LINE_PRESENT; at < RECORD; at++)
                bytes[at] = (uint8_t)(below(8) != 0 ? bytes[at] : below(4) != 0 ? below(3) : 79 + below(3));
            taken += (unsigned)check_line_bytes();
        }
    }
    CHECK(taken > 100);
}

/* The bytes of a fresh line, and of one where everything is set. */
static void test_line_in_the_record(void)
{
    static const uint8_t fresh[RECORD - LINE_PRESENT] = { 0, 0, 1, 0, 1, 0, 0, 0, 0, 0, 0, 0, 2, 2, 0, 2, 0, 0, 0, 0, 0, 0, 0, 0 };
    static const uint8_t full[RECORD - LINE_PRESENT] = { 1, 1, 80, 1, 80, 1, 1, 0, 0, 1, 0, 1, 3, 0, 3, 1, 1, 2, 1, 0, 0, 0, 0, 0 };
    const uint8_t *bytes = (const uint8_t *)&record.terminal + LINE_PRESENT;

    start_well(24);
    CHECK(memcmp(bytes, fresh, sizeof fresh) == 0);
    feed_apart(FULL_LINE);
    CHECK(memcmp(bytes, full, sizeof full) == 0);
    feed_apart("\033c");
    CHECK(asks_with_line(0, 0, 1) && memcmp(bytes, fresh, sizeof fresh) == 0);
}

static void test_status_line(void)
{
    test_wrong_lines();
    test_row();
    test_choosing_the_line();
    test_line_flag();
    test_flag_of_broken_records();
    test_line_beside_the_page();
    test_cursors_of_the_line();
    test_line_in_pieces();
    test_line_bytes();
    test_line_in_the_record();
}

/* ---- records are plain bytes, and there is one for each terminal */

static void test_copies(void)
{
    static const char more[] = "7H2.1\033[1$~\033[1$}up";
    static uint16_t other_page[1920], other_line[80];
    pankholim_terminal other;
    size_t other_read, other_replied;
    uint64_t rows;
    uint32_t count;
    uint8_t flag;

    start_well(24);
    CHECK(feed(1920, "Firmware \033[3;7", 0) == PANKHOLIM_DONE);
    other = record.terminal;
    memcpy(other_page, page, sizeof other_page);
    memcpy(other_line, line, sizeof other_line);
    CHECK(feed(1920, "H1.10", 0) == PANKHOLIM_DONE && asks(5, 2));
    CHECK(pankholim_feed(&other, other_page, 1920, other_line, 80, (const uint8_t *)more, sizeof more - 1, reply, 0,
                         &other_read, &other_replied) == PANKHOLIM_DONE);
    CHECK(pankholim_ask(&other, &rows, &count, &flag) == PANKHOLIM_DONE && rows == 5 && count == 2 && flag == 1);
    CHECK(page[PANKHOLIM_INDEX(3, 7)] == '1' && other_page[PANKHOLIM_INDEX(3, 77)] == '2');
    CHECK(page[PANKHOLIM_INDEX(3, 77)] == ' ' && other_page[PANKHOLIM_INDEX(3, 7)] == ' ');
    CHECK(other_line[0] == 'u' && are_blank(line, 80) && row_is(1920, 1, page));
}

/* ---- a record's bytes are determined by its state */

/* Fills the stack below the caller, so that a byte which a call forgets to write is seen. */
static void fill_stack(int byte)
{
    uint8_t bytes[4096];
    volatile uint8_t *at = bytes;
    size_t i;

    for (i = 0; i < sizeof bytes; i++)
        at[i] = (uint8_t)byte;
}

/* Starts a record that held `byte`, feeds and asks, on a stack filled with `byte`; at once, or in two calls of each. */
static pankholim_terminal record_after(int byte, int at_once)
{
    set_up();
    memset(&record.terminal, byte, sizeof record.terminal);
    fill_stack(byte);
    CHECK(start(24, 1920) == PANKHOLIM_DONE);
    fill_stack(byte);
    CHECK(feed(1920, at_once ? "Hi\033[1$~\033[1$}up\0337\033[3;7" : "Hi\033[1$~\033[1$}up\0337\033[", 0) == PANKHOLIM_DONE);
    fill_stack(byte);
    if (!at_once)
        CHECK(feed(1920, "3;7", 0) == PANKHOLIM_DONE);
    fill_stack(byte);
    CHECK(asks_with_line(1, 1, 1));
    fill_stack(byte);
    if (!at_once)
        CHECK(asks(0, 0));
    return record.terminal;
}

static void test_bytes_of_a_record(void)
{
    pankholim_terminal first = record_after(0, 1);
    int byte;

    CHECK(sizeof first == RECORD);
    for (byte = 0; byte < 256; byte++) {
        pankholim_terminal whole = record_after(byte, 1), parts = record_after(byte, 0);

        CHECK(memcmp(&first, &whole, sizeof first) == 0 && memcmp(&first, &parts, sizeof first) == 0);
    }
}

/* ---- streams of random bytes, cut anywhere, with any room */

/* A byte of a stream: often part of a sequence. */
static uint8_t random_byte(void)
{
    static const char parts[] = "\033\033[[[;;0123456789?!\"#$*()HJKLMPXm@rhlgnctvxz{}~\n\r\b\tAB";

    return (uint8_t)(below(3) == 0 ? below(256) : (unsigned)(uint8_t)parts[below(sizeof parts - 1)]);
}

/* Such bytes, and now and then a change to the line or back. */
static void fill_stream(uint8_t *stream, size_t length)
{
    static const char *const changes[] = { ON_LINE, "\033[1$}", ON_PAGE, ON_PAGE, "\033[$~" };
    const char *change = "";
    size_t i;

    for (i = 0; i < length; i++) {
        if (*change == '\0' && below(50) == 0)
            change = changes[below(5)];
        stream[i] = *change != '\0' ? (uint8_t)*change++ : random_byte();
    }
}

/* All that a terminal shows of a stream. */
struct seen {
    uint8_t sent[MAX_BYTES];
    size_t length;
    uint16_t page[PANKHOLIM_CELLS(48)];
    uint16_t line[PANKHOLIM_LINE_CELLS];
    uint64_t changed;
    uint8_t line_changed;
    pankholim_terminal record;
};

/* Pieces of streams after which the line was active, and streams that changed it. */
static unsigned long on_line, line_changes;

/* Feeds one piece, and returns how much of it was read. */
static size_t feed_piece(size_t rows, const uint8_t *input, size_t length, size_t room, struct seen *seen)
{
    uint8_t answer = feed_bytes(PANKHOLIM_CELLS(rows), input, length, room);
    uint64_t more;
    uint32_t count;
    size_t row, column;
    pankholim_part part;
    uint8_t flag, wrap, shown;
    uint16_t word;

    CHECK(answer == PANKHOLIM_DONE ? read_count == length : answer == PANKHOLIM_NO_ROOM);
    CHECK(read_count > 0 || room < PANKHOLIM_REPLY_ROOM);
    memcpy(seen->sent + seen->length, reply, replied);
    seen->length += replied;
    CHECK(ask(&more, &count, &flag) == PANKHOLIM_DONE && more >> rows == 0 && flag <= 1);
    seen->changed |= more;
    seen->line_changed |= flag;
    CHECK(find_row(PANKHOLIM_CELLS(rows), PANKHOLIM_LINE_CELLS, 1, &part) == PANKHOLIM_DONE);
    CHECK(part.cells == page || part.cells == line);
    on_line += part.cells == line;
    CHECK(cursor(&row, &column, &wrap, &shown) == PANKHOLIM_DONE);
    CHECK(read_word(PANKHOLIM_CELLS(rows), row, column, &word) == PANKHOLIM_DONE && (!wrap || column == 80));
    return read_count;
}

/* Feeds a stream to a fresh terminal, at once with all room or in pieces with little. */
static void feed_stream(size_t rows, const uint8_t *stream, size_t length, int in_pieces, struct seen *seen)
{
    size_t at = 0;

    memset(seen, 0, sizeof *seen);
    start_well(rows);
    while (at < length) {
        size_t piece = in_pieces ? 1 + below(40) : length;
        size_t room = in_pieces ? below(2 * PANKHOLIM_REPLY_ROOM) : MAX_BYTES;

        at += feed_piece(rows, stream + at, piece < length - at ? piece : length - at, room, seen);
    }
    memcpy(seen->page, page, PANKHOLIM_CELLS(rows) * sizeof(uint16_t));
    memcpy(seen->line, line, sizeof seen->line);
    seen->record = record.terminal;
}

static void test_streams(void)
{
    static uint8_t stream[1000];
    static struct seen whole, parts;
    unsigned round;

    for (round = 0; round < 300; round++) {
        size_t rows = sizes[round % 3];

        fill_stream(stream, sizeof stream);
        feed_stream(rows, stream, sizeof stream, 0, &whole);
        feed_stream(rows, stream, sizeof stream, 1, &parts);
        CHECK(whole.length == parts.length && memcmp(whole.sent, parts.sent, whole.length) == 0);
        CHECK(memcmp(whole.page, parts.page, sizeof whole.page) == 0);
        CHECK(memcmp(whole.line, parts.line, sizeof whole.line) == 0);
        CHECK(whole.changed == parts.changed && whole.line_changed == parts.line_changed);
        CHECK(memcmp(&whole.record, &parts.record, sizeof whole.record) == 0);
        line_changes += whole.line_changed;
    }
    CHECK(on_line > 1000 && line_changes > 100);
}

/* ---- nothing of page and line reaches the modem */

/* The terminal of the same modem over another page and line. */
static struct {
    pankholim_terminal terminal;
    uint16_t page[PANKHOLIM_CELLS(48)];
    uint16_t line[PANKHOLIM_LINE_CELLS];
    uint8_t reply[MAX_BYTES];
} second;

/* May one of the two be asked for what changed? */
static int one_is_asked;

/* Feedings of both: all; that sent something; that stopped for want of room; that left other changed rows, or another
 * flag of the line, where none was asked for these. */
static struct {
    unsigned long all, replied, stopped, changed_otherwise, flagged_otherwise;
} pairs;

/* Two fresh terminals, over blank cells and any words, the second perhaps with a line that was noted. */
static void start_pair(size_t rows)
{
    size_t i;

    start_well(rows);
    second.terminal = record.terminal;
    ((uint8_t *)&second.terminal)[LINE_CHANGED] = (uint8_t)below(2);
    one_is_asked = (int)below(2);
    for (i = 0; i < PANKHOLIM_CELLS(rows); i++)
        second.page[i] = (uint16_t)below(65536);
    for (i = 0; i < PANKHOLIM_LINE_CELLS; i++)
        second.line[i] = (uint16_t)below(65536);
}

/* Other words come into the second page and line, also where both were erased. */
static void change_second(size_t cells)
{
    unsigned n;

    for (n = 0; n < 20; n++) {
        second.page[below((unsigned)cells)] = (uint16_t)below(65536);
        second.line[below(PANKHOLIM_LINE_CELLS)] = (uint16_t)below(65536);
    }
    CHECK(memcmp(page, second.page, cells * sizeof(uint16_t)) != 0);
    CHECK(memcmp(line, second.line, sizeof second.line) != 0);
}

/* All of a record is to be the same but its first 8 bytes, the changed rows, and the line's flag; and all of it once
 * these are asked for. */
static void compare_records(pankholim_terminal one, pankholim_terminal other)
{
    uint8_t *const bytes = (uint8_t *)&one, *const other_bytes = (uint8_t *)&other;
    uint64_t rows, other_rows;
    uint32_t count;
    uint8_t flag, other_flag;

    CHECK(memcmp(bytes + 8, other_bytes + 8, LINE_CHANGED - 8) == 0);
    CHECK(memcmp(bytes + LINE_CHANGED + 1, other_bytes + LINE_CHANGED + 1, RECORD - LINE_CHANGED - 1) == 0);
    CHECK(pankholim_ask(&one, &rows, &count, &flag) == PANKHOLIM_DONE);
    CHECK(pankholim_ask(&other, &other_rows, &count, &other_flag) == PANKHOLIM_DONE);
    CHECK(memcmp(&one, &other, sizeof one) == 0);
    pairs.changed_otherwise += !one_is_asked && rows != other_rows;
    pairs.flagged_otherwise += !one_is_asked && flag != other_flag;
}

/* What is asked and read of one of the two, or refused to it, is not seen by the modem. */
static void disturb_one(size_t cells)
{
    static const uint8_t query[] = "\033[6n";
    pankholim_terminal broken;
    pankholim_part part;
    uint64_t rows;
    uint32_t count;
    uint16_t word;
    uint8_t flag;
    size_t n, m;

    memset(&broken, 0, sizeof broken);
    switch (below(6)) {
    case 0:
        CHECK(!one_is_asked || ask(&rows, &count, &flag) == PANKHOLIM_DONE);
        break;
    case 1:
        CHECK(read_word(cells, 1 + below(24), 1 + below(80), &word) == PANKHOLIM_DONE);
        break;
    case 2:
        CHECK(pankholim_feed(&record.terminal, page, cells - 1, line, 80, query, 4, reply, 64, &n, &m) == PANKHOLIM_WRONG_SIZE);
        break;
    case 3:
        CHECK(pankholim_feed(&record.terminal, page, cells, line, 79, query, 4, reply, 64, &n, &m) == PANKHOLIM_WRONG_SIZE);
        break;
    case 4:
        CHECK(find_row(cells, 80, 1, &part) == PANKHOLIM_DONE);
        break;
    default:
        CHECK(pankholim_feed(&broken, page, cells, line, 80, query, 4, reply, 64, &n, &m) == PANKHOLIM_BROKEN);
    }
}

/* Feeds both with as much room, and returns how much was read. */
static size_t feed_pair(size_t cells, const uint8_t *input, size_t length, size_t room)
{
    size_t second_read, second_replied, i;
    uint8_t answer;

    disturb_one(cells);
    change_second(cells);
    pairs.all++;
    memset(second.reply, 0x11, room);
    answer = feed_bytes(cells, input, length, room);
    CHECK(pankholim_feed(&second.terminal, second.page, cells, second.line, PANKHOLIM_LINE_CELLS, input, length,
                         second.reply, room, &second_read, &second_replied) == answer);
    CHECK(read_count == second_read && replied == second_replied && memcmp(reply, second.reply, replied) == 0);
    for (i = replied; i < room; i++)
        CHECK(second.reply[i] == 0x11);
    compare_records(record.terminal, second.terminal);
    pairs.replied += replied > 0;
    pairs.stopped += answer == PANKHOLIM_NO_ROOM;
    return read_count;
}

static void feed_pair_in_pieces(size_t rows, const uint8_t *input, size_t length)
{
    size_t at = 0;

    start_pair(rows);
    while (at < length) {
        size_t piece = 1 + below(40), left = length - at, room = below(2 * PANKHOLIM_REPLY_ROOM);

        at += feed_pair(PANKHOLIM_CELLS(rows), input + at, piece < left ? piece : left, room);
    }
}

static void test_no_leak(void)
{
    static uint8_t stream[600];
    unsigned round;

    for (round = 0; round < 300; round++) {
        fill_stream(stream, sizeof stream);
        feed_pair_in_pieces(sizes[round % 3], stream, sizeof stream);
    }
    CHECK(pairs.replied > 100 && pairs.stopped > 100 && pairs.changed_otherwise > pairs.all / 10);
    CHECK(pairs.flagged_otherwise > 100);
}

/* ---- the captures */

struct capture {
    uint8_t input[MAX_FILE], text[MAX_FILE], line[MAX_FILE];
    size_t length, text_length, line_length;
};

/* Reads a file. Where there is none, it is as if it held `otherwise`, if that is given. */
static size_t load(const char *name, const char *ending, const char *otherwise, uint8_t *into)
{
    char path[4096];
    FILE *file;
    size_t length;

    snprintf(path, sizeof path, "%s%s", name, ending);
    file = fopen(path, "rb");
    CHECK(file != NULL || otherwise != NULL);
    if (file == NULL) {
        memcpy(into, otherwise, strlen(otherwise));
        return strlen(otherwise);
    }
    length = fread(into, 1, MAX_FILE, file);
    CHECK(length < MAX_FILE && !ferror(file));
    fclose(file);
    return length;
}

/* Feeds a capture in pieces of one size, with just the room that guarantees progress. */
static void check_capture(const struct capture *capture, size_t piece)
{
    size_t at = 0, written;

    start_well(24);
    while (at < capture->length) {
        size_t left = capture->length - at;
        uint8_t answer = feed_bytes(1920, capture->input + at, piece < left ? piece : left, PANKHOLIM_REPLY_ROOM);

        CHECK(answer == PANKHOLIM_DONE || answer == PANKHOLIM_NO_ROOM);
        CHECK(read_count > 0);
        at += read_count;
    }
    CHECK(write_text(1920, MAX_BYTES, &written) == PANKHOLIM_DONE);
    CHECK(written == capture->text_length && memcmp(text, capture->text, written) == 0);
    CHECK(write_text_of(line, PANKHOLIM_LINE_CELLS, MAX_BYTES, &written) == PANKHOLIM_DONE);
    CHECK(written == capture->line_length && memcmp(text, capture->line, written) == 0);
}

static void test_capture(const char *name)
{
    static struct capture capture;

    capture.length = load(name, ".bytes", NULL, capture.input);
    capture.text_length = load(name, ".txt", NULL, capture.text);
    capture.line_length = load(name, ".line.txt", "\n", capture.line);
    check_capture(&capture, capture.length);
    check_capture(&capture, 1);
    check_capture(&capture, 7);
    feed_pair_in_pieces(24, capture.input, capture.length);
}

int main(int argc, char **argv)
{
    int i;

    if (argc < 2) {
        fprintf(stderr, "usage: %s CAPTURE...\n", argv[0]);
        return 2;
    }
    test_start();
    test_start_with_many_rows();
    test_start_on_wrong_pages();
    test_start_on_wrong_lines();
    test_refused_starts_of_a_terminal();
    test_broken_records();
    test_records_of_any_bytes();
    test_wrong_pages();
    test_lengths_of_zero();
    test_room();
    test_example_11();
    test_ask();
    test_read();
    test_cells();
    test_cursor();
    test_tabs();
    test_saved_cursor();
    test_rectangles();
    test_extent();
    test_subparameters();
    test_ignored_with_subparameters();
    test_record_with_subparameters();
    test_version();
    test_text();
    test_text_of_every_word();
    test_status_line();
    test_copies();
    test_bytes_of_a_record();
    test_streams();
    test_no_leak();
    for (i = 1; i < argc; i++)
        test_capture(argv[i]);
    printf("%lu checks passed, %d captures among them\n", checks, argc - 1);
    return 0;
}
