/*
 * Looks at every byte that the calls leave, refused or not, for a checker of memory that tells of a branch on a
 * byte that nothing wrote.
 *
 *     valgrind --error-exitcode=1 --track-origins=yes defined
 */
#include <stdio.h>
#include <string.h>

#include "pankholim.h"

#define ROOM 32

static uint16_t page[PANKHOLIM_CELLS(24)], line[PANKHOLIM_LINE_CELLS];
static unsigned long zeros, others;

static void look_at(const void *bytes, size_t length)
{
    const uint8_t *at = bytes;
    size_t i;

    for (i = 0; i < length; i++)
        if (at[i] == 0)
            zeros++;
        else
            others++;
}

static uint8_t start_on(pankholim_terminal *terminal, size_t rows, size_t cells, size_t line_cells)
{
    uint8_t answer = pankholim_start(terminal, rows, page, cells, line, line_cells);

    look_at(&answer, 1);
    if (answer == PANKHOLIM_DONE)
        look_at(terminal, sizeof *terminal);
    look_at(page, sizeof page);
    look_at(line, sizeof line);
    return answer;
}

static uint8_t start(pankholim_terminal *terminal, size_t rows, size_t cells)
{
    return start_on(terminal, rows, cells, PANKHOLIM_LINE_CELLS);
}

static uint8_t feed_on(pankholim_terminal *terminal, size_t cells, size_t line_cells, const char *input, size_t room)
{
    uint8_t reply[ROOM];
    size_t read, replied;
    uint8_t answer = pankholim_feed(terminal, page, cells, line, line_cells, (const uint8_t *)input, strlen(input),
                                    reply, room, &read, &replied);

    look_at(&answer, 1);
    look_at(&read, sizeof read);
    look_at(&replied, sizeof replied);
    look_at(reply, replied);
    look_at(terminal, sizeof *terminal);
    look_at(page, sizeof page);
    look_at(line, sizeof line);
    return answer;
}

static uint8_t feed(pankholim_terminal *terminal, size_t cells, const char *input, size_t room)
{
    return feed_on(terminal, cells, PANKHOLIM_LINE_CELLS, input, room);
}

static uint8_t ask(pankholim_terminal *terminal)
{
    uint64_t rows;
    uint32_t count;
    uint8_t flag;
    uint8_t answer = pankholim_ask(terminal, &rows, &count, &flag);

    look_at(&answer, 1);
    look_at(&rows, sizeof rows);
    look_at(&count, sizeof count);
    look_at(&flag, 1);
    look_at(terminal, sizeof *terminal);
    return answer;
}

static uint8_t find_row(const pankholim_terminal *terminal, size_t line_cells, size_t row)
{
    pankholim_part part;
    uint8_t answer = pankholim_row(*terminal, page, PANKHOLIM_CELLS(24), line, line_cells, row, &part);

    look_at(&answer, 1);
    look_at(&part.length, sizeof part.length);
    if (answer == PANKHOLIM_DONE)
        look_at(part.cells, part.length * sizeof part.cells[0]);
    return answer;
}

static uint8_t read_cell(const pankholim_terminal *terminal, size_t cells, size_t row)
{
    uint16_t word;
    uint8_t answer = pankholim_read(terminal, page, cells, row, 1, &word);

    look_at(&answer, 1);
    look_at(&word, sizeof word);
    look_at(terminal, sizeof *terminal);
    return answer;
}

static uint8_t read_cursor(const pankholim_terminal *terminal)
{
    size_t row, column;
    uint8_t wrap, shown;
    uint8_t answer = pankholim_cursor(terminal, &row, &column, &wrap, &shown);

    look_at(&answer, 1);
    look_at(&row, sizeof row);
    look_at(&column, sizeof column);
    look_at(&wrap, 1);
    look_at(&shown, 1);
    return answer;
}

static uint8_t write_text(const uint16_t *from, size_t cells, size_t room)
{
    uint8_t text[PANKHOLIM_TEXT_ROOM(24)];
    size_t length;
    uint8_t answer = pankholim_write_text(from, cells, text, room, &length);

    look_at(&answer, 1);
    look_at(&length, sizeof length);
    if (answer == PANKHOLIM_DONE)
        look_at(text, length);
    return answer;
}

/* Every call with every answer that it can give. */
static int all_are_answered(void)
{
    pankholim_terminal terminal, broken;

    memset(&broken, 0, sizeof broken);
    return start(&terminal, 280, PANKHOLIM_CELLS(24)) == PANKHOLIM_BROKEN
           && start(&terminal, 24, 80) == PANKHOLIM_WRONG_SIZE
           && start_on(&terminal, 24, PANKHOLIM_CELLS(24), 79) == PANKHOLIM_WRONG_SIZE
           && start(&terminal, 24, PANKHOLIM_CELLS(24)) == PANKHOLIM_DONE
           && ask(&terminal) == PANKHOLIM_DONE
           && feed(&terminal, PANKHOLIM_CELLS(24), "\0337\033[1;4m\033(0q\033[?6;7h\033[2;9r\033H", 0) == PANKHOLIM_DONE
           && feed(&terminal, PANKHOLIM_CELLS(24), "\033[5n\033[3;4H\033[6n", ROOM) == PANKHOLIM_DONE
           && feed(&terminal, PANKHOLIM_CELLS(24), "\033[c\033[>1;2;3", 3) == PANKHOLIM_NO_ROOM
           && feed(&terminal, 80, "c", 3) == PANKHOLIM_WRONG_SIZE
           && feed_on(&terminal, PANKHOLIM_CELLS(24), 79, "c", 3) == PANKHOLIM_WRONG_SIZE
           && ask(&terminal) == PANKHOLIM_DONE
           && find_row(&terminal, PANKHOLIM_LINE_CELLS, 24) == PANKHOLIM_DONE
           && find_row(&terminal, PANKHOLIM_LINE_CELLS, 25) == PANKHOLIM_OFF_PAGE
           && find_row(&terminal, 79, 1) == PANKHOLIM_WRONG_SIZE
           && feed(&terminal, PANKHOLIM_CELLS(24), "\033[1$~\033[1$}\033[1;79Hup!\0337\033[6n\0338", ROOM) == PANKHOLIM_DONE
           && find_row(&terminal, PANKHOLIM_LINE_CELLS, 1) == PANKHOLIM_DONE
           && find_row(&terminal, PANKHOLIM_LINE_CELLS, 2) == PANKHOLIM_OFF_PAGE
           && ask(&terminal) == PANKHOLIM_DONE
           && feed(&terminal, PANKHOLIM_CELLS(24), "\033[2K\033#8\033[!p\033[1$}\0338-\033c", 0) == PANKHOLIM_DONE
           && ask(&terminal) == PANKHOLIM_DONE
           && read_cell(&terminal, PANKHOLIM_CELLS(24), 1) == PANKHOLIM_DONE
           && read_cell(&terminal, PANKHOLIM_CELLS(24), 0) == PANKHOLIM_OFF_PAGE
           && read_cell(&terminal, 80, 1) == PANKHOLIM_WRONG_SIZE
           && read_cursor(&terminal) == PANKHOLIM_DONE
           && start(&terminal, 25, PANKHOLIM_CELLS(24)) == PANKHOLIM_BROKEN
           && ask(&terminal) == PANKHOLIM_DONE
           && feed(&broken, PANKHOLIM_CELLS(24), "A", 0) == PANKHOLIM_BROKEN
           && ask(&broken) == PANKHOLIM_BROKEN
           && find_row(&broken, PANKHOLIM_LINE_CELLS, 1) == PANKHOLIM_BROKEN
           && read_cell(&broken, PANKHOLIM_CELLS(24), 1) == PANKHOLIM_BROKEN
           && read_cursor(&broken) == PANKHOLIM_BROKEN
           && write_text(page, PANKHOLIM_CELLS(24), 1) == PANKHOLIM_NO_ROOM
           && write_text(page, PANKHOLIM_CELLS(24), PANKHOLIM_TEXT_ROOM(24)) == PANKHOLIM_DONE
           && write_text(line, PANKHOLIM_LINE_CELLS, PANKHOLIM_TEXT_ROOM(1)) == PANKHOLIM_DONE;
}

int main(void)
{
    if (!all_are_answered())
        return 1;
    printf("%lu bytes looked at\n", zeros + others);
    return 0;
}
