/*
 * Reads a field off a modem's page, as a gateway would:
 *
 *     field CAPTURE ROW COLUMN LENGTH
 *
 * feeds the capture to a terminal of 24 rows, in pieces and with little room for replies, and prints the
 * replies, the rows that changed, the status line if it changed, the cursor, the field and the page.
 */
#include <stdio.h>
#include <stdlib.h>

#include "pankholim.h"

enum { ROWS = 24, CELLS = PANKHOLIM_CELLS(ROWS), PIECE = 256 };

static pankholim_terminal terminal;
static uint16_t page[CELLS], line[PANKHOLIM_LINE_CELLS];

/* A reply as it would go to the modem. Replies have no control but ESC and, with 8-bit replies, CSI. */
static void send_reply(const uint8_t *reply, size_t length)
{
    size_t i;

    if (length == 0)
        return;
    printf("reply: ");
    for (i = 0; i < length; i++) {
        if (reply[i] == 0x1B)
            printf("ESC ");
        else if (reply[i] == 0x9B)
            printf("CSI ");
        else
            putchar(reply[i]);
    }
    putchar('\n');
}

/* Feeds a whole piece: after answer 3 the reply buffer is sent, and the rest goes in with it empty. */
static int feed(const uint8_t *input, size_t length)
{
    uint8_t reply[PANKHOLIM_REPLY_ROOM];
    size_t read, replied;
    uint8_t answer;

    do {
        answer = pankholim_feed(&terminal, page, CELLS, line, PANKHOLIM_LINE_CELLS, input, length, reply, sizeof reply,
                                &read, &replied);
        send_reply(reply, replied);
        input += read;
        length -= read;
        if (answer == PANKHOLIM_NO_ROOM)
            printf("no room for the next reply, %u bytes to go\n", (unsigned)length);
    } while (answer == PANKHOLIM_NO_ROOM);
    return answer == PANKHOLIM_DONE;
}

static int feed_file(FILE *file)
{
    uint8_t piece[PIECE];
    size_t length;

    while ((length = fread(piece, 1, sizeof piece, file)) > 0)
        if (!feed(piece, length))
            return 0;
    return !ferror(file);
}

/* The line is a row of its own; its text ends in a line feed. */
static void print_line(void)
{
    uint8_t text[PANKHOLIM_TEXT_ROOM(1)];
    size_t bytes;

    pankholim_write_text(line, PANKHOLIM_LINE_CELLS, text, sizeof text, &bytes);
    printf("status line: %.*s", (int)bytes, (const char *)text);
}

static void print_changed(const char *when)
{
    uint64_t rows;
    uint32_t count;
    uint8_t line_changed;
    size_t row;

    pankholim_ask(&terminal, &rows, &count, &line_changed);
    printf("rows changed %s:", when);
    for (row = 1; row <= ROWS; row++)
        if (pankholim_row_changed(rows, row))
            printf(" %u", (unsigned)row);
    printf(" (%u in all)\n", (unsigned)count);
    if (line_changed)
        print_line();
}

static void print_cursor(void)
{
    size_t row, column;
    uint8_t wrap, shown;

    pankholim_cursor(&terminal, &row, &column, &wrap, &shown);
    printf("cursor %u,%u%s%s\n", (unsigned)row, (unsigned)column, wrap ? ", wrap due" : "", shown ? "" : ", hidden");
}

/* The field's cells, read one by one, as the text of a row of their own. */
static void print_field(size_t row, size_t column, size_t length)
{
    uint16_t cells[PANKHOLIM_COLUMNS];
    uint8_t text[PANKHOLIM_TEXT_ROOM(1)];
    size_t i, bytes;
    uint8_t answer = PANKHOLIM_DONE;

    for (i = 0; i < PANKHOLIM_COLUMNS; i++)
        cells[i] = PANKHOLIM_BLANK;
    for (i = 0; i < length && i < PANKHOLIM_COLUMNS && answer == PANKHOLIM_DONE; i++)
        answer = pankholim_read(&terminal, page, CELLS, row, column + i, &cells[i]);
    pankholim_write_text(cells, PANKHOLIM_COLUMNS, text, sizeof text, &bytes);
    printf("field %u,%u: %.*s%s\n", (unsigned)row, (unsigned)column, (int)(bytes - 1), (const char *)text,
           answer == PANKHOLIM_OFF_PAGE ? " (runs off the page)" : "");
}

static int print_page(void)
{
    size_t length = pankholim_text_len(page, CELLS);
    uint8_t *text = malloc(length);
    int written = text != NULL && pankholim_write_text(page, CELLS, text, length, &length) == PANKHOLIM_DONE
                  && fwrite(text, 1, length, stdout) == length;

    free(text);
    return written;
}

int main(int argc, char **argv)
{
    FILE *file;
    int read;

    if (argc != 5) {
        fprintf(stderr, "usage: %s CAPTURE ROW COLUMN LENGTH\n", argv[0]);
        return 2;
    }
    file = fopen(argv[1], "rb");
    if (file == NULL) {
        perror(argv[1]);
        return 1;
    }
    if (pankholim_start(&terminal, ROWS, page, CELLS, line, PANKHOLIM_LINE_CELLS) != PANKHOLIM_DONE) {
        fclose(file);
        return 1;
    }
    print_changed("before");
    read = feed_file(file);
    fclose(file);
    if (!read)
        return 1;
    print_changed("by the capture");
    print_changed("since then");
    print_cursor();
    print_field(strtoul(argv[2], NULL, 10), strtoul(argv[3], NULL, 10), strtoul(argv[4], NULL, 10));
    return print_page() ? 0 : 1;
}
