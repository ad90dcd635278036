/*
 * Pankholim: a VT420 console reader, proved correct in Rattle, for C and C++.
 *
 * Link target/staticlib/libpankholim.a, which `bash tools/build library` writes, for x86-64 Linux alone. The
 * library allocates nothing, keeps nothing between calls, has no global data and calls no other library, so calls
 * on different terminals may run at the same time. A call takes less than 2,560 bytes of stack (measured:
 * tests/c/stack.c).
 *
 * A terminal is a record, a page and a status line, lent by the caller at each call that takes them:
 *
 *     pankholim_terminal terminal;
 *     uint16_t page[PANKHOLIM_CELLS(24)], line[PANKHOLIM_LINE_CELLS];
 *     pankholim_start(&terminal, 24, page, PANKHOLIM_CELLS(24), line, PANKHOLIM_LINE_CELLS);
 *
 * The status line ("the line" below) is a row of 80 cells beside the page, which the modem may write to. CSI Ps $ ~
 * says whether there is one (0 none, 1 and 2 a line), and CSI Ps $ } which of the two is active (0 the page, 1 the
 * line, ignored where there is none). While the line is active, bytes act on it as on a page of one row that never
 * scrolls, with a cursor column, a wrap due and a saved cursor of its own, and the page stays as it is: its cells, its
 * cursor (but that CSI ?7l clears both wrap dues), its saved cursor, margins and origin mode. Tabs, the other modes,
 * rendition, protection, sets and a pending shift are one for both. CSI 0 $ ~, a soft reset (CSI ! p) and ESC c go
 * back to the page; a soft reset and ESC c act on the page, whichever is active. A start and ESC c also blank the line,
 * and there is none then; else its cells stay.
 *
 * What holds of every call:
 *
 * - Any bytes and any lengths are safe, 0 too. A length counts elements: cells of a page or line, bytes of the rest.
 * - A pointer is not NULL, also where its length is 0, and is aligned for its type.
 * - What a call writes through one pointer does not overlap what it is lent through another.
 * - A record may hold any bytes. One that is not whole is refused with PANKHOLIM_BROKEN: all zero bytes always,
 *   and what an unrefused start, feeding or asking left never. It holds no pointers, so a copy of it, at any
 *   address, is a record for a copy of its page and line.
 * - Every byte of a record is a field's, so what an unrefused start, feeding or asking leaves are the same 120 bytes
 *   wherever the state is the same.
 * - Cells of page and line may hold any word. Nothing of them reaches the modem: the answer of a feeding, *read,
 *   *replied, the bytes replied, and the record but for its changed rows and the line's flag are the same over any page
 *   and any line of the right length, whatever the changed rows and the flag were.
 * - Answers 1, 2 and 4 are refusals; they leave what was lent, but for what is said at the call. 1 is looked
 *   at before 2, and 2 before 4.
 * - Nothing outside the lengths given is read or written.
 */
#ifndef PANKHOLIM_H
#define PANKHOLIM_H

#include <stddef.h>
#include <stdint.h>

#ifdef __cplusplus
extern "C" {
#endif

/* The version of this header. pankholim_version is that of the library, as one number. */
#define PANKHOLIM_VERSION_MAJOR 0
#define PANKHOLIM_VERSION_MINOR 5
#define PANKHOLIM_VERSION_PATCH 0
#define PANKHOLIM_VERSION \
    (PANKHOLIM_VERSION_MAJOR * 65536 + PANKHOLIM_VERSION_MINOR * 256 + PANKHOLIM_VERSION_PATCH)

uint32_t pankholim_version(void);

/* A page has 24, 36 or 48 rows of 80 cells, row after row. Rows and columns count from 1. */
#define PANKHOLIM_COLUMNS 80
#define PANKHOLIM_MAX_ROWS 48

/* How many cells a page of so many rows has. */
#define PANKHOLIM_CELLS(rows) (PANKHOLIM_COLUMNS * (rows))

/* How many cells a status line has. */
#define PANKHOLIM_LINE_CELLS PANKHOLIM_COLUMNS

/* The place in a page of a cell that is on it. */
#define PANKHOLIM_INDEX(row, column) (PANKHOLIM_COLUMNS * ((row) - 1) + ((column) - 1))

/* The longest reply to one byte. With so much room a feeding that has input and is not refused reads at
 * least one byte. */
#define PANKHOLIM_REPLY_ROOM 11

/* Room for the text of any page of so many rows, with no byte 00 at its end: three bytes for each cell, and
 * the line feed. */
#define PANKHOLIM_TEXT_ROOM(rows) ((3 * PANKHOLIM_COLUMNS + 1) * (rows))

/* The word of a blank cell: code 20, ASCII, no flag. */
#define PANKHOLIM_BLANK 0x0020

/* What a call answers. */
enum pankholim_answer {
    PANKHOLIM_DONE = 0,
    /* The record is not whole; at a start, there is no page of so many rows. */
    PANKHOLIM_BROKEN = 1,
    /* The page has not 80 cells for each row, or the line has not 80. */
    PANKHOLIM_WRONG_SIZE = 2,
    /* The next reply, or the text, is longer than the room left. No refusal of a feeding: what was read
     * before is done. */
    PANKHOLIM_NO_ROOM = 3,
    /* The row or the column is off the page; at pankholim_row, the row is off the display that is active. */
    PANKHOLIM_OFF_PAGE = 4
};

/* The record of one terminal: all that lasts between two calls, but page and line. It is 120 bytes, aligned to 8,
 * just as the library's own. Its content is the library's: versions that differ in major or minor number may lay
 * it out differently, so a record is for the version that left it. */
typedef struct {
    uint64_t opaque[15];
} pankholim_terminal;

/*
 * Starts a terminal with a page of `rows` rows, which is to have PANKHOLIM_CELLS(rows) cells, and a line, which is to
 * have PANKHOLIM_LINE_CELLS.
 *
 * 0: the record is fresh (cursor 1,1, the page active, there is no line, and neither a row nor the line is noted as
 *    changed), every cell of page and line is blank.
 * 1: `rows` is not 24, 36 or 48. 2: `cells` is not 80 * rows, or `line_cells` not 80. Both leave record, page and line.
 *
 * The record may hold anything before. A refused start leaves just that, so a record is a terminal's only after
 * a start that was answered 0.
 */
uint8_t pankholim_start(pankholim_terminal *terminal, size_t rows, uint16_t *page, size_t cells, uint16_t *line,
                        size_t line_cells);

/*
 * Feeds `length` bytes from the modem. Sequences may be cut anywhere between two calls.
 *
 * 0: all was read; *read is `length`.
 * 3: the reply to the byte input[*read] is longer than the room left. The bytes before it are done; that
 *    byte is not, and is the first to feed next. *read may be 0 where `room` is below PANKHOLIM_REPLY_ROOM.
 * In both, the first *replied bytes of `reply` are to be sent to the modem; those after them are left.
 * 1: the record is not whole. 2: `cells` does not fit the record, or `line_cells` is not 80, whichever of the two is
 *    active. Both set *read and *replied to 0, and leave record, page, line and reply. 2 is also answered to empty
 *    input.
 *
 * Empty input is answered 0 with 0 read, 0 replied and nothing changed. Where no reply falls due, no room is
 * needed.
 */
uint8_t pankholim_feed(pankholim_terminal *terminal, uint16_t *page, size_t cells, uint16_t *line, size_t line_cells,
                       const uint8_t *input, size_t length, uint8_t *reply, size_t room, size_t *read,
                       size_t *replied);

/*
 * Asks for the changed rows of the page, and whether the line changed: where a step of a feeding changed a cell since
 * the last asking that was answered 0, or since the start.
 *
 * 0: bit n - 1 of *changed is 1 exactly if row n changed (see pankholim_row_changed), *count is how many did,
 *    *line_changed is 1 exactly if the line changed, which *count does not count, else 0; and the record has none noted
 *    any more.
 * 1: the record is not whole, and is left; *changed, *count and *line_changed are 0.
 */
uint8_t pankholim_ask(pankholim_terminal *terminal, uint64_t *changed, uint32_t *count, uint8_t *line_changed);

/* Some cells of a page or of a line. */
typedef struct {
    const uint16_t *cells;
    size_t length;
} pankholim_part;

/*
 * Finds a row of whichever display is active: row 1 to R of the page or, while the line is active, row 1, which is the
 * line. Any number may be asked for. The record goes by value.
 *
 * 0: *part is the row's 80 cells. They lie in the page or in the line that was lent, and last as long as that.
 * 1: the record is not whole. 2: `cells` does not fit the record, or `line_cells` is not 80, whichever of the two is
 *    active. 4: the active display has no such row. In these the length of *part is 0, and its pointer is not to be
 *    used.
 *
 * *part need not be set before.
 */
uint8_t pankholim_row(pankholim_terminal terminal, const uint16_t *page, size_t cells, const uint16_t *line,
                      size_t line_cells, size_t row, pankholim_part *part);

/*
 * Reads the page's cell at a row and column, both from 1, whatever is active. Any numbers may be asked for.
 *
 * 0: *word is the cell's word.
 * 1: the record is not whole. 2: `cells` does not fit the record. 4: there is no such row or column. In these
 *    *word is PANKHOLIM_BLANK.
 */
uint8_t pankholim_read(const pankholim_terminal *terminal, const uint16_t *page, size_t cells, size_t row,
                       size_t column, uint16_t *word);

/*
 * Reads the page's cursor, whatever is active.
 *
 * 0: *row and *column are its place on the page, from 1, also with origin mode on; *wrap is 1 if a wrap is due,
 *    so that the next character starts a new row, else 0; *shown is 1 if the cursor is shown, else 0.
 * 1: the record is not whole; all four are 0.
 */
uint8_t pankholim_cursor(const pankholim_terminal *terminal, size_t *row, size_t *column, uint8_t *wrap,
                         uint8_t *shown);

/*
 * How many bytes the text of a page takes. Any number of cells will do: those past the last whole row of 80
 * do not count, and with fewer than 80 it is 0. So a row alone, page + PANKHOLIM_INDEX(row, 1) with 80 cells, is
 * a page here and for pankholim_write_text, and so is a line.
 */
size_t pankholim_text_len(const uint16_t *page, size_t cells);

/*
 * Writes a page as UTF-8 text: a line of text for each row, spaces at its end off, closed by 0A. No byte 00 follows.
 *
 * 0: the first *length bytes of `text` are the text; those after them are left.
 * 3: the text is longer than `room`; `text` is left, and *length is how many bytes it needs.
 */
uint8_t pankholim_write_text(const uint16_t *page, size_t cells, uint8_t *text, size_t room, size_t *length);

/* The sets of a cell. */
enum pankholim_set {
    PANKHOLIM_ASCII = 0,
    PANKHOLIM_SPECIAL_GRAPHICS = 1,
    PANKHOLIM_SUPPLEMENTAL = 2,
    PANKHOLIM_LATIN_1 = 3
};

/* The flags of a cell. Bits 14 and 15 are unused; the library writes them zero. */
#define PANKHOLIM_BOLD 0x0200
#define PANKHOLIM_UNDERLINE 0x0400
#define PANKHOLIM_BLINK 0x0800
#define PANKHOLIM_REVERSE 0x1000
#define PANKHOLIM_PROTECTED 0x2000

/* The code of a cell, 00 to 7F. */
static inline uint8_t pankholim_code(uint16_t word)
{
    return (uint8_t)(word & 0x7F);
}

static inline enum pankholim_set pankholim_set_of(uint16_t word)
{
    return (enum pankholim_set)((word >> 7) & 3);
}

static inline int pankholim_is_bold(uint16_t word)
{
    return (word & PANKHOLIM_BOLD) != 0;
}

static inline int pankholim_is_underlined(uint16_t word)
{
    return (word & PANKHOLIM_UNDERLINE) != 0;
}

static inline int pankholim_is_blinking(uint16_t word)
{
    return (word & PANKHOLIM_BLINK) != 0;
}

static inline int pankholim_is_reversed(uint16_t word)
{
    return (word & PANKHOLIM_REVERSE) != 0;
}

/* Protected against selective erase. */
static inline int pankholim_is_protected(uint16_t word)
{
    return (word & PANKHOLIM_PROTECTED) != 0;
}

/* Is row `row` in a set of rows that pankholim_ask gave? Any number may be asked for. */
static inline int pankholim_row_changed(uint64_t changed, size_t row)
{
    return 1 <= row && row <= PANKHOLIM_MAX_ROWS && ((changed >> (row - 1)) & 1) != 0;
}

#ifdef __cplusplus
}
#endif

#endif
