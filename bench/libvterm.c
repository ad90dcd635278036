/* libvterm: 8-bit input, damage merged with scrolls and flushed after each chunk, which reports least often. */
#include "readers.h"

#include <stdlib.h>
#include <vterm.h>

/* One terminal at a time: its callbacks note the rows, its allocator is counted. */
static struct {
    VTerm *vterm;
    VTermScreen *screen;
    uint64_t rows, replied;
    struct memory memory;
} it;

/* ---- its callbacks */

static void note_rows(VTermRect rect)
{
    it.rows |= (((uint64_t)1 << rect.end_row) - 1) & ~(((uint64_t)1 << rect.start_row) - 1);
}

static int on_damage(VTermRect rect, void *user)
{
    (void)user;
    note_rows(rect);
    return 1;
}

static int on_move(VTermRect to, VTermRect from, void *user)
{
    (void)user;
    (void)from;
    note_rows(to);
    return 1;
}

static void on_output(const char *bytes, size_t length, void *user)
{
    (void)user;
    (void)bytes;
    it.replied += length;
}

/* ---- its allocator */

/* A piece's size stands before it. */
union header {
    size_t size;
    long double aligned;
};

static void *allocate(size_t size, void *user)
{
    union header *piece = calloc(1, sizeof *piece + size);

    (void)user;
    if (piece == NULL)
        abort();
    piece->size = size;
    it.memory.bytes += size;
    it.memory.pieces++;
    return piece + 1;
}

static void release(void *pointer, void *user)
{
    (void)user;
    if (pointer == NULL)
        return;
    it.memory.bytes -= ((union header *)pointer - 1)->size;
    it.memory.pieces--;
    free((union header *)pointer - 1);
}

/* ---- a terminal */

static void *start(size_t rows)
{
    static VTermAllocatorFunctions counted = { allocate, release };
    static const VTermScreenCallbacks callbacks = { .damage = on_damage, .moverect = on_move };

    it.memory.bytes = it.memory.pieces = 0;
    it.vterm = vterm_new_with_allocator((int)rows, COLUMNS, &counted, NULL);
    if (it.vterm == NULL)
        abort();
    vterm_set_utf8(it.vterm, 0);
    vterm_output_set_callback(it.vterm, on_output, NULL);
    it.screen = vterm_obtain_screen(it.vterm);
    vterm_screen_set_callbacks(it.screen, &callbacks, NULL);
    vterm_screen_set_damage_merge(it.screen, VTERM_DAMAGE_SCROLL);
    vterm_screen_reset(it.screen, 1);
    vterm_screen_flush_damage(it.screen);
    it.rows = it.replied = 0;
    return &it;
}

static uint64_t feed(void *terminal, const uint8_t *bytes, size_t length)
{
    (void)terminal;
    it.rows = 0;
    vterm_input_write(it.vterm, (const char *)bytes, length);
    vterm_screen_flush_damage(it.screen);
    return it.rows;
}

static uint64_t replied(void *terminal)
{
    (void)terminal;
    return it.replied;
}

static uint8_t read_code(void *terminal, size_t row, size_t column)
{
    VTermScreenCell cell;
    VTermPos at = { (int)row, (int)column };

    (void)terminal;
    vterm_screen_get_cell(it.screen, at, &cell);
    return (uint8_t)(cell.chars[0] == 0 ? ' ' : cell.chars[0] < 0x7F ? cell.chars[0] : 0);
}

static void memory_of(void *terminal, struct memory *memory)
{
    (void)terminal;
    *memory = it.memory;
}

static void stop(void *terminal)
{
    (void)terminal;
    vterm_free(it.vterm);
}

const struct reader libvterm = { "libvterm", start, feed, replied, read_code, memory_of, stop };
