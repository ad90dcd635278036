/* alacritty_terminal: no history; its lines of damage are taken and reset after each chunk. The functions are in
 * alacritty/src/lib.rs. */
#include "readers.h"

struct terminal;
struct terminal *alacritty_start(size_t rows, size_t columns);
uint64_t alacritty_feed(struct terminal *terminal, const uint8_t *bytes, size_t length);
uint64_t alacritty_replied(const struct terminal *terminal);
uint32_t alacritty_read(const struct terminal *terminal, size_t row, size_t column);
void alacritty_memory(size_t *bytes, size_t *pieces);
void alacritty_stop(struct terminal *terminal);

static void *start(size_t rows)
{
    return alacritty_start(rows, COLUMNS);
}

static uint64_t feed(void *terminal, const uint8_t *bytes, size_t length)
{
    return alacritty_feed(terminal, bytes, length);
}

static uint64_t replied(void *terminal)
{
    return alacritty_replied(terminal);
}

static uint8_t read_code(void *terminal, size_t row, size_t column)
{
    uint32_t character = alacritty_read(terminal, row, column);

    return (uint8_t)(character < 0x7F ? character : 0);
}

static void memory_of(void *terminal, struct memory *memory)
{
    (void)terminal;
    alacritty_memory(&memory->bytes, &memory->pieces);
}

static void stop(void *terminal)
{
    alacritty_stop(terminal);
}

const struct reader alacritty = { "alacritty", start, feed, replied, read_code, memory_of, stop };
