#include "streams.h"

#include <stdarg.h>
#include <stdio.h>
#include <string.h>

/* ---- writing */

static void put(struct sink *sink, unsigned byte)
{
    if (sink->at < sink->length)
        sink->bytes[sink->at++] = (uint8_t)byte;
}

static void print(struct sink *sink, const char *format, ...)
{
    char text[256];
    va_list arguments;
    size_t i;

    va_start(arguments, format);
    vsnprintf(text, sizeof text, format, arguments);
    va_end(arguments);
    for (i = 0; text[i] != 0; i++)
        put(sink, (unsigned char)text[i]);
}

/* xorshift64 */
static unsigned below(struct sink *sink, unsigned bound)
{
    sink->random ^= sink->random << 13;
    sink->random ^= sink->random >> 7;
    sink->random ^= sink->random << 17;
    return (unsigned)(sink->random >> 33) % bound;
}

/* Words of small letters with spaces between. */
static void put_words(struct sink *sink, unsigned length)
{
    unsigned i;

    for (i = 0; i < length; i++)
        put(sink, below(sink, 6) == 0 ? ' ' : 'a' + below(sink, 26));
}

/* ---- plain text: lines of up to 80 characters, CR LF */

static void more_text(struct sink *sink)
{
    put_words(sink, below(sink, 81));
    print(sink, "\r\n");
}

/* ---- a status page: labels and values at fixed places, drawn again and again; nothing scrolls */

static void more_status(struct sink *sink)
{
    static const char *const labels[] = { "Firmware", "Bootloader", "Signal", "Noise", "Traffic this month",
                                          "Traffic today", "Rate down", "Rate up", "Errors", "Restarts", "Temperature",
                                          "Supply", "Neighbours", "Channel", "Lease", "Gateway" };
    unsigned i;

    print(sink, "\033[1;1H\033[7m ROOFTOP MODEM %u \033[m\033[1;62Huptime %02ud %02u:%02u:%02u", below(sink, 10),
          below(sink, 100), below(sink, 24), below(sink, 60), below(sink, 60));
    for (i = 0; i < sizeof labels / sizeof labels[0]; i++) {
        print(sink, "\033[%u;1H%s\033[%u;66H", 3 + i, labels[i], 3 + i);
        print(sink, below(sink, 4) == 0 ? "\033[1m%9u.%02u\033[0m" : "%9u.%02u", below(sink, 100000), below(sink, 100));
    }
    print(sink, "\033[21;1HPress \033[1mU\033[0m to update, \033[1mQ\033[0m to leave.\033[24;1H");
}

/* ---- scrolling: lines of at most four characters, many of none */

static void more_scroll(struct sink *sink)
{
    unsigned length = below(sink, 2) == 0 ? 0 : below(sink, 5);

    put_words(sink, length);
    if (length > 0)
        put(sink, '\r');
    put(sink, '\n');
}

/* ---- dense control sequences, few characters */

static unsigned row(struct sink *sink)
{
    return 1 + below(sink, 24);
}

static unsigned column(struct sink *sink)
{
    return 1 + below(sink, 80);
}

static void more_moves(struct sink *sink)
{
    switch (below(sink, 4)) {
    case 0:
        print(sink, "\033[%u%c", 1 + below(sink, 9), 'A' + below(sink, 4));
        break;
    case 1:
        print(sink, below(sink, 2) == 0 ? "\t" : "\b");
        break;
    case 2:
        print(sink, below(sink, 2) == 0 ? "\033D" : "\033M");
        break;
    default:
        print(sink, below(sink, 2) == 0 ? "\0337" : "\0338");
        break;
    }
}

static void more_edits(struct sink *sink)
{
    static const char finals[] = "@PXLM";

    switch (below(sink, 3)) {
    case 0:
        print(sink, "\033[%u%c", 1 + below(sink, 5), finals[below(sink, sizeof finals - 1)]);
        break;
    case 1:
        print(sink, "\033[%uK", below(sink, 3));
        break;
    default:
        print(sink, "\033[%uJ", below(sink, 2));
        break;
    }
}

static void more_modes(struct sink *sink)
{
    static const char *const modes[] = { "4", "20", "?6", "?7", "?25" };

    if (below(sink, 3) == 0)
        print(sink, "\033[%u;%ur", 1 + below(sink, 8), 16 + below(sink, 9));
    else
        print(sink, "\033[%s%c", modes[below(sink, 5)], below(sink, 2) == 0 ? 'h' : 'l');
}

static void more_control(struct sink *sink)
{
    static const unsigned renditions[] = { 0, 1, 4, 5, 7, 22, 24, 25, 27 };

    switch (below(sink, 10)) {
    case 0:
    case 1:
    case 2:
        print(sink, "\033[%u;%uH", row(sink), column(sink));
        break;
    case 3:
    case 4:
        print(sink, "\033[%u;%um", renditions[below(sink, 9)], renditions[below(sink, 9)]);
        break;
    case 5:
    case 6:
        more_edits(sink);
        break;
    case 7:
        more_modes(sink);
        break;
    case 8:
        more_moves(sink);
        break;
    default:
        put_words(sink, 1 + below(sink, 3));
        break;
    }
}

/* ---- forty tabbed columns a line: a table drawn again and again, with a tab in every other column; some fields are empty */

static void more_columns(struct sink *sink)
{
    unsigned i, k;

    if (sink->at == 0) {
        print(sink, "\033[3g");
        for (k = 1; k < 40; k++)
            print(sink, "\033[1;%uH\033H", 1 + 2 * k);
    }
    print(sink, "\033[H");
    for (i = 0; i < 23; i++) {
        for (k = 0; k < 40; k++) {
            if (k > 0)
                put(sink, '\t');
            if (below(sink, 4) > 0)
                put(sink, '0' + below(sink, 10));
        }
        print(sink, "\r\n");
    }
}

/* ---- random bytes */

static void more_random(struct sink *sink)
{
    put(sink, below(sink, 256));
}

const struct stream streams[STREAMS] = {
    { "text", "lines of 0 to 80 characters, CR LF", 1, more_text },
    { "status", "a status page drawn again and again, CUP and SGR", 1, more_status },
    { "scroll", "lines of 0 to 4 characters", 1, more_scroll },
    { "columns", "forty tabbed columns a line", 1, more_columns },
    { "control", "dense control sequences", 0, more_control },
    { "random", "random bytes", 0, more_random },
};

const struct stream *find_stream(const char *name)
{
    size_t i;

    for (i = 0; i < STREAMS; i++)
        if (strcmp(streams[i].name, name) == 0)
            return &streams[i];
    return NULL;
}

void make_stream(const struct stream *stream, uint64_t seed, uint8_t *bytes, size_t length)
{
    struct sink sink = { bytes, length, 0, 0 };

    /* xorshift's state is never 0. */
    sink.random = seed * 0x9E3779B97F4A7C15u | 1;
    while (sink.at < length)
        stream->more(&sink);
}
