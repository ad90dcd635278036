/*
 * Measures the library beside Debian's libvterm and alacritty_terminal, in one run.
 *
 *     bench [--bytes N] [--rounds N] [--seed N]        the tables
 *     bench --only NAME --stream NAME --bytes N [--chunk N] [--rows N] [--seed N]
 *
 * The second form feeds the first N bytes of a stream once to one of the three (ours, libvterm, alacritty), for a tool
 * that counts the instructions of feed_chunks.
 */
#define _POSIX_C_SOURCE 199309L
#include "pankholim.h"
#include "readers.h"
#include "streams.h"

#include <emmintrin.h>
#include <stdio.h>
#include <stdlib.h>
#include <string.h>
#include <time.h>

enum { MAX_ROUNDS = 99, MEMORY_BYTES = 1 << 20 };

static const struct reader *const readers[READERS] = { &ours, &libvterm, &alacritty };

static struct options {
    size_t bytes, chunk, rows;
    unsigned rounds;
    uint64_t seed;
    const char *only, *stream;
} options = { 8 << 20, CHUNK, ROWS, 7, 1, NULL, NULL };

/* Nanoseconds: cheaper to read than the processor's time, for short times. */
static double now(void)
{
    struct timespec time;

    clock_gettime(CLOCK_MONOTONIC, &time);
    return 1e9 * (double)time.tv_sec + (double)time.tv_nsec;
}

/* ---- times of several rounds */

struct times {
    double all[MAX_ROUNDS];
    unsigned rounds;
};

static int by_size(const void *a, const void *b)
{
    double x = *(const double *)a, y = *(const double *)b;

    return (x > y) - (x < y);
}

static void sort_times(struct times *times)
{
    qsort(times->all, times->rounds, sizeof times->all[0], by_size);
}

/* Of sorted times. */
static double best(const struct times *times)
{
    return times->all[0];
}

static double median(const struct times *times)
{
    unsigned half = times->rounds / 2;

    return times->rounds % 2 == 1 ? times->all[half] : (times->all[half - 1] + times->all[half]) / 2;
}

/* ---- the streams */

/* Nanoseconds as millions of bytes in a second. */
static double rate(double nanoseconds)
{
    return 1e3 * (double)options.bytes / nanoseconds;
}

/* Measures a stream. Are the pages the same, where they must be? */
static int measure(const struct stream *stream, const uint8_t *bytes)
{
    static struct outcome outcomes[READERS];
    struct times times[READERS];
    unsigned long long checksum = 0;
    int same = 1;
    unsigned round, i;

    for (round = 0; round < options.rounds; round++)
        for (i = 0; i < READERS; i++)
            times[i].all[round] = feed_stream(readers[i], ROWS, bytes, options.bytes, CHUNK, &outcomes[i]);
    printf("%-8s", stream->name);
    for (i = 0; i < READERS; i++) {
        times[i].rounds = options.rounds;
        sort_times(&times[i]);
        same &= memcmp(outcomes[0].page, outcomes[i].page, sizeof outcomes[0].page) == 0;
        checksum = checksum * 31 + outcomes[i].changed + outcomes[i].replied;
        printf(" %8.1f %8.1f", rate(best(&times[i])), rate(median(&times[i])));
    }
    for (i = 1; i < READERS; i++)
        printf(" %9.2f", median(&times[i]) / median(&times[0]));
    printf("   %-4s %016llx\n", !stream->same_everywhere ? "-" : same ? "yes" : "no", checksum);
    fflush(stdout);
    return same || !stream->same_everywhere;
}

static int measure_streams(uint8_t *bytes)
{
    int same = 1;
    size_t i;

    printf("Streams of %.1f million bytes in chunks of %d, %u rounds of each in turn; millions of bytes in a\n"
           "second of processor time\n\n",
           (double)options.bytes / 1e6, CHUNK, options.rounds);
    printf("%-8s %8s %8s %8s %8s %9s %7s %9s %9s   %-4s %s\n", "stream", "ours", "", "libvterm", "", "alacritty", "",
           "ours to", "ours to", "same", "checksum");
    printf("%-8s %8s %8s %8s %8s %8s %8s %9s %9s   %-4s\n", "", "best", "median", "best", "median", "best", "median",
           "libvterm", "alacritty", "page");
    for (i = 0; i < STREAMS; i++) {
        make_stream(&streams[i], options.seed, bytes, options.bytes);
        same &= measure(&streams[i], bytes);
    }
    printf("\n");
    return same;
}

/* ---- one scroll of the whole page, up or down: as many in a call as the page has rows */

enum { SCROLLS = ROWS, TIMINGS = 2000, LF = 0x0A, IND = 0x84, RI = 0x8D };

static uint16_t page[PANKHOLIM_CELLS(ROWS)];
static uint16_t drawn[PANKHOLIM_CELLS(ROWS)];
static uint16_t line[PANKHOLIM_LINE_CELLS];
static pankholim_terminal terminal;

static void feed_terminal(const uint8_t *bytes, size_t length)
{
    uint8_t reply[1];
    size_t read, replied;

    pankholim_feed(&terminal, page, PANKHOLIM_CELLS(ROWS), line, PANKHOLIM_LINE_CELLS, bytes, length, reply, 0, &read,
                   &replied);
}

static void scroll_ours(int byte)
{
    uint8_t bytes[SCROLLS];

    memset(bytes, byte, sizeof bytes);
    feed_terminal(bytes, sizeof bytes);
}

static void scroll_by_memmove(int byte)
{
    uint16_t *to = byte != RI ? page : page + COLUMNS;
    uint16_t *from = byte != RI ? page + COLUMNS : page;
    uint16_t *blank = byte != RI ? page + (ROWS - 1) * COLUMNS : page;
    int i, column;

    for (i = 0; i < SCROLLS; i++) {
        memmove(to, from, (ROWS - 1) * COLUMNS * sizeof page[0]);
        for (column = 0; column < COLUMNS; column++)
            blank[column] = PANKHOLIM_BLANK;
        /* The page is looked at after each. */
        __asm__ volatile("" : : "r"(page) : "memory");
    }
}

/* Writes the page as often, and reads nothing, 16 bytes at a time: the widest store of every x86-64. */
static void store_page(int byte)
{
    const __m128i blanks = _mm_set1_epi16(PANKHOLIM_BLANK);
    size_t i, k;

    (void)byte;
    for (i = 0; i < SCROLLS; i++)
        for (k = 0; k < PANKHOLIM_CELLS(ROWS); k += 8) {
            _mm_storeu_si128((__m128i *)(void *)(page + k), blanks);
            __asm__ volatile("" : : "r"(page) : "memory");
        }
}

static void scroll_nothing(int byte)
{
    (void)byte;
    __asm__ volatile("" : : "r"(page) : "memory");
}

/* The median time of some scrolls, each from the drawn page. */
static double time_scrolls(void (*scroll)(int), int byte)
{
    static double times[TIMINGS];
    int i;

    for (i = 0; i < TIMINGS; i++) {
        double from;

        memcpy(page, drawn, sizeof page);
        from = now();
        scroll(byte);
        times[i] = now() - from;
    }
    qsort(times, TIMINGS, sizeof times[0], by_size);
    return times[TIMINGS / 2];
}

static void measure_scroll(const char *name, int byte)
{
    struct times my = { { 0 }, 0 }, their = { { 0 }, 0 }, stores = { { 0 }, 0 };

    while (my.rounds < options.rounds) {
        double nothing = time_scrolls(scroll_nothing, byte);

        my.all[my.rounds++] = (time_scrolls(scroll_ours, byte) - nothing) / SCROLLS;
        their.all[their.rounds++] = (time_scrolls(scroll_by_memmove, byte) - nothing) / SCROLLS;
        stores.all[stores.rounds++] = (time_scrolls(store_page, byte) - nothing) / SCROLLS;
    }
    sort_times(&my);
    sort_times(&their);
    sort_times(&stores);
    printf("%-28s %9.1f %9.1f %9.2f %9.1f\n", name, median(&my), median(&their), median(&my) / median(&their),
           median(&stores));
}

static void measure_scrolls(void)
{
    static const uint8_t bottom[] = "\033[24H", top[] = "\033[H";
    size_t i;

    printf("One scroll of all %d rows, nanoseconds (median of %u rounds of %d times %d)\n\n", ROWS, options.rounds,
           TIMINGS, SCROLLS);
    printf("%-28s %9s %9s %9s %9s\n", "page", "ours", "memmove", "ratio", "stores");
    pankholim_start(&terminal, ROWS, page, PANKHOLIM_CELLS(ROWS), line, PANKHOLIM_LINE_CELLS);
    feed_terminal(bottom, sizeof bottom - 1);
    memcpy(drawn, page, sizeof drawn);
    measure_scroll("blank, up by LF", LF);
    for (i = 0; i < PANKHOLIM_CELLS(ROWS); i++)
        drawn[i] = (uint16_t)('!' + (7 * (i / COLUMNS) + i % COLUMNS) % 94);
    measure_scroll("rows of text, up by LF", LF);
    measure_scroll("rows of text, up by IND", IND);
    feed_terminal(top, sizeof top - 1);
    measure_scroll("rows of text, down by RI", RI);
    printf("\n");
}

/* ---- one fill or copy of the whole page: two sequences in turn, so that every row changes, again and again in a call */

struct rectangles {
    const char *name;
    /* The two in turn, and the same with one cell, which tells what reading a sequence costs. */
    const char *whole[2], *one[2];
    void (*peer)(int turn);
};

static void fill_by_memset(int turn)
{
    memset(page, 'A' + turn, sizeof page);
}

static void copy_by_memmove(int turn)
{
    uint16_t *lower = page + COLUMNS;

    memmove(turn == 0 ? lower : page, turn == 0 ? page : lower, (ROWS - 1) * COLUMNS * sizeof page[0]);
}

static const struct rectangles rectangles[] = {
    { "fill", { "\033[65;;;;$x", "\033[66;;;;$x" }, { "\033[65;;;1;1$x", "\033[66;;;1;1$x" }, fill_by_memset },
    { "copy", { "\033[;;23;;;2$v", "\033[2;;;;;1$v" }, { "\033[;;1;1;;2$v", "\033[2;;2;1;;1$v" }, copy_by_memmove },
};

static void rectangles_ours(const char *const sequences[2])
{
    static uint8_t bytes[SCROLLS * 32];
    size_t length = 0;
    int i;

    for (i = 0; i < SCROLLS; i++) {
        const char *sequence = sequences[i % 2];

        memcpy(bytes + length, sequence, strlen(sequence));
        length += strlen(sequence);
    }
    feed_terminal(bytes, length);
}

static void rectangles_by(void (*peer)(int))
{
    int i;

    for (i = 0; i < SCROLLS; i++) {
        peer(i % 2);
        __asm__ volatile("" : : "r"(page) : "memory");
    }
}

/* The median time of a call, or of the peer, each from the drawn page. */
static double time_rectangles(const struct rectangles *kind, const char *const sequences[2])
{
    static double times[TIMINGS];
    int i;

    for (i = 0; i < TIMINGS; i++) {
        double from;

        memcpy(page, drawn, sizeof page);
        from = now();
        if (sequences != NULL)
            rectangles_ours(sequences);
        else
            rectangles_by(kind->peer);
        times[i] = now() - from;
    }
    qsort(times, TIMINGS, sizeof times[0], by_size);
    return times[TIMINGS / 2] / SCROLLS;
}

static void measure_rectangle(const struct rectangles *kind)
{
    struct times whole = { { 0 }, 0 }, one = { { 0 }, 0 }, peer = { { 0 }, 0 };

    while (whole.rounds < options.rounds) {
        whole.all[whole.rounds++] = time_rectangles(kind, kind->whole);
        one.all[one.rounds++] = time_rectangles(kind, kind->one);
        peer.all[peer.rounds++] = time_rectangles(kind, NULL);
    }
    sort_times(&whole);
    sort_times(&one);
    sort_times(&peer);
    printf("%-8s %9.1f %9.1f %9.1f %9.2f %9.2f\n", kind->name, median(&whole), median(&one), median(&peer),
           (median(&whole) - median(&one)) / median(&peer), median(&whole) / median(&peer));
}

static void measure_rectangles(void)
{
    size_t i;

    printf("One fill and one copy of the whole page (a copy: of all rows but one), nanoseconds (median of %u rounds of\n"
           "%d times %d); the ratios: without and with the reading of the sequence\n\n",
           options.rounds, TIMINGS, SCROLLS);
    printf("%-8s %9s %9s %9s %9s %9s\n", "", "page", "one cell", "peer", "the page", "all");
    for (i = 0; i < sizeof rectangles / sizeof rectangles[0]; i++)
        measure_rectangle(&rectangles[i]);
    printf("\n");
}

/* ---- memory */

/* Bytes and pieces that a terminal has as started, and the most bytes that it has after a stream. */
static void measure_memory_of(const struct reader *reader, uint8_t *bytes, size_t length)
{
    struct memory started, fed;
    size_t i, most = 0;

    for (i = 0; i < STREAMS; i++) {
        void *it = reader->start(ROWS);

        reader->memory(it, &started);
        make_stream(&streams[i], options.seed, bytes, length);
        feed_chunks(reader, it, bytes, length, CHUNK);
        reader->memory(it, &fed);
        most = fed.bytes > most ? fed.bytes : most;
        reader->stop(it);
    }
    printf("%-10s %7lu: as started, in %lu pieces; at most %lu after a stream\n", reader->name, (unsigned long)started.bytes,
           (unsigned long)started.pieces, (unsigned long)most);
}

static void measure_memory(uint8_t *bytes)
{
    size_t length = options.bytes < MEMORY_BYTES ? options.bytes : MEMORY_BYTES;
    size_t i;

    printf("Bytes for one terminal of %d by %d\n\n", ROWS, COLUMNS);
    printf("%-10s %7lu: a record of %lu, a page of %lu and a status line of %lu, whatever is fed\n", ours.name,
           (unsigned long)(sizeof terminal + sizeof page + sizeof line), (unsigned long)sizeof terminal,
           (unsigned long)sizeof page, (unsigned long)sizeof line);
    for (i = 1; i < READERS; i++)
        measure_memory_of(readers[i], bytes, length);
}

/* ---- the two forms */

static int tables(void)
{
    uint8_t *bytes = malloc(options.bytes);
    int same;

    if (bytes == NULL)
        return 1;
    same = measure_streams(bytes);
    measure_scrolls();
    measure_rectangles();
    measure_memory(bytes);
    free(bytes);
    return same ? 0 : 1;
}

static int only(void)
{
    static struct outcome outcome;
    const struct stream *stream = options.stream == NULL ? NULL : find_stream(options.stream);
    uint8_t *bytes = malloc(options.bytes);
    size_t i;

    for (i = 0; i < READERS && strcmp(readers[i]->name, options.only) != 0; i++)
        ;
    if (i == READERS || stream == NULL || bytes == NULL) {
        fprintf(stderr, "bench: --only needs the name of a library and that of a stream\n");
        return 2;
    }
    make_stream(stream, options.seed, bytes, options.bytes);
    feed_stream(readers[i], options.rows, bytes, options.bytes, options.chunk, &outcome);
    printf("%s %s %lu %016llx\n", readers[i]->name, stream->name, (unsigned long)options.bytes,
           (unsigned long long)(outcome.changed ^ outcome.replied));
    free(bytes);
    return 0;
}

static int set_option(const char *name, const char *value)
{
    if (strcmp(name, "--bytes") == 0)
        options.bytes = strtoul(value, NULL, 10);
    else if (strcmp(name, "--chunk") == 0)
        options.chunk = strtoul(value, NULL, 10);
    else if (strcmp(name, "--rows") == 0)
        options.rows = strtoul(value, NULL, 10);
    else if (strcmp(name, "--rounds") == 0)
        options.rounds = (unsigned)strtoul(value, NULL, 10);
    else if (strcmp(name, "--seed") == 0)
        options.seed = strtoul(value, NULL, 10);
    else if (strcmp(name, "--only") == 0)
        options.only = value;
    else if (strcmp(name, "--stream") == 0)
        options.stream = value;
    else
        return 0;
    return 1 <= options.rounds && options.rounds <= MAX_ROUNDS && 1 <= options.bytes && 1 <= options.chunk &&
           1 <= options.rows && options.rows <= MAX_ROWS;
}

int main(int argc, char **argv)
{
    int i;

    for (i = 1; i < argc; i += 2)
        if (i + 1 == argc || !set_option(argv[i], argv[i + 1])) {
            fprintf(stderr, "usage: bench [--bytes N] [--rounds N] [--seed N] [--only NAME --stream NAME [--chunk N] [--rows N]]\n");
            return 2;
        }
    return options.only == NULL ? tables() : only();
}
