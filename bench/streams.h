/* Streams of bytes such as a console sends, made by a seed: the same seed and length give the same bytes. */
#ifndef STREAMS_H
#define STREAMS_H

#include <stddef.h>
#include <stdint.h>

/* Where a generator writes. Bytes past the length are dropped. */
struct sink {
    uint8_t *bytes;
    size_t length;
    size_t at;
    uint64_t random;
};

struct stream {
    const char *name;
    const char *says;
    /* Is what it draws the same on every terminal of its kind? */
    int same_everywhere;
    /* Writes some more of the stream. */
    void (*more)(struct sink *sink);
};

enum { STREAMS = 6 };
extern const struct stream streams[STREAMS];

/* The stream with a name, or NULL. */
const struct stream *find_stream(const char *name);

void make_stream(const struct stream *stream, uint64_t seed, uint8_t *bytes, size_t length);

#endif
