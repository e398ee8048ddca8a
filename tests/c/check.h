/* What the parts of the test program share. */
#ifndef CHECK_H
#define CHECK_H

#include <stddef.h>
#include <stdint.h>

#include "hezgolt.h"

/* How the memory lies that a call is given. In all but EXACT, the bytes around it have a pattern that must stay. */
enum kind {
    EXACT,    /* a heap block of this size, and the result's is left without a value, for tools that watch the heap */
    GUARDED,  /* on the heap, between guard bytes, aligned */
    ODD,      /* the same at odd addresses */
    AT_END,   /* ends where the next page must not be touched; pages that are not the result's can only be read */
    AT_START, /* begins where the page before must not be touched; likewise */
    KINDS     /* how many there are */
};

/*
 * A layer text for the first function or, where `settings` is not null, a stream with its settings text for the second; and
 * what is to be returned for it. `result` is the result text where that is a length.
 */
struct layer {
    char name[64];
    uint8_t *bytes;
    size_t size;
    uint8_t *settings;
    size_t settings_size;
    uint64_t answer;
    uint8_t *result;
};

/* check.c */
void begin(const char *subject);
void fail(const char *format, ...);
void see_answer(const struct layer *layer, uint64_t answer, const uint8_t *result);
void see_refused(enum kind kind, const struct layer *layer, uint64_t wanted);
void check_stored(const struct layer *layers, size_t count);
void check_rooms(const struct layer *layers, size_t count);
uint32_t drawn(uint32_t *state);
int is_digit(uint8_t byte);

/* memory.c */
void *reserve(size_t size);
uint8_t *copied(const void *bytes, size_t size);
uint64_t call_shared(const struct layer *layer, uint8_t *result);
uint64_t call(enum kind kind, const struct layer *layer, uint8_t *result, size_t room);
unsigned long calls(void);

/* answer.c */
size_t lines(const uint8_t *text, size_t size);
size_t lines_with(const char *key, const uint8_t *text, size_t size);
size_t records(const uint8_t *stream, size_t size);
void see_possible(const struct layer *layer, uint64_t answer, const uint8_t *result, size_t room);

/* layers.c */
struct layer *stored_layers(const char *folder, const char *ending, size_t *count);
struct layer layer_of(const char *name, const char *text, const char *result);
struct layer ring_layer(unsigned masks);
struct layer clique_layer(unsigned masks, unsigned budget);
struct layer chains_layer(void);
struct layer fixed_layer(unsigned masks);
void free_layers(struct layer *layers, size_t count);

/* streams.c */
int has_stream(const struct layer *layer);
struct layer stream_of(const struct layer *layer);

/* stream_check.c */
void check_streams(const struct layer *example, const struct layer *streams, size_t count, int few);

/* threads.c */
void check_stack(int few, int streams);
void check_threads(const struct layer *layers, size_t count);

#endif
