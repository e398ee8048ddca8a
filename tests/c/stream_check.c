/* Tests of hezgolt_decompose_stream on streams and settings texts that are made of good ones. */
#include <stdlib.h>
#include <string.h>

#include "check.h"

#define LONG_STREAM (3 * HEZGOLT_STREAM_MOST)

/* The records of an element, and where the elements begin, from 0. */
#define IN_ELEMENT 7
#define FIRST_ELEMENT 6

/* The answer for the record after those that stand in the first bytes. */
static uint64_t refused_after(const uint8_t *stream, size_t size)
{
    return 9 * HEZGOLT_REFUSED + records(stream, size) + 1;
}

/* The same settings with another stream. */
static struct layer with_stream(const struct layer *layer, uint8_t *stream, size_t size)
{
    struct layer other = *layer;

    other.bytes = stream;
    other.size = size;
    return other;
}

/* The same stream with another settings text. */
static struct layer with_settings(const struct layer *layer, uint8_t *settings, size_t size)
{
    struct layer other = *layer;

    other.settings = settings;
    other.settings_size = size;
    return other;
}

/* Streams and settings texts of one byte value are refused at their first record or line, or because of their size. */
static void check_bytes(const struct layer *example)
{
    static const size_t sizes[] = {0, 1, 4096, HEZGOLT_LAYER_MOST, HEZGOLT_LAYER_MOST + 1, HEZGOLT_STREAM_MOST,
                                   HEZGOLT_STREAM_MOST + 1, LONG_STREAM};
    static const uint8_t values[] = {0, 4, 0xFF, '\n', 'm'};
    uint8_t *bytes = reserve(LONG_STREAM);

    begin("stream-bytes");
    for (size_t i = 0; i < 8 * 5; i++) {
        size_t size = sizes[i / 5];
        struct layer stream = with_stream(example, bytes, size);
        struct layer settings = with_settings(example, bytes, size);
        memset(bytes, values[i % 5], LONG_STREAM);
        for (int kind = 0; kind < KINDS; kind++) {
            see_refused((enum kind)kind, &stream, size > HEZGOLT_STREAM_MOST ? 20000 : 90001);
            see_refused((enum kind)kind, &settings, size > HEZGOLT_LAYER_MOST ? 20000 : 30001);
        }
    }
    free(bytes);
}

/* As long as a stream may be, and by one byte longer: zero bytes after the example, and at last another one. */
static void check_long_stream(const struct layer *example)
{
    uint8_t result[HEZGOLT_RESULT_LEAST];
    uint8_t *bytes = reserve(HEZGOLT_STREAM_MOST + 1);
    struct layer full = with_stream(example, bytes, HEZGOLT_STREAM_MOST);
    struct layer longer = with_stream(example, bytes, HEZGOLT_STREAM_MOST + 1);

    for (int kind = 0; kind < KINDS; kind++) {
        memset(bytes, 0, HEZGOLT_STREAM_MOST + 1);
        memcpy(bytes, example->bytes, example->size);
        see_answer(example, call((enum kind)kind, &full, result, sizeof result), result);
        see_refused((enum kind)kind, &longer, 20000);
        bytes[HEZGOLT_STREAM_MOST - 1] = 1;
        see_refused((enum kind)kind, &full, refused_after(example->bytes, example->size));
    }
    free(bytes);
}

/* The same for settings: something after the lines, which is judged before the stream, and a count of very many digits. */
static void check_long_settings(const struct layer *example)
{
    uint8_t *bytes = reserve(HEZGOLT_LAYER_MOST + 1);
    struct layer full = with_settings(example, bytes, HEZGOLT_LAYER_MOST);
    struct layer longer = with_settings(example, bytes, HEZGOLT_LAYER_MOST + 1);
    size_t count = example->settings_size - 2;

    full.size = 0;
    for (int kind = 0; kind < KINDS; kind++) {
        memset(bytes, '\n', HEZGOLT_LAYER_MOST + 1);
        memcpy(bytes, example->settings, example->settings_size);
        see_refused((enum kind)kind, &full, 30007);
        see_refused((enum kind)kind, &longer, 20000);
        memset(bytes + count, '7', HEZGOLT_LAYER_MOST - count);
        see_refused((enum kind)kind, &full, 30006);
        bytes[HEZGOLT_LAYER_MOST - 1] = '\n';
        see_refused((enum kind)kind, &full, 40006);
    }
    free(bytes);
}

/* The end of the last record. */
static size_t end_of_records(const struct layer *layer)
{
    size_t end = layer->size;

    while (end > 0 && records(layer->bytes, end - 1) == records(layer->bytes, layer->size))
        end--;
    return end;
}

/* A stream is without its end wherever it is cut, but for the zero bytes after it; so is a settings text. `most` are tried. */
static void check_prefixes(const struct layer *layers, size_t count, size_t most)
{
    begin("stream-prefixes");
    for (size_t i = 0; i < count; i++) {
        const struct layer *layer = &layers[i];
        size_t end;
        if (layer->answer >= HEZGOLT_REFUSED && layer->answer / HEZGOLT_REFUSED != 6)
            continue;
        end = end_of_records(layer);
        for (size_t size = 0; size < end; size += 1 + (end - 1) / most) {
            struct layer cut = with_stream(layer, layer->bytes, size);
            see_refused((enum kind)(size % KINDS), &cut, refused_after(layer->bytes, size));
        }
        for (size_t size = 0; size < layer->settings_size; size += 1 + (layer->settings_size - 1) / most) {
            struct layer cut = with_settings(layer, layer->settings, size);
            see_refused((enum kind)(size % KINDS), &cut, 30000 + lines(layer->settings, size) + 1);
        }
    }
}

/* Random bytes, alone and after some records of the example. */
static void check_random(const struct layer *example, int few)
{
    uint8_t *bytes = reserve(HEZGOLT_STREAM_MOST);
    uint32_t state = 20211116;

    begin("stream-random");
    for (int i = 0; i < (few ? 100 : 2000); i++) {
        size_t size = 1 + drawn(&state) % (i % 20 == 0 ? 0x8000 - example->size : 100);
        size_t kept = i % 2 == 0 ? 0 : drawn(&state) % end_of_records(example);
        struct layer layer;
        /* The cut is behind a record. */
        while (kept > 0 && records(example->bytes, kept) == records(example->bytes, kept - 1))
            kept--;
        memcpy(bytes, example->bytes, kept);
        for (size_t j = 0; j < size; j++)
            bytes[kept + j] = (uint8_t)(drawn(&state) >> 16);
        /* No record is so long. */
        bytes[kept] |= 0x80;
        layer = with_stream(example, bytes, kept + size);
        see_refused((enum kind)(i % KINDS), &layer, refused_after(example->bytes, kept));
    }
    free(bytes);
}

/* Where a byte stands: in which record, from 0, and where in it. */
struct spot {
    size_t record;
    size_t at;
};

static struct spot spot_of(const struct layer *layer, size_t place)
{
    struct spot spot = {records(layer->bytes, place), 0};

    while (spot.at < place && records(layer->bytes, place - spot.at - 1) == spot.record)
        spot.at++;
    return spot;
}

/* What a change of a byte must lead to: one of two answers, or any result where that is allowed. */
struct due {
    uint64_t answer;
    uint64_t other;
    int any_result;
};

/* A byte of an element's data. The example's shapes have one digit and a zero byte. */
static struct due due_in_element(const struct layer *example, struct spot spot, uint8_t value)
{
    uint64_t refused = 9 * HEZGOLT_REFUSED + spot.record + 1;
    struct due due = {refused, refused, 0};

    switch ((spot.record - FIRST_ELEMENT) % IN_ELEMENT) {
    case 1:
    case 2: /* LAYER and DATATYPE may hold anything. */
        due.answer = due.other = example->answer;
        break;
    case 3: /* Each coordinate of XY is needed. */
        due.answer = due.other = refused + HEZGOLT_REFUSED;
        break;
    case 5: /* A digit may give another shape. */
        due.any_result = is_digit(value);
        break;
    }
    return due;
}

/* A byte of a record's length, type or data type. */
static struct due due_in_head(const struct layer *example, size_t place, struct spot spot, uint8_t value)
{
    uint64_t refused = 9 * HEZGOLT_REFUSED + spot.record + 1;
    struct due due = {refused, refused, 0};

    /* A name takes any length that is even, and what it takes may be whole elements. */
    if ((spot.record == 2 || spot.record == 5) && spot.at < 2) {
        due.other = refused + 1;
        due.any_result = spot.record == 5;
    }
    /* BOUNDARY and ENDSTR stand at the same place. */
    if (spot.at == 2 && (example->bytes[place] ^ value) == (0x07 ^ 0x08))
        due.other = refused + 1;
    return due;
}

/*
 * Whether UNITS has another unit with this byte changed. The second real stands at 12: sign and exponent, and a fraction whose
 * three highest bytes can tell. A step of the third changes it by 1/4,503,600.
 */
static int is_other_unit(struct spot spot, uint8_t byte, uint8_t value)
{
    return spot.at >= 12 && (spot.at < 15 || (spot.at == 15 && abs(byte - value) > 4));
}

/* The example has zero bytes after its records. */
static struct due due_for(const struct layer *example, size_t place, uint8_t value)
{
    struct spot spot = spot_of(example, place);
    struct due due = {example->answer, example->answer, 0};

    if (spot.record == records(example->bytes, example->size) || spot.at < 4)
        return due_in_head(example, place, spot, value);
    if (spot.record >= FIRST_ELEMENT)
        return due_in_element(example, spot, value);
    if (spot.record == 3 && is_other_unit(spot, example->bytes[place], value))
        due.answer = due.other = 11 * HEZGOLT_REFUSED + 4;
    return due;
}

static void see_change(const struct layer *example, size_t place, uint8_t value, const struct layer *changed, enum kind kind)
{
    uint8_t result[HEZGOLT_RESULT_LEAST];
    struct due due = due_for(example, place, value);
    uint64_t answer = call(kind, changed, result, sizeof result);

    if (due.any_result && answer < HEZGOLT_REFUSED)
        return;
    if (answer != due.answer && answer != due.other)
        fail("byte %lu as %u: answer %lu and not %lu", (unsigned long)place, (unsigned)value, (unsigned long)answer,
             (unsigned long)due.answer);
    if (answer == example->answer && memcmp(result, example->result, answer) != 0)
        fail("byte %lu as %u: another result text", (unsigned long)place, (unsigned)value);
}

/* Whether a value is tried for a byte before the data of a record, which `head` says, or in it. */
static int is_tried(uint8_t value, uint8_t byte, int head, int few)
{
    unsigned bits = value ^ byte;

    if (value == byte)
        return 0;
    if (few)
        return value == '1' || bits == 0x80 || bits == 1;
    return head || value == 0 || value == '1' || value == 0xFF || (bits & (bits - 1)) == 0;
}

/* Every byte of the example, changed to some values. */
static void check_changes(const struct layer *example, int few)
{
    uint8_t *bytes = reserve(example->size);
    struct layer changed = with_stream(example, bytes, example->size);

    begin("stream-changes");
    for (size_t i = 0; i < example->size * 256; i++) {
        size_t place = i / 256;
        uint8_t value = (uint8_t)(i % 256);
        if (!is_tried(value, example->bytes[place], spot_of(example, place).at < 4, few))
            continue;
        memcpy(bytes, example->bytes, example->size);
        bytes[place] = value;
        see_change(example, place, value, &changed, (enum kind)(i % KINDS));
    }
    free(bytes);
}

/* A stream with zero bytes after its records. */
static struct layer filled(struct layer layer, size_t zeros)
{
    uint8_t *bytes = reserve(layer.size + zeros);

    memset(bytes, 0, layer.size + zeros);
    memcpy(bytes, layer.bytes, layer.size);
    free(layer.bytes);
    layer.bytes = bytes;
    layer.size += zeros;
    return layer;
}

void check_streams(const struct layer *text, const struct layer *streams, size_t count, int few)
{
    struct layer example = filled(stream_of(text), 3);

    begin("streams");
    check_stored(&example, 1);
    check_stored(streams, count);
    begin("stream-rooms");
    check_rooms(streams, count);
    check_bytes(&example);
    begin("stream-limits");
    check_long_stream(&example);
    check_long_settings(&example);
    check_random(&example, few);
    check_prefixes(&example, 1, example.size);
    check_prefixes(streams, count, few ? 5 : 50);
    check_changes(&example, few);
    free_layers(&example, 1);
}
