/* Streams of layer texts, piece by piece. */
#include <stdio.h>
#include <stdlib.h>
#include <string.h>

#include "check.h"

/* What most programs write there, and a unit of 1 nm. */
static const uint8_t UNITS[16] = {0x3E, 0x41, 0x89, 0x37, 0x4B, 0xC6, 0xA7, 0xF0,
                                  0x39, 0x44, 0xB8, 0x2F, 0xA0, 0x9B, 0x5A, 0x54};

/* Only a layer text in order, one that is decomposed, or refused for an overlap; and not with fixed masks. */
int has_stream(const struct layer *layer)
{
    return (layer->answer < HEZGOLT_REFUSED || layer->answer / HEZGOLT_REFUSED == 6)
           && lines_with("fixed=", layer->bytes, layer->size) == 0;
}

static uint8_t *put_record(uint8_t *to, unsigned type, unsigned data_type, const void *data, size_t size)
{
    *to++ = (uint8_t)((size + 4) >> 8);
    *to++ = (uint8_t)(size + 4);
    *to++ = (uint8_t)type;
    *to++ = (uint8_t)data_type;
    memcpy(to, data, size);
    return to + size;
}

static uint8_t *put_number(uint8_t *to, unsigned number)
{
    for (int shift = 24; shift >= 0; shift -= 8)
        *to++ = (uint8_t)(number >> shift);
    return to;
}

/* The five points of a rectangle. `way` chooses the corner to begin with, of four, and the direction, of two. */
static uint8_t *put_points(uint8_t *to, const unsigned box[4], unsigned way)
{
    uint8_t points[40];
    uint8_t *end = points;

    for (unsigned i = 0; i < 5; i++) {
        unsigned corner = (way < 4 ? way + i : way + 4 - i) % 4;
        end = put_number(end, corner == 0 || corner == 3 ? box[0] : box[2]);
        end = put_number(end, corner < 2 ? box[1] : box[3]);
    }
    return put_record(to, 0x10, 0x03, points, sizeof points);
}

/* The numbers of a piece line: shape, X1, Y1, X2, Y2. */
static uint8_t *put_element(uint8_t *to, const unsigned numbers[5], unsigned way)
{
    char digits[8] = {0};
    size_t count = (size_t)sprintf(digits, "%u", numbers[0]);

    to = put_record(to, 0x08, 0x00, "", 0);
    to = put_record(to, 0x0D, 0x02, "\0\1", 2);
    to = put_record(to, 0x0E, 0x02, "\0\0", 2);
    to = put_points(to, numbers + 1, way);
    to = put_record(to, 0x2B, 0x02, "\0\1", 2);
    /* A zero byte stands behind an odd count of digits. */
    to = put_record(to, 0x2C, 0x06, digits, count + count % 2);
    return put_record(to, 0x11, 0x00, "", 0);
}

static uint8_t *put_start(uint8_t *to)
{
    static const uint8_t dates[24] = {0x07, 0xE5, 0, 6, 0, 7};

    to = put_record(to, 0x00, 0x02, "\2\130", 2);
    to = put_record(to, 0x01, 0x02, dates, sizeof dates);
    to = put_record(to, 0x02, 0x06, "LIBRARY", 8);
    to = put_record(to, 0x03, 0x05, UNITS, sizeof UNITS);
    to = put_record(to, 0x05, 0x02, dates, sizeof dates);
    return put_record(to, 0x06, 0x06, "TOP", 4);
}

/* The settings, and the pieces that the text states, for the same answer. */
struct layer stream_of(const struct layer *layer)
{
    static uint8_t stream[HEZGOLT_STREAM_MOST];
    static char text[HEZGOLT_LAYER_MOST + 1];
    struct layer made = *layer;
    uint8_t *to = put_start(stream);
    char *line;
    unsigned way = 0;

    memcpy(text, layer->bytes, layer->size);
    text[layer->size] = '\0';
    line = strstr(text, "pieces=");
    while ((line = strstr(line, "\npiece=")) != NULL) {
        unsigned n[5];
        if (sscanf(++line, "piece=%u,%u,%u,%u,%u", &n[0], &n[1], &n[2], &n[3], &n[4]) != 5)
            fail("%s has no stream", layer->name);
        to = put_element(to, n, way++ % 8);
    }
    to = put_record(to, 0x07, 0x00, "", 0);
    to = put_record(to, 0x04, 0x00, "", 0);
    strcpy(strstr(text, "pieces="), "pieces=0\n");
    made.size = (size_t)(to - stream);
    made.bytes = copied(stream, made.size);
    made.settings_size = strlen(text);
    made.settings = copied(text, made.settings_size);
    if (layer->result != NULL)
        made.result = copied(layer->result, layer->answer < HEZGOLT_REFUSED ? layer->answer : 0);
    return made;
}
