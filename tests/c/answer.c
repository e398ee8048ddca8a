/* What hezgolt.h says of an answer, whatever the layer is. */
#include <string.h>

#include "check.h"

#define PIECES_MOST 512

/* How many records a stream has around its elements, and an element has. */
#define AROUND 8
#define IN_ELEMENT 7

/* The numbers of records that can be refused with 11 and, of the first element, with 10. */
#define UNITS 4
#define FIRST_XY 10

#define SETTINGS_LINES 6

size_t lines(const uint8_t *text, size_t size)
{
    size_t count = 0;
    for (size_t i = 0; i < size; i++)
        count += text[i] == '\n';
    return count;
}

/* How many lines begin with the key. */
size_t lines_with(const char *key, const uint8_t *text, size_t size)
{
    size_t length = strlen(key);
    size_t count = 0;

    for (size_t i = 0; i + length <= size; i++)
        count += (i == 0 || text[i - 1] == '\n') && memcmp(text + i, key, length) == 0;
    return count;
}

/* As many as are there in full, as far as their lengths lead. */
size_t records(const uint8_t *stream, size_t size)
{
    size_t count = 0;
    size_t at = 0;

    while (size - at >= 4) {
        size_t length = stream[at] * 256u + stream[at + 1];
        if (length < 4 || length > size - at)
            break;
        at += length;
        count++;
    }
    return count;
}

/* Five lines and the masks of all pieces. */
static size_t result_lines(const struct layer *layer)
{
    if (layer->settings == NULL)
        return 5 + lines_with("piece=", layer->bytes, layer->size);
    return 5 + (records(layer->bytes, layer->size) - AROUND) / IN_ELEMENT;
}

static void see_length(const struct layer *layer, uint64_t length, const uint8_t *result)
{
    if (length < 51 || length > HEZGOLT_RESULT_LEAST)
        fail("a length of %lu", (unsigned long)length);
    if (memcmp(result, "verdict=", 8) != 0 || result[length - 1] != '\n')
        fail("a result text that does not begin or end as one");
    if (lines(result, length) != result_lines(layer))
        fail("%lu lines and not %lu", (unsigned long)lines(result, length), (unsigned long)result_lines(layer));
}

/* Whether a layer text can be refused so. */
static int is_text_refusal(const struct layer *layer, uint64_t number, uint64_t place)
{
    size_t there = lines(layer->bytes, layer->size);
    size_t pieces = lines_with("piece=", layer->bytes, layer->size);
    size_t fixed = lines_with("fixed=", layer->bytes, layer->size);

    switch (number) {
    case 3:
        return place >= 1 && place <= there + 1;
    case 4:
        return place >= 1 && place <= SETTINGS_LINES + pieces;
    case 5:
        return place > SETTINGS_LINES && place <= SETTINGS_LINES + pieces;
    case 6:
        return place >= 1 && place < pieces;
    case 13:
        return fixed >= 1 && place > SETTINGS_LINES && place <= there;
    case 14:
        return fixed >= 2 && place >= 1 && place < pieces;
    default:
        return 0;
    }
}

/* The same of a stream. For 4, the place is a line of the settings text, a piece or nothing. */
static int is_stream_refusal(const struct layer *layer, uint64_t number, uint64_t place)
{
    size_t there = records(layer->bytes, layer->size);

    switch (number) {
    case 3:
        return place >= 1 && place <= SETTINGS_LINES + 1 && place <= lines(layer->settings, layer->settings_size) + 1;
    case 4:
        return place < PIECES_MOST;
    case 6:
        return place >= 1 && place < PIECES_MOST && there >= AROUND && place < (there - AROUND) / IN_ELEMENT;
    case 9:
        return place >= 1 && place <= there + 1;
    case 10:
        return place >= FIRST_XY && (place - FIRST_XY) % IN_ELEMENT == 0 && place <= there;
    case 11:
        return place == UNITS && place <= there;
    default:
        return 0;
    }
}

/* The refusal that is due by the sizes alone, or 0. */
static uint64_t due_by_size(const struct layer *layer, size_t room)
{
    int is_stream = layer->settings != NULL;

    if (room < HEZGOLT_RESULT_LEAST)
        return HEZGOLT_REFUSED;
    if (layer->size > (is_stream ? HEZGOLT_STREAM_MOST : HEZGOLT_LAYER_MOST))
        return 2 * HEZGOLT_REFUSED;
    return is_stream && layer->settings_size > HEZGOLT_LAYER_MOST ? 2 * HEZGOLT_REFUSED : 0;
}

void see_possible(const struct layer *layer, uint64_t answer, const uint8_t *result, size_t room)
{
    uint64_t due = due_by_size(layer, room);
    uint64_t number = answer / HEZGOLT_REFUSED;
    uint64_t place = answer % HEZGOLT_REFUSED;

    if (due != 0 && answer != due)
        fail("answer %lu and not %lu for %lu bytes and room for %lu", (unsigned long)answer, (unsigned long)due,
             (unsigned long)layer->size, (unsigned long)room);
    if (due != 0)
        return;
    if (answer < HEZGOLT_REFUSED)
        see_length(layer, answer, result);
    else if (!(layer->settings == NULL ? is_text_refusal : is_stream_refusal)(layer, number, place))
        fail("refusal %lu for %lu bytes", (unsigned long)answer, (unsigned long)layer->size);
}
