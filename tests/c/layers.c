/* Layers and their results: stored ones, and made ones of 512 pieces. */
#include <dirent.h>
#include <stdio.h>
#include <stdlib.h>
#include <string.h>

#include "check.h"

#define STORED_MOST 1000
#define FILE_MOST 100000
#define PIECES 512

static uint8_t *read_file(const char *folder, const char *name, const char *ending, size_t *size)
{
    static uint8_t bytes[FILE_MOST];
    char path[1024];
    FILE *file;

    snprintf(path, sizeof path, "%s/%s%s", folder, name, ending);
    file = fopen(path, "rb");
    if (file == NULL)
        fail("%s cannot be read", path);
    *size = fread(bytes, 1, sizeof bytes, file);
    if (ferror(file) || *size == sizeof bytes)
        fail("%s cannot be read, or is too long", path);
    fclose(file);
    return copied(bytes, *size);
}

/* A stream has its settings beside it. */
static struct layer stored_layer(const char *folder, const char *name, const char *ending)
{
    struct layer layer = {0};
    char refusal[32] = {0};
    unsigned number, place;
    size_t size;

    snprintf(layer.name, sizeof layer.name, "%s", name);
    layer.bytes = read_file(folder, name, ending, &layer.size);
    if (strcmp(ending, ".layer") != 0)
        layer.settings = read_file(folder, name, ".settings", &layer.settings_size);
    layer.result = read_file(folder, name, ".result", &size);
    layer.answer = size;
    memcpy(refusal, layer.result, size < sizeof refusal ? size : sizeof refusal - 1);
    if (sscanf(refusal, "refused=%u,%u\n", &number, &place) == 2)
        layer.answer = 10000 * (uint64_t)number + place;
    return layer;
}

static int by_name(const void *left, const void *right)
{
    return strcmp(((const struct layer *)left)->name, ((const struct layer *)right)->name);
}

struct layer *stored_layers(const char *folder, const char *wanted, size_t *count)
{
    struct layer *layers = reserve(STORED_MOST * sizeof *layers);
    DIR *open = opendir(folder);
    struct dirent *entry;

    if (open == NULL)
        fail("%s is no folder", folder);
    *count = 0;
    while ((entry = readdir(open)) != NULL) {
        char name[64] = {0};
        char *ending = strrchr(entry->d_name, '.');
        if (ending == NULL || strcmp(ending, wanted) != 0)
            continue;
        if ((size_t)(ending - entry->d_name) >= sizeof name || *count == STORED_MOST)
            fail("%s: too long a name, or too many layers", entry->d_name);
        memcpy(name, entry->d_name, (size_t)(ending - entry->d_name));
        layers[(*count)++] = stored_layer(folder, name, wanted);
    }
    closedir(open);
    qsort(layers, *count, sizeof *layers, by_name);
    return layers;
}

void free_layers(struct layer *layers, size_t count)
{
    for (size_t i = 0; i < count; i++) {
        free(layers[i].bytes);
        free(layers[i].settings);
        free(layers[i].result);
    }
}

struct layer layer_of(const char *name, const char *text, const char *result)
{
    struct layer layer = {0};

    snprintf(layer.name, sizeof layer.name, "%s", name);
    layer.size = strlen(text);
    layer.bytes = copied(text, layer.size);
    layer.answer = strlen(result);
    layer.result = copied(result, layer.answer);
    return layer;
}

struct piece {
    unsigned shape, x1, y1, x2, y2;
};

static char *put_settings(char *to, unsigned masks, unsigned spacing, unsigned budget)
{
    return to + sprintf(to, "masks=%u\nspacing=%u\nmargin=10\nweight=10\nbudget=%u\npieces=%u\n", masks, spacing, budget, PIECES);
}

static char *put_piece(char *to, struct piece piece)
{
    return to + sprintf(to, "piece=%u,%u,%u,%u,%u\n", piece.shape, piece.x1, piece.y1, piece.x2, piece.y2);
}

static char *put_counts(char *to, const char *verdict, unsigned conflicts, unsigned stitches, unsigned steps)
{
    return to + sprintf(to, "verdict=%s\nconflicts=%u\nstitches=%u\ncost=%u\nsteps=%u\n", verdict, conflicts, stitches,
                        10 * conflicts + stitches, steps);
}

/*
 * The ring: squares in two rows and a bar at either end, of which each is in conflict with the next, round and round. Two
 * neighbours are one shape and touch instead: positions 1 and 2, and the last one and 0.
 */
static struct piece ring_piece(unsigned position, unsigned length)
{
    unsigned row = length / 2 - 1;
    unsigned column = position <= row + 1 ? position : length - position;
    struct piece piece = {position, 60 * column, 0, 60 * column + 20, 20};

    if (column == 0 || column == row + 1) {
        piece.y2 = 140;
    } else if (position > row + 1) {
        piece.y1 = 120;
        piece.y2 = 140;
    }
    if (position == 2 || position == length - 1) {
        piece.x1 -= 40;
        piece.shape = position == 2 ? 1 : 0;
    }
    return piece;
}

/* Piece 1 of the ring stands at position 2, and piece 2 between 0 and 1. All the others stand in their order. */
static unsigned ring_position(unsigned piece)
{
    return piece == 1 ? 2 : piece == 2 ? 1 : piece;
}

/*
 * A ring for the last two masks, under a cover for each of the others that conflicts with all there is. No piece is peeled.
 * The first assignment puts pieces 0 and 1 of the ring on one mask and so pays for both stitches. The search does the same,
 * down to the last piece, where it fails; then it takes the other mask for piece 1, and comes down to the last piece
 * without any cost. All masks that it may use are tried at each place: one more at each cover and at the first piece of the
 * ring, then all, and those of the places after piece 1 twice.
 */
struct layer ring_layer(unsigned masks)
{
    static char text[HEZGOLT_LAYER_MOST], result[HEZGOLT_RESULT_LEAST + 1];
    unsigned covers = masks - 2;
    unsigned length = PIECES - covers;
    unsigned steps = covers * (covers + 1) / 2 + (masks - 1) + masks + 2 * masks * (length - 2);
    char name[64];
    char *to = put_settings(text, masks, 50, 1000000000);
    char *out = put_counts(result, "best", 0, 0, steps);

    for (unsigned i = 0; i < PIECES; i++) {
        struct piece piece = {i, 0, 0, 60 * (length / 2) + 20, 140};
        unsigned mask = i;
        if (i >= covers) {
            unsigned position = ring_position(i - covers);
            piece = ring_piece(position, length);
            piece.shape += covers;
            /* The masks alternate, but for the two stitches. */
            mask = covers + (position >= 2 ? (position + 1) % 2 : position);
        }
        to = put_piece(to, piece);
        out += sprintf(out, "mask=%u\n", mask);
    }
    snprintf(name, sizeof name, "ring of %u, %u masks", length, masks);
    return layer_of(name, text, result);
}

/*
 * 512 squares that are all in conflict with each other. The first assignment takes the masks in turn, which is the cheapest
 * there is, and the search spends its whole budget below it.
 */
struct layer clique_layer(unsigned masks, unsigned budget)
{
    static char text[HEZGOLT_LAYER_MOST], result[HEZGOLT_RESULT_LEAST + 1];
    unsigned share = PIECES / masks;
    char name[64];
    char *to = put_settings(text, masks, 1000, budget);
    char *out = put_counts(result, "open", masks * (share * (share - 1) / 2), 0, budget);

    for (unsigned i = 0; i < PIECES; i++) {
        struct piece piece = {i, i, 0, i + 20, 20};
        to = put_piece(to, piece);
        out += sprintf(out, "mask=%u\n", i % masks);
    }
    snprintf(name, sizeof name, "clique, %u masks", masks);
    return layer_of(name, text, result);
}

/*
 * A chain is a row of squares of one shape, each of which touches the next along 9 nm. Pieces 0 and 413 to 511 are one,
 * with piece 0 in its middle; pieces 1 to 200 are the next, and the rest a third.
 */
static struct piece chain_piece(unsigned i)
{
    unsigned shape = i == 0 || i > 412 ? 0 : i <= 200 ? 1 : 2;
    unsigned position = i == 0 ? 50 : i > 462 ? i - 412 : i > 412 ? i - 413 : i;
    unsigned raised = position % 2 * 11;
    struct piece piece = {shape, 20 * position, raised, 20 * position + 20, raised + 20};

    return piece;
}

/*
 * Three chains for two masks, all pieces of which are in conflict with those of the others: three units of 100, 200 and 212
 * pieces. The first assignment puts the first and the third on one mask, with 21,200 conflicts. The search finds that the
 * first and the second have fewer, 20,000, at its fourth step, and ends at its seventh.
 */
struct layer chains_layer(void)
{
    static char text[HEZGOLT_LAYER_MOST], result[HEZGOLT_RESULT_LEAST + 1];
    char *to = put_settings(text, 2, 10000, 1000);
    char *out = put_counts(result, "best", 100 * 200, 0, 7);

    for (unsigned i = 0; i < PIECES; i++) {
        struct piece piece = chain_piece(i);
        to = put_piece(to, piece);
        out += sprintf(out, "mask=%u\n", piece.shape == 2 ? 1u : 0u);
    }
    return layer_of("three chains", text, result);
}

/*
 * 512 squares that are all in conflict with each other and have fixed masks, in turn. Nothing is left to choose, so that the
 * search goes down to the last piece, which brings the cost to that of the first assignment, in one step for each piece. The
 * budget is just that.
 */
struct layer fixed_layer(unsigned masks)
{
    static char text[HEZGOLT_LAYER_MOST], result[HEZGOLT_RESULT_LEAST + 1];
    unsigned share = PIECES / masks;
    char name[64];
    char *to = put_settings(text, masks, 1000, PIECES);
    char *out = put_counts(result, "best", masks * (share * (share - 1) / 2), 0, PIECES);

    for (unsigned i = 0; i < PIECES; i++) {
        struct piece piece = {i, i, 0, i + 20, 20};
        to = put_piece(to, piece);
    }
    for (unsigned i = 0; i < PIECES; i++) {
        unsigned mask = masks - 1 - i % masks;
        to += sprintf(to, "fixed=%u,%u\n", i, mask);
        out += sprintf(out, "mask=%u\n", mask);
    }
    snprintf(name, sizeof name, "fixed clique, %u masks", masks);
    return layer_of(name, text, result);
}
