/* Calls on memory that shows whether a byte was touched that is not the function's to touch. */
#include <errno.h>
#include <fcntl.h>
#include <pthread.h>
#include <stdlib.h>
#include <string.h>
#include <sys/mman.h>
#include <unistd.h>

#include "check.h"

/* Guard bytes on either side. */
#define GUARD 256

/* A number that no call of the C library leaves in errno. */
#define ERRNO_KEPT 7777

/* `size` bytes from `start` on, within a block that can be read and written as a whole. */
struct area {
    enum kind kind;
    uint8_t *pages; /* null on the heap */
    size_t pages_size;
    uint8_t *block;
    size_t block_size;
    uint8_t *start;
    size_t size;
};

static pthread_mutex_t calls_lock = PTHREAD_MUTEX_INITIALIZER;
static unsigned long calls_made;

unsigned long calls(void)
{
    return calls_made;
}

static void count_call(void)
{
    pthread_mutex_lock(&calls_lock);
    calls_made++;
    pthread_mutex_unlock(&calls_lock);
}

void *reserve(size_t size)
{
    void *block = malloc(size);
    if (block == NULL)
        fail("no memory");
    return block;
}

/* A heap block of just these bytes, so that reading past them can be noticed. */
uint8_t *copied(const void *bytes, size_t size)
{
    return memcpy(reserve(size), bytes, size);
}

/* Pages of zeros for `size` bytes, between two that cannot be touched. */
static void map_area(struct area *area, size_t size)
{
    size_t page = (size_t)sysconf(_SC_PAGESIZE);
    int zeros = open("/dev/zero", O_RDWR);

    area->block_size = (size / page + 1) * page;
    /* Whole pages have no slack, so that both ends are at a fence. */
    if (size != 0 && size % page == 0)
        area->block_size = size;
    area->pages_size = area->block_size + 2 * page;
    area->pages = mmap(NULL, area->pages_size, PROT_NONE, MAP_PRIVATE, zeros, 0);
    if (zeros < 0 || area->pages == MAP_FAILED)
        fail("no pages");
    close(zeros);
    area->block = area->pages + page;
    if (mprotect(area->block, area->block_size, PROT_READ | PROT_WRITE) != 0)
        fail("no access to pages");
}

static struct area make_area(enum kind kind, size_t size)
{
    struct area area = {0};

    area.kind = kind;
    area.size = size;
    if (kind == AT_END || kind == AT_START) {
        map_area(&area, size);
        area.start = kind == AT_START ? area.block : area.block + area.block_size - size;
    } else if (kind == EXACT) {
        area.block_size = size;
        area.block = reserve(size);
        area.start = area.block;
    } else {
        area.block_size = size + 2 * GUARD;
        area.block = reserve(area.block_size);
        area.start = area.block + GUARD + (kind == ODD ? 1 + 2 * (size % 8) : 0);
    }
    return area;
}

static void free_area(struct area *area)
{
    if (area->pages != NULL)
        munmap(area->pages, area->pages_size);
    else
        free(area->block);
}

/* The byte that stands at a position of a block before a call. The two turns differ in every bit. */
static uint8_t pattern(size_t position, int turn)
{
    return (uint8_t)((position * 131 + (position >> 8) * 29 + 7) ^ (turn ? 0xFF : 0));
}

static void fill(struct area *area, int turn)
{
    if (area->kind == EXACT)
        return;
    for (size_t i = 0; i < area->block_size; i++)
        area->block[i] = pattern(i, turn);
}

/* Sees that only the first `used` bytes of the area have lost the pattern. */
static void see_pattern(const struct area *area, size_t used, int turn, const char *what)
{
    size_t first = (size_t)(area->start - area->block);

    if (area->kind == EXACT)
        return;
    for (size_t i = 0; i < area->block_size; i++)
        if ((i < first || i >= first + used) && area->block[i] != pattern(i, turn))
            fail("%s: byte %ld of %lu was changed", what, (long)i - (long)first, (unsigned long)area->size);
}

/* What is between fences and only to be read is sealed during the call, so that even a byte written as it was is noticed. */
static void seal(const struct area *area, int access)
{
    if (area->pages != NULL && mprotect(area->block, area->block_size, access) != 0)
        fail("no access to pages");
}

static void lend(struct area *area, const uint8_t *bytes, int turn)
{
    fill(area, turn);
    memcpy(area->start, bytes, area->size);
    seal(area, PROT_READ);
}

static void take_back(const struct area *area, const uint8_t *bytes, int turn, const char *what)
{
    seal(area, PROT_READ | PROT_WRITE);
    see_pattern(area, area->size, turn, what);
    if (memcmp(area->start, bytes, area->size) != 0)
        fail("the %s was changed", what);
}

static uint64_t answer_of(const struct layer *layer, struct area *result)
{
    if (layer->settings == NULL)
        return hezgolt_decompose(layer->bytes, layer->size, result->start, result->size);
    return hezgolt_decompose_stream(layer->settings, layer->settings_size, layer->bytes, layer->size, result->start,
                                    result->size);
}

/* One call, and all that can be seen of it whatever the layer is. */
static uint64_t call_once(const struct layer *layer, struct area *result, int turn)
{
    uint64_t answer;
    int kept;

    fill(result, turn);
    errno = ERRNO_KEPT;
    answer = answer_of(layer, result);
    kept = errno;
    count_call();
    if (kept != ERRNO_KEPT)
        fail("errno was changed");
    see_possible(layer, answer, result->start, result->size);
    if (answer < HEZGOLT_REFUSED)
        see_pattern(result, answer, turn, "result");
    else
        see_pattern(result, 0, turn, "result of a refusal");
    return answer;
}

static void copy_result(uint8_t *copy, uint64_t answer, const struct area *result)
{
    if (answer < HEZGOLT_REFUSED)
        memcpy(copy, result->start, answer);
}

/* A call on a layer that others may read too. `result` has room for 4,096 bytes. */
uint64_t call_shared(const struct layer *layer, uint8_t *result)
{
    struct area area = make_area(GUARDED, HEZGOLT_RESULT_LEAST);
    uint64_t answer = call_once(layer, &area, 0);

    copy_result(result, answer, &area);
    free_area(&area);
    return answer;
}

/* Two calls on a copy of the layer, and on a buffer of `room` bytes whose contents differ. They must agree. */
uint64_t call(enum kind kind, const struct layer *layer, uint8_t *result, size_t room)
{
    struct area bytes = make_area(kind, layer->size);
    struct area settings = {0};
    struct area area = make_area(kind, room);
    struct layer lent = *layer;
    uint64_t answers[2];

    if (layer->settings != NULL)
        settings = make_area(kind, layer->settings_size);
    lent.bytes = bytes.start;
    lent.settings = settings.start;
    for (int turn = 0; turn < 2; turn++) {
        lend(&bytes, layer->bytes, turn);
        if (layer->settings != NULL)
            lend(&settings, layer->settings, turn);
        answers[turn] = call_once(&lent, &area, turn);
        take_back(&bytes, layer->bytes, turn, layer->settings == NULL ? "layer text" : "stream");
        if (layer->settings != NULL)
            take_back(&settings, layer->settings, turn, "settings text");
        if (turn == 0)
            copy_result(result, answers[0], &area);
    }
    if (answers[0] != answers[1] || (answers[0] < HEZGOLT_REFUSED && memcmp(result, area.start, answers[0]) != 0))
        fail("two calls on one layer differ");
    free_area(&bytes);
    free_area(&settings);
    free_area(&area);
    return answers[0];
}
