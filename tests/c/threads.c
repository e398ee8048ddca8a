/* Calls on other threads: on a stack of the size that hezgolt.h asks for, and many at once. */
#include <pthread.h>
#include <stdlib.h>
#include <string.h>

#include "check.h"

/* What hezgolt.h tells a caller to give. */
#define STACK_STATED (1024 * 1024)

#define THREADS 8

/* How many large layers there are, and how many of them, the first, have streams. */
#define LARGE 7
#define LARGE_STREAMS 6

struct task {
    const struct layer *layers;
    size_t count;
    size_t first;
    enum kind kind;
    int shared;
    pthread_barrier_t *together;
};

static void *run_task(void *argument)
{
    const struct task *task = argument;
    uint8_t *result = reserve(HEZGOLT_RESULT_LEAST);

    if (task->together != NULL)
        pthread_barrier_wait(task->together);
    for (size_t i = 0; i < task->count; i++) {
        const struct layer *layer = &task->layers[(task->first + i) % task->count];
        see_answer(layer,
                   task->shared ? call_shared(layer, result) : call(task->kind, layer, result, HEZGOLT_RESULT_LEAST),
                   result);
    }
    free(result);
    return NULL;
}

static pthread_t start(struct task *task)
{
    pthread_attr_t attributes;
    pthread_t thread;

    if (pthread_attr_init(&attributes) != 0 || pthread_attr_setstacksize(&attributes, STACK_STATED) != 0)
        fail("no stack of the stated size");
    if (pthread_create(&thread, &attributes, run_task, task) != 0)
        fail("no thread");
    pthread_attr_destroy(&attributes);
    return thread;
}

/* Layers of 512 pieces that are searched to the last one, or tied, or fixed, as texts or as streams. */
void check_stack(int few, int streams)
{
    struct layer layers[LARGE + LARGE_STREAMS];
    struct task task = {streams ? layers + LARGE : layers, streams ? LARGE_STREAMS : LARGE, 0, GUARDED, 0, NULL};
    unsigned budget = few ? 2000 : 200000;

    layers[0] = ring_layer(2);
    layers[1] = ring_layer(8);
    layers[2] = clique_layer(2, budget);
    layers[3] = clique_layer(8, budget);
    layers[4] = clique_layer(4, 0);
    layers[5] = chains_layer();
    layers[6] = fixed_layer(8);
    for (size_t i = 0; i < LARGE_STREAMS; i++)
        layers[LARGE + i] = stream_of(&layers[i]);
    for (int kind = 0; kind < KINDS; kind++) {
        task.kind = (enum kind)kind;
        pthread_join(start(&task), NULL);
    }
    free_layers(layers, LARGE + LARGE_STREAMS);
}

/* All threads at once over the same layers. In the second round each begins with another one. */
static void run_threads(const struct layer *layers, size_t count, int apart)
{
    struct task tasks[THREADS];
    pthread_t threads[THREADS];
    pthread_barrier_t together;

    pthread_barrier_init(&together, NULL, THREADS);
    for (size_t i = 0; i < THREADS; i++) {
        struct task task = {layers, count, apart ? i * count / THREADS : 0, GUARDED, 1, &together};
        tasks[i] = task;
        threads[i] = start(&tasks[i]);
    }
    for (size_t i = 0; i < THREADS; i++)
        pthread_join(threads[i], NULL);
    pthread_barrier_destroy(&together);
}

/* A copy of what is lent to be read. */
static uint8_t *kept(const uint8_t *bytes, size_t size)
{
    return bytes == NULL ? NULL : copied(bytes, size);
}

static void see_kept(const struct layer *layer, uint8_t *bytes, uint8_t *settings)
{
    if (memcmp(bytes, layer->bytes, layer->size) != 0)
        fail("%s: the bytes were changed", layer->name);
    if (settings != NULL && memcmp(settings, layer->settings, layer->settings_size) != 0)
        fail("%s: the settings text was changed", layer->name);
    free(bytes);
    free(settings);
}

void check_threads(const struct layer *layers, size_t count)
{
    uint8_t **bytes = reserve(count * sizeof *bytes);
    uint8_t **settings = reserve(count * sizeof *settings);

    for (size_t i = 0; i < count; i++) {
        bytes[i] = kept(layers[i].bytes, layers[i].size);
        settings[i] = kept(layers[i].settings, layers[i].settings_size);
    }
    run_threads(layers, count, 0);
    run_threads(layers, count, 1);
    for (size_t i = 0; i < count; i++)
        see_kept(&layers[i], bytes[i], settings[i]);
    free(bytes);
    free(settings);
}
