/*
 * Tests hezgolt_decompose and hezgolt_decompose_stream as include/hezgolt.h describes them.
 *
 *     check FOLDER STREAMS [few [streams]]
 *
 * FOLDER has layer texts and their results, NAME.layer and NAME.result. STREAMS has streams, NAME.gds, their settings texts,
 * NAME.settings, and their results. With `few`, only some of the many texts and streams that are made of them are tried, and
 * with `streams` the second function alone. It ends with status 0 and one line, or says what differs and ends with status 1.
 */
#include <fcntl.h>
#include <stdarg.h>
#include <stdio.h>
#include <stdlib.h>
#include <string.h>
#include <sys/mman.h>
#include <sys/wait.h>
#include <unistd.h>

#include "check.h"

#define LONG_TEXT (1024 * 1024)
#define SUBJECT_MOST 32

/* What is tested at the moment, in memory that both processes see. */
static char *subject;

void begin(const char *name)
{
    snprintf(subject, SUBJECT_MOST, "%s", name);
}

void fail(const char *format, ...)
{
    va_list values;

    va_start(values, format);
    printf("check: %s: ", subject);
    vprintf(format, values);
    printf("\n");
    va_end(values);
    fflush(stdout);
    _exit(1);
}

void see_answer(const struct layer *layer, uint64_t answer, const uint8_t *result)
{
    if (answer != layer->answer)
        fail("%s: answer %lu and not %lu", layer->name, (unsigned long)answer, (unsigned long)layer->answer);
    if (answer < HEZGOLT_REFUSED && memcmp(result, layer->result, answer) != 0)
        fail("%s: another result text", layer->name);
}

void see_refused(enum kind kind, const struct layer *layer, uint64_t wanted)
{
    uint8_t result[HEZGOLT_RESULT_LEAST];
    uint64_t answer = call(kind, layer, result, sizeof result);

    if (answer != wanted)
        fail("answer %lu and not %lu for %lu bytes", (unsigned long)answer, (unsigned long)wanted, (unsigned long)layer->size);
}

static void see_text_refused(enum kind kind, uint8_t *text, size_t size, uint64_t wanted)
{
    struct layer layer = {0};

    layer.bytes = text;
    layer.size = size;
    see_refused(kind, &layer, wanted);
}

/* Every layer, in memory that lies in each way, with a buffer of just the size that is asked for. */
void check_stored(const struct layer *layers, size_t count)
{
    uint8_t result[HEZGOLT_RESULT_LEAST];

    for (size_t i = 0; i < count; i++)
        for (int kind = 0; kind < KINDS; kind++)
            see_answer(&layers[i], call((enum kind)kind, &layers[i], result, sizeof result), result);
}

/* Buffers of other sizes. One that is too small is refused first, whatever the layer is. */
void check_rooms(const struct layer *layers, size_t count)
{
    static const size_t rooms[] = {0, 1, HEZGOLT_RESULT_LEAST - 1, HEZGOLT_RESULT_LEAST + 1, 10000};
    uint8_t result[HEZGOLT_RESULT_LEAST];

    for (size_t i = 0; i < count * 5; i++) {
        struct layer layer = layers[i / 5];
        size_t room = rooms[i % 5];
        enum kind kind = (enum kind)((i / 5 + i) % KINDS);
        if (room < HEZGOLT_RESULT_LEAST)
            layer.answer = HEZGOLT_REFUSED;
        see_answer(&layer, call(kind, &layer, result, room), result);
    }
}

/* Texts of one byte value are refused at line 1, or because of their size. */
static void check_bytes(void)
{
    static const size_t sizes[] = {0, 1, 4096, HEZGOLT_LAYER_MOST, HEZGOLT_LAYER_MOST + 1, LONG_TEXT};
    static const uint8_t values[] = {0, 0xFF, '\n', '0', 'm'};
    uint8_t *text = reserve(LONG_TEXT);

    begin("bytes");
    for (size_t i = 0; i < 6 * 5; i++) {
        size_t size = sizes[i / 5];
        memset(text, values[i % 5], LONG_TEXT);
        for (int kind = 0; kind < KINDS; kind++)
            see_text_refused((enum kind)kind, text, size, size > HEZGOLT_LAYER_MOST ? 20000 : 30001);
    }
    free(text);
}

/* A fixed line of very many digits after the example: `comma` says where its comma is. Any length is good form. */
static void see_long_fixed(enum kind kind, const struct layer *example, uint8_t *text, size_t comma)
{
    memset(text, '7', HEZGOLT_LAYER_MOST);
    memcpy(text, example->bytes, example->size);
    memcpy(text + example->size, "fixed=", 6);
    text[comma - 1] = '0';
    text[comma] = ',';
    text[HEZGOLT_LAYER_MOST - 1] = '\n';
    see_text_refused(kind, text, HEZGOLT_LAYER_MOST, 130000 + lines(example->bytes, example->size) + 1);
}

/* As long as a text may be, and by one byte longer: bytes after the example, and numbers of very many digits. */
static void check_limits(const struct layer *example)
{
    static const uint8_t after[] = {'\n', 0, 'p'};
    uint8_t *text = reserve(HEZGOLT_LAYER_MOST + 1);

    begin("limits");
    for (int i = 0; i < KINDS * 3; i++) {
        enum kind kind = (enum kind)(i / 3);
        memset(text, after[i % 3], HEZGOLT_LAYER_MOST + 1);
        memcpy(text, example->bytes, example->size);
        see_text_refused(kind, text, HEZGOLT_LAYER_MOST, 30000 + lines(example->bytes, example->size) + 1);
        see_text_refused(kind, text, HEZGOLT_LAYER_MOST + 1, 20000);
        memset(text, '7', HEZGOLT_LAYER_MOST);
        memcpy(text, "masks=", 6);
        see_text_refused(kind, text, HEZGOLT_LAYER_MOST, 30001);
        text[HEZGOLT_LAYER_MOST - 1] = '\n';
        see_text_refused(kind, text, HEZGOLT_LAYER_MOST, 40001);
        see_text_refused(kind, text, HEZGOLT_LAYER_MOST + 1, 20000);
        see_long_fixed(kind, example, text, example->size + 7);
        see_long_fixed(kind, example, text, HEZGOLT_LAYER_MOST - 3);
    }
    free(text);
}

/* The same numbers in every run (xorshift). */
uint32_t drawn(uint32_t *state)
{
    *state ^= *state << 13;
    *state ^= *state >> 17;
    *state ^= *state << 5;
    return *state;
}

/* Random bytes, alone and after some lines of the example. */
static void check_random(const struct layer *example, int few)
{
    uint8_t *text = reserve(HEZGOLT_LAYER_MOST);
    uint32_t state = 20210607;

    begin("random");
    for (int i = 0; i < (few ? 100 : 2000); i++) {
        size_t size = 1 + drawn(&state) % (i % 20 == 0 ? HEZGOLT_LAYER_MOST - example->size : 100);
        size_t kept = i % 2 == 0 ? 0 : drawn(&state) % example->size;
        /* The cut is behind a line. */
        while (kept > 0 && example->bytes[kept - 1] != '\n')
            kept--;
        memcpy(text, example->bytes, kept);
        for (size_t j = 0; j < size; j++)
            text[kept + j] = (uint8_t)(drawn(&state) >> 16);
        /* No key begins with this byte. */
        text[kept] |= 0x80;
        see_text_refused((enum kind)(i % KINDS), text, kept + size, 30000 + lines(text, kept) + 1);
    }
    free(text);
}

/* Whether the answer comes after all lines were found in order. */
static int is_of_whole_layer(uint64_t answer)
{
    uint64_t number = answer / HEZGOLT_REFUSED;

    return number == 0 || number == 6 || number == 14;
}

/*
 * The front of a text that is in order ends before a line that is missing, or in one without its end. Where it has all pieces
 * and ends behind a line, only `fixed` lines are missing, and it is in order too.
 */
static void see_front(const struct layer *layer, size_t size)
{
    uint8_t result[HEZGOLT_RESULT_LEAST];
    enum kind kind = (enum kind)(size % KINDS);
    struct layer front = *layer;
    size_t there = lines(layer->bytes, size);
    size_t needed = lines(layer->bytes, layer->size) - lines_with("fixed=", layer->bytes, layer->size);
    uint64_t answer;

    front.size = size;
    if (there < needed || layer->bytes[size - 1] != '\n') {
        see_refused(kind, &front, 30000 + there + 1);
        return;
    }
    answer = call(kind, &front, result, sizeof result);
    if (!is_of_whole_layer(answer))
        fail("%s: answer %lu for the first %lu lines", layer->name, (unsigned long)answer, (unsigned long)there);
}

/* `most` fronts of each layer are tried. */
static void check_prefixes(const struct layer *layers, size_t count, size_t most)
{
    begin("prefixes");
    for (size_t i = 0; i < count; i++)
        if (is_of_whole_layer(layers[i].answer))
            for (size_t size = 0; size < layers[i].size; size += 1 + (layers[i].size - 1) / most)
                see_front(&layers[i], size);
}

int is_digit(uint8_t byte)
{
    return byte >= '0' && byte <= '9';
}

/*
 * What a change must lead to. Lines before it are in order. A byte that was no digit, or is none now, spoils the form of its
 * line; a line end among digits may leave that line good, but not the next.
 */
static void see_change(const struct layer *example, size_t place, uint8_t value, uint64_t answer)
{
    uint64_t line = lines(example->bytes, place) + 1;
    uint64_t spoilt = 3 * HEZGOLT_REFUSED + line;
    int digits = is_digit(example->bytes[place]);

    if (digits && is_digit(value)
            ? !is_of_whole_layer(answer) && answer % HEZGOLT_REFUSED < line
            : answer != spoilt && !(digits && value == '\n' && answer == spoilt + 1))
        fail("byte %lu as %u: answer %lu", (unsigned long)place, (unsigned)value, (unsigned long)answer);
}

/* The values that are tried for a byte if they are to be few. */
static int is_telling(uint8_t value, uint8_t byte)
{
    static const uint8_t some[] = {0, '\n', ' ', ',', '0', '9', 0xFF};

    return memchr(some, value, sizeof some) != NULL || value == (byte ^ 0x80);
}

/* Every byte of the example, changed to every value or some. */
static void check_changes(const struct layer *example, int few)
{
    uint8_t result[HEZGOLT_RESULT_LEAST];
    uint8_t *text = reserve(example->size);
    struct layer layer = {0};

    begin("changes");
    layer.bytes = text;
    layer.size = example->size;
    for (size_t i = 0; i < example->size * 256; i++) {
        size_t place = i / 256;
        uint8_t value = (uint8_t)(i % 256);
        if (value == example->bytes[place] || (few && !is_telling(value, example->bytes[place])))
            continue;
        memcpy(text, example->bytes, example->size);
        text[place] = value;
        see_change(example, place, value, call((enum kind)(i % KINDS), &layer, result, sizeof result));
    }
    free(text);
}

/* The layer of RULES 9. */
static struct layer example_layer(void)
{
    return layer_of("example",
                    "masks=2\nspacing=80\nmargin=10\nweight=10\nbudget=100\npieces=3\n"
                    "piece=0,0,0,20,20\npiece=1,40,0,60,20\npiece=2,80,0,100,20\n",
                    "verdict=best\nconflicts=1\nstitches=0\ncost=10\nsteps=5\nmask=0\nmask=1\nmask=0\n");
}

/* Two tied pieces that are fixed, and one that has to keep away from them. */
static struct layer fixed_example(void)
{
    return layer_of("fixed example",
                    "masks=2\nspacing=80\nmargin=10\nweight=10\nbudget=100\npieces=3\n"
                    "piece=0,0,0,20,9\npiece=0,20,0,40,20\npiece=1,60,0,80,20\nfixed=0,1\nfixed=1,1\n",
                    "verdict=best\nconflicts=0\nstitches=0\ncost=0\nsteps=1\nmask=1\nmask=1\nmask=0\n");
}

/* All of the first function but threads. */
static void check_layers(const struct layer *example, const struct layer *layers, size_t count, int few)
{
    struct layer fixed = fixed_example();

    begin("stored");
    check_stored(example, 1);
    check_stored(&fixed, 1);
    check_stored(layers, count);
    begin("rooms");
    check_rooms(layers, count);
    check_bytes();
    check_limits(example);
    check_random(example, few);
    check_prefixes(example, 1, example->size);
    check_prefixes(&fixed, 1, fixed.size);
    check_prefixes(layers, count, few ? 10 : 2000);
    check_changes(example, few);
    check_changes(&fixed, few);
    free_layers(&fixed, 1);
}

/* The stored streams, and one of each stored layer that has one. */
static struct layer *all_streams(const char *folder, const struct layer *layers, size_t layers_count, size_t *count)
{
    size_t stored;
    struct layer *from = stored_layers(folder, ".gds", &stored);
    struct layer *all = reserve((stored + layers_count) * sizeof *all);

    memcpy(all, from, stored * sizeof *all);
    free(from);
    if (stored < 90)
        fail("%lu stored streams", (unsigned long)stored);
    *count = stored;
    for (size_t i = 0; i < layers_count; i++)
        if (has_stream(&layers[i]))
            all[(*count)++] = stream_of(&layers[i]);
    return all;
}

static void check_all(const char *folder, const char *streams_folder, int few, int streams_only)
{
    struct layer example = example_layer();
    size_t count, streams_count;
    struct layer *layers = stored_layers(folder, ".layer", &count);
    struct layer *streams = all_streams(streams_folder, layers, count, &streams_count);

    if (count < 300)
        fail("%lu stored layers", (unsigned long)count);
    if (!streams_only) {
        check_layers(&example, layers, count, few);
        begin("stack");
        check_stack(few, 0);
        begin("threads");
        check_threads(layers, count);
    }
    check_streams(&example, streams, streams_count, few);
    begin("stream-stack");
    check_stack(few, 1);
    begin("stream-threads");
    check_threads(streams, streams_count);
    free_layers(layers, count);
    free_layers(streams, streams_count);
    free_layers(&example, 1);
    free(layers);
    free(streams);
    printf("check: %lu stored layers, %lu streams and %lu calls are as hezgolt.h says\n", (unsigned long)count,
           (unsigned long)streams_count, calls());
}

static void share_subject(void)
{
    int zeros = open("/dev/zero", O_RDWR);

    subject = mmap(NULL, SUBJECT_MOST, PROT_READ | PROT_WRITE, MAP_SHARED, zeros, 0);
    if (zeros < 0 || subject == MAP_FAILED) {
        fputs("check: no shared memory\n", stderr);
        exit(2);
    }
    close(zeros);
}

/* A fault, at a fence or at the end of a stack, ends the process that makes the calls, and is told by the other one. */
int main(int argc, char **argv)
{
    int few = argc >= 4 && strcmp(argv[3], "few") == 0;
    int streams_only = few && argc == 5 && strcmp(argv[4], "streams") == 0;
    int status = 0;
    pid_t worker;

    if (argc != 3 && !(argc == 4 && few) && !streams_only) {
        fputs("usage: check FOLDER STREAMS [few [streams]]\n", stderr);
        return 2;
    }
    share_subject();
    begin("start");
    worker = fork();
    if (worker == 0) {
        check_all(argv[1], argv[2], few, streams_only);
        return 0;
    }
    if (worker < 0 || waitpid(worker, &status, 0) != worker)
        fail("no process");
    if (WIFSIGNALED(status))
        fail("ended by signal %d: memory was touched that must not be", WTERMSIG(status));
    return WEXITSTATUS(status);
}
