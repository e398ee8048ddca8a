/*
 * Libraries with one fault each, to see that the test program notices it. Every call goes through here (ld --wrap) and on to
 * the library. A macro says what is done to it; without one, nothing is. With SECOND the fault is one of the second function,
 * else of the first.
 */
#include <errno.h>
#include <sched.h>
#include <stdint.h>
#include <string.h>

#include "hezgolt.h"

#ifndef SECOND
#define SECOND 0
#endif

uint64_t __real_hezgolt_decompose(const uint8_t *layer, uint64_t layer_size, uint8_t *result, uint64_t result_size);
uint64_t __wrap_hezgolt_decompose(const uint8_t *layer, uint64_t layer_size, uint8_t *result, uint64_t result_size);
uint64_t __real_hezgolt_decompose_stream(const uint8_t *settings, uint64_t settings_size, const uint8_t *stream,
                                         uint64_t stream_size, uint8_t *result, uint64_t result_size);
uint64_t __wrap_hezgolt_decompose_stream(const uint8_t *settings, uint64_t settings_size, const uint8_t *stream,
                                         uint64_t stream_size, uint8_t *result, uint64_t result_size);

/* A call of either function: the bytes are a layer text or a stream, and only a stream has settings. */
struct call {
    const uint8_t *settings;
    uint64_t settings_size;
    const uint8_t *bytes;
    uint64_t size;
    uint8_t *result;
    uint64_t result_size;
};

static uint64_t pass_on(struct call call)
{
    if (call.settings != NULL)
        return __real_hezgolt_decompose_stream(call.settings, call.settings_size, call.bytes, call.size, call.result,
                                               call.result_size);
    return __real_hezgolt_decompose(call.bytes, call.size, call.result, call.result_size);
}

/* The most bytes that a call may be given. */
#define MOST (SECOND ? HEZGOLT_STREAM_MOST : HEZGOLT_LAYER_MOST)

#if defined STACK
/* With what the call takes, this is more than a thread is told to have. */
static uint64_t deeper(struct call call)
{
    volatile uint8_t deep[800 * 1024];

    for (size_t i = 0; i < sizeof deep; i += 1024)
        deep[i] = 0;
    return pass_on(call) + deep[0];
}
#define pass_on deeper
#endif

#if defined STATE
/* All calls write to one buffer first. */
static uint64_t with_state(struct call call)
{
    static uint8_t state[HEZGOLT_RESULT_LEAST];
    uint8_t *result = call.result;
    uint64_t answer;

    if (call.result_size < sizeof state)
        return HEZGOLT_REFUSED;
    call.result = state;
    call.result_size = sizeof state;
    answer = pass_on(call);
    sched_yield();
    if (answer < HEZGOLT_REFUSED)
        memcpy(result, state, answer);
    return answer;
}
#define pass_on with_state
#endif

#if defined SEVEN_BITS || defined SIGN
/* The call gets a copy: without the highest bit of each byte; or without the sign of the unit, where UNITS stands behind a name
 * of eight bytes. */
static uint64_t of_a_copy(struct call call)
{
    static uint8_t copy[HEZGOLT_STREAM_MOST];

    if (call.size <= MOST) {
        memcpy(copy, call.bytes, call.size);
#if defined SEVEN_BITS
        for (size_t i = 0; i < call.size; i++)
            copy[i] &= 0x7F;
#else
        if (call.size > 58 && copy[48] == 0x03)
            copy[58] &= 0x7F;
#endif
        call.bytes = copy;
    }
    return pass_on(call);
}
#define pass_on of_a_copy
#endif

#if defined UNTIED
/* The call gets a copy of the layer text, or of the settings text, with a margin of 1: tied pieces can be stitched then. */
static uint64_t untied(struct call call)
{
    static uint8_t copy[HEZGOLT_LAYER_MOST];
    const uint8_t **text = SECOND ? &call.settings : &call.bytes;
    uint64_t *size = SECOND ? &call.settings_size : &call.size;
    uint64_t from = 0, to;

    if (*size > sizeof copy)
        return pass_on(call);
    memcpy(copy, *text, *size);
    while (from + 9 < *size && memcmp(copy + from, "\nmargin=", 8) != 0)
        from++;
    if (from + 9 < *size) {
        from += 8;
        for (to = from; to < *size && copy[to] >= '0' && copy[to] <= '9'; to++)
            continue;
        copy[from++] = '1';
        memmove(copy + from, copy + to, *size - to);
        *size -= to - from;
    }
    *text = copy;
    return pass_on(call);
}
#define pass_on untied
#endif

#if defined NOT_FIXED
/* The call gets the layer text without its fixed lines. */
static uint64_t not_fixed(struct call call)
{
    for (uint64_t i = 0; i + 7 <= call.size && call.size <= MOST; i++)
        if (memcmp(call.bytes + i, "\nfixed=", 7) == 0)
            call.size = i + 1;
    return pass_on(call);
}
#define pass_on not_fixed
#endif

#if defined NO_STEP
/* Whether a result states that no step was taken. */
static int has_no_step(const uint8_t *result, uint64_t size)
{
    for (uint64_t i = 0; i + 9 <= size; i++)
        if (memcmp(result + i, "\nsteps=0\n", 9) == 0)
            return 1;
    return 0;
}
#endif

/* What is done before the call. A call that it answers is not passed on. */
static int before(struct call *call, uint64_t *answer)
{
#if defined ORDER /* Question 2 before question 1. */
    *answer = 2 * HEZGOLT_REFUSED;
    return call->size > MOST;
#elif defined READ_BEHIND
    *answer = 0;
    return *(const volatile uint8_t *)(call->bytes + call->size) == 1;
#elif defined READ_SETTINGS_BEHIND
    *answer = 0;
    return *(const volatile uint8_t *)(call->settings + call->settings_size) == 1;
#elif defined READ_BEFORE
    *answer = 0;
    return *(const volatile uint8_t *)(call->bytes - 1) == 1
           || (SECOND && *(const volatile uint8_t *)(call->settings - 1) == 1);
#elif defined COPY_BEHIND
    static uint8_t copy[HEZGOLT_STREAM_MOST + 1];

    if (call->size < MOST + 1)
        memcpy(copy, call->bytes, call->size + 1);
#elif defined WRITE /* As it was. */
    if (call->size > 0)
        *(volatile uint8_t *)(uintptr_t)call->bytes = call->bytes[0];
#elif defined WRITE_SETTINGS /* The same. */
    if (call->settings_size > 0)
        *(volatile uint8_t *)(uintptr_t)call->settings = call->settings[0];
#elif defined SIZE_16_BITS
    call->size = (uint16_t)call->size;
#elif defined SETTINGS_16_BITS
    call->settings_size = (uint16_t)call->settings_size;
#elif defined ZERO_ENDS /* A zero byte ends the layer text. */
    if (call->size <= MOST && memchr(call->bytes, 0, call->size) != NULL)
        call->size = (uint64_t)((const uint8_t *)memchr(call->bytes, 0, call->size) - call->bytes);
#elif defined NO_ZEROS /* Zero bytes after the records are left out. */
    while (call->size > 0 && call->size <= MOST && call->bytes[call->size - 1] == 0)
        call->size--;
#elif defined NO_SETTINGS /* A settings text without its end counts as empty. */
    if (call->settings_size > 0 && call->settings_size <= HEZGOLT_LAYER_MOST && call->settings[call->settings_size - 1] != '\n')
        call->settings_size = 0;
#endif
    (void)call;
    (void)answer;
    return 0;
}

/* What is done after it. */
static uint64_t after(struct call call, uint64_t answer)
{
#if defined END_RESULT /* By a zero byte. */
    if (answer < HEZGOLT_RESULT_LEAST)
        call.result[answer] = 0;
#elif defined LENGTH
    if (answer < HEZGOLT_REFUSED)
        answer++;
#elif defined MASK /* The masks of two pieces changed places. */
    if (answer < HEZGOLT_REFUSED && memcmp(call.result + answer - 14, "mask=0\nmask=1\n", 14) == 0)
        memcpy(call.result + answer - 14, "mask=1\nmask=0\n", 14);
#elif defined NO_STEP /* Open where a conflict is left and no step was taken: only the library of small graphs makes it best. */
    if (answer < HEZGOLT_REFUSED && memcmp(call.result, "verdict=best\nconflicts=0\n", 25) != 0 && has_no_step(call.result, answer))
        memcpy(call.result + 8, "open", 4);
#elif defined WRITE_REFUSED
    if (answer >= HEZGOLT_REFUSED && call.result_size > 0)
        call.result[call.result_size - 1] = 0;
#elif defined ERRNO
    if (answer >= HEZGOLT_REFUSED)
        errno = EINVAL;
#elif defined MISSING_LINE /* The last line there is, for a line that is missing. */
    if (answer == 3 * HEZGOLT_REFUSED + 2 && call.size == 8)
        answer--;
#elif defined FIXED_RANGE /* 4 where 13 is due. */
    if (answer / HEZGOLT_REFUSED == 13)
        answer -= 9 * HEZGOLT_REFUSED;
#elif defined FIXED_LONG /* A fixed line of very many digits has bad form. */
    if (answer / HEZGOLT_REFUSED == 13 && call.size > 1000)
        answer -= 10 * HEZGOLT_REFUSED;
#elif defined FIXED_PIECE /* The line, from 1, where the piece, from 0, is due. */
    if (answer / HEZGOLT_REFUSED == 14)
        answer += 7;
#elif defined FIXED_NOTHING /* No place where a piece is due. */
    if (answer / HEZGOLT_REFUSED == 14)
        answer = 14 * HEZGOLT_REFUSED;
#elif defined MISSING_RECORD /* The last record there is, for a record that is missing. */
    if (answer == 9 * HEZGOLT_REFUSED + 2 && call.size == 6)
        answer--;
#endif
    (void)call;
    return answer;
}

static uint64_t faulty(struct call call)
{
    uint64_t answer;

    if (before(&call, &answer))
        return answer;
    return after(call, pass_on(call));
}

/* The function without the fault goes straight to the library. */
#undef pass_on

uint64_t __wrap_hezgolt_decompose(const uint8_t *layer, uint64_t layer_size, uint8_t *result, uint64_t result_size)
{
    struct call call = {NULL, 0, layer, layer_size, result, result_size};

    return SECOND ? pass_on(call) : faulty(call);
}

uint64_t __wrap_hezgolt_decompose_stream(const uint8_t *settings, uint64_t settings_size, const uint8_t *stream,
                                         uint64_t stream_size, uint8_t *result, uint64_t result_size)
{
    struct call call = {settings, settings_size, stream, stream_size, result, result_size};

    return SECOND ? faulty(call) : pass_on(call);
}
