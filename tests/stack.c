/* The stack that the entries touch, held to ELHAVIR_STACK_BYTES. A thread runs on memory that was painted beforehand; what is no longer
 * paint was touched. Usage: stack MODEL_SHEET, of a model from whose start steps can be taken without end */
#define _XOPEN_SOURCE 700
#include "elhavir.h"

#include <pthread.h>
#include <stdint.h>
#include <stdio.h>
#include <stdlib.h>
#include <string.h>

enum { STACK = 1 << 19, PAINT = 0xa5, LOG = 255 };

static uint8_t sheet[ELHAVIR_MAX_CUT_SHEET_BYTES];
static size_t length, whole; /* of the model sheet, and with the cut part behind it */
static uint8_t cuts[ELHAVIR_MAX_CUTS * ELHAVIR_CUT_BYTES], rows[ELHAVIR_MAX_CUTS * ELHAVIR_ROW_BYTES];
static uint8_t states[ELHAVIR_MAX_COLUMNS * ELHAVIR_MAX_STATES], estimates[ELHAVIR_ESTIMATE_BYTES * ELHAVIR_MAX_STATES];
static uint8_t steps[LOG * ELHAVIR_VALUE_BYTES], shown[LOG * ELHAVIR_ROW_BYTES];
static uintptr_t above;

static void *make_run(void *said) {
    uint8_t here = 0;
    above = (uintptr_t)&here;
    *(uint64_t *)said = elhavir_run(sheet, length, ELHAVIR_MAX_ROOM, cuts, sizeof cuts, rows, sizeof rows);
    return NULL;
}

/* As many states as a question takes, every position 0. */
static void *ask(void *said) {
    uint8_t here = 0;
    size_t columns = (sheet[0] & 15u) << 1 | sheet[1] >> 7;
    above = (uintptr_t)&here;
    *(uint64_t *)said = elhavir_question(sheet, length, sheet, whole, states, columns * ELHAVIR_MAX_STATES, estimates, sizeof estimates);
    return NULL;
}

static void *replay(void *said) {
    uint8_t here = 0;
    above = (uintptr_t)&here;
    *(uint64_t *)said = elhavir_replay(sheet, length, sheet, whole, steps, sizeof steps, shown, sizeof shown);
    return NULL;
}

/* Sets the next bits of the sheet, which are all 0, the most significant first. */
static void put_field(size_t *used, unsigned width, uint32_t value) {
    for (; width > 0; width--, ++*used)
        if (value >> (width - 1) & 1) sheet[*used / 8] |= (uint8_t)(128 >> *used % 8);
}

/* Behind the model sheet a cut part: form, count, and for each cut block, column and wanted set. */
static void put_cuts(uint32_t count) {
    size_t used = 8 * length;
    memset(sheet + length, 0, sizeof sheet - length);
    put_field(&used, 4, 2);
    put_field(&used, 8, count);
    for (uint32_t i = 0; i < count; i++) {
        elhavir_cut cut = elhavir_get_cut(cuts, i);
        put_field(&used, 8, cut.block);
        put_field(&used, 4, cut.column);
        put_field(&used, 32, cut.wanted);
    }
    whole = (used + 7) / 8;
}

/* The longest log: in each row the next step from the last one on that is not refused there. */
static void put_log(void) {
    uint32_t step = 0;
    for (size_t row = 0; row < LOG; row++) {
        for (uint32_t tried = 0; tried < ELHAVIR_MAX_STEPS; tried++, step++) {
            elhavir_put_value(steps + row * ELHAVIR_VALUE_BYTES, step % ELHAVIR_MAX_STEPS);
            if (elhavir_replay(sheet, length, sheet, whole, steps, (row + 1) * ELHAVIR_VALUE_BYTES, shown, sizeof shown) >> 56 != 0) break;
        }
        step++;
    }
}

/* Bytes below the caller's frame that are no longer paint. */
static size_t touched(void *(*call)(void *), uint64_t *said) {
    uint8_t *stack = aligned_alloc(4096, STACK);
    pthread_attr_t on;
    pthread_t thread;
    size_t low = 0;
    if (stack == NULL) exit(2);
    memset(stack, PAINT, STACK);
    if (pthread_attr_init(&on) || pthread_attr_setstack(&on, stack, STACK) || pthread_create(&thread, &on, call, said)) exit(2);
    if (pthread_join(thread, NULL)) exit(2);
    while (low < STACK && stack[low] == PAINT) low++;
    low = (size_t)(above - (uintptr_t)(stack + low));
    free(stack);
    return low;
}

int main(int count, char **words) {
    FILE *file = count == 2 ? fopen(words[1], "rb") : NULL;
    uint64_t run = 0, question = 0, replayed = 0;
    size_t binding, for_run, for_question, for_replay, most;
    if (file == NULL) return 2;
    length = fread(sheet, 1, ELHAVIR_MAX_MODEL_SHEET_BYTES, file);
    fclose(file);
    /* what a first call takes besides, and any of the three may be the first */
    binding = touched(make_run, &run);
    for_run = touched(make_run, &run);
    binding -= for_run < binding ? for_run : binding;
    put_cuts(0);
    put_log();
    put_cuts(elhavir_answer_blocks(run) - 1);
    for_question = touched(ask, &question);
    for_replay = touched(replay, &replayed);
    fprintf(stderr, "stack: %zu bytes for a run, %zu for a question, %zu for a replay, %zu more in a first call\n", for_run, for_question,
            for_replay, binding);
    if (run >> 56 == 0 || question != 0 || replayed != ((uint64_t)1 << 56 | (uint64_t)LOG << 32)) puts("refused");
    most = for_question > for_replay ? for_question : for_replay;
    if (for_run > most) most = for_run;
    if (most + binding > ELHAVIR_STACK_BYTES) puts("more stack than the header says");
    return 0;
}
