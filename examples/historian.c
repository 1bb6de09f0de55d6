/*
 * historian MODEL.sheet ROOM [STATE ...]
 *
 * Runs the model of a model sheet and prints its change sheet. Each state, written as positions with commas (1,0), is then
 * asked about with the cuts that the run made. Exit status: 0 answered, 1 refused, 2 bad arguments or a file that failed.
 */
#include <inttypes.h>
#include <stdint.h>
#include <stdio.h>
#include <stdlib.h>

#include "common.h"
#include "elhavir.h"

/* States to ask about, one byte for each column of each state, and the estimates they get. */
struct states {
    size_t count;
    size_t columns;
    uint8_t *positions;
    uint8_t *estimates;
};

/* The number of columns stands in bits 4 to 8 of an accepted sheet. */
static size_t columns_of(const struct sheet *sheet)
{
    return (size_t)(sheet->bytes[0] & 15) << 1 | sheet->bytes[1] >> 7;
}

/* Positions of one state. One for each column: with more or fewer, every later state would be read from the wrong place. */
static int read_state(const char *text, size_t columns, uint8_t *positions)
{
    const char *at = text;
    size_t column;
    for (column = 0; column < columns; column++) {
        uint32_t position;
        if (!read_number(&at, column + 1 < columns ? ',' : '\0', UINT8_MAX, &position))
            return failed("bad state '%s': expected %zu positions, numbers up to %u, with commas between them", text, columns,
                          (unsigned)UINT8_MAX);
        positions[column] = (uint8_t)position;
        at++;
    }
    return ANSWERED;
}

static int read_states(char **texts, size_t count, size_t columns, struct states *states)
{
    size_t k;
    states->count = count;
    states->columns = columns;
    states->positions = malloc(count * columns);
    states->estimates = malloc(count * ELHAVIR_ESTIMATE_BYTES);
    if (states->positions == NULL || states->estimates == NULL)
        return failed("no memory for %zu states", count);
    for (k = 0; k < count; k++)
        if (read_state(texts[k], columns, states->positions + k * columns) != ANSWERED)
            return FAILED;
    return ANSWERED;
}

static void print_plan(const struct run *run)
{
    uint32_t steps = elhavir_answer_steps(run->answer);
    uint32_t i;
    printf("plan %" PRIu32 " steps %" PRIu32 " blocks %" PRIu32 "\n", elhavir_answer_value(run->answer), steps,
           elhavir_answer_blocks(run->answer));
    for (i = 0; i < steps; i++) {
        elhavir_row row = elhavir_get_row(run->rows, i);
        printf("%" PRIu32 " %" PRIu32 " %" PRIu32 " %" PRIu32 "\n", i + 1, row.step, row.tenths, row.tenths_left);
    }
}

/* The change sheet of a run that was not refused. */
static void print_change_sheet(const struct run *run)
{
    uint32_t blocks = elhavir_answer_blocks(run->answer);
    switch (elhavir_answer_kind(run->answer)) {
    case ELHAVIR_PLAN:
        print_plan(run);
        break;
    case ELHAVIR_NO_PLAN:
        printf("no plan blocks %" PRIu32 "\n", blocks);
        break;
    case ELHAVIR_OPEN:
        printf("open %" PRIu32 " blocks %" PRIu32 "\n", elhavir_answer_value(run->answer), blocks);
        break;
    }
}

static void print_estimate(const uint8_t *positions, size_t columns, uint32_t estimate)
{
    size_t column;
    for (column = 0; column < columns; column++)
        printf("%s%u", column > 0 ? "," : "", (unsigned)positions[column]);
    if (estimate == ELHAVIR_NO_WAY)
        puts(" no way");
    else
        printf(" %" PRIu32 "\n", estimate);
}

static int ask(const struct sheet *model, const struct run *run, struct states *states)
{
    uint8_t cut_sheet[ELHAVIR_MAX_CUT_SHEET_BYTES];
    size_t length = write_cut_sheet(model, run, cut_sheet);
    uint32_t refusal = elhavir_question(model->bytes, model->length, cut_sheet, length,
                                        states->positions, states->count * states->columns,
                                        states->estimates, states->count * ELHAVIR_ESTIMATE_BYTES);
    size_t k;
    if (refusal != ELHAVIR_DONE)
        return print_refusal(refusal);
    for (k = 0; k < states->count; k++)
        print_estimate(states->positions + k * states->columns, states->columns,
                       elhavir_get_value(states->estimates + k * ELHAVIR_ESTIMATE_BYTES));
    return ANSWERED;
}

/* Prints nothing before every argument is understood. */
static int answer(const struct sheet *model, const struct run *run, char **texts, size_t count)
{
    struct states states = {0, 0, NULL, NULL};
    int status = ANSWERED;
    if (count > 0)
        status = read_states(texts, count, columns_of(model), &states);
    if (status == ANSWERED)
        print_change_sheet(run);
    if (status == ANSWERED && count > 0)
        status = ask(model, run, &states);
    free(states.positions);
    free(states.estimates);
    return status;
}

int main(int argc, char **argv)
{
    struct sheet model;
    struct run run;
    int status;
    program = "historian";
    if (argc < 3)
        return failed("expected: historian MODEL.sheet ROOM [STATE ...]");
    status = make_run(argv[1], argv[2], &model, &run);
    if (status == ANSWERED)
        status = answer(&model, &run, argv + 3, (size_t)argc - 3);
    return ended(status);
}
