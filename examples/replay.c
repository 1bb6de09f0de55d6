/*
 * replay MODEL.sheet ROOM [STEP ...]
 *
 * Shows where a shift lost time. The model of a model sheet is run with room for so many blocks; the steps of the shift's log, by their
 * numbers and in the order in which they were taken, are then replayed with the cuts that the run made. Prints a table of the minutes: what
 * each step paid, the ground it won and its detour, and the sums. A dash says that after this row no way leads to the goal. Exit status:
 * 0 answered, 1 refused, 2 bad arguments or a file that failed.
 */
#include <inttypes.h>
#include <stdint.h>
#include <stdio.h>

#include "common.h"
#include "elhavir.h"

/* A log as it stands on the command line. One step more than any log has, so that the library sees a log that is too long. */
struct log {
    uint8_t steps[(ELHAVIR_MAX_LOG + 1) * ELHAVIR_STEP_BYTES];
    size_t count;
};

static int read_log(char **texts, size_t count, struct log *log)
{
    size_t i;
    for (i = 0; i < count; i++) {
        const char *at = texts[i];
        uint32_t step;
        if (!read_number(&at, '\0', UINT32_MAX, &step))
            return failed("bad step '%s': expected the number of a step", texts[i]);
        if (i <= ELHAVIR_MAX_LOG)
            elhavir_put_value(log->steps + i * ELHAVIR_STEP_BYTES, step);
    }
    log->count = count <= ELHAVIR_MAX_LOG ? count : ELHAVIR_MAX_LOG + 1;
    return ANSWERED;
}

/* The step of row i, counted from 0. */
static uint32_t step_of(const struct log *log, size_t i)
{
    return elhavir_get_value(log->steps + i * ELHAVIR_STEP_BYTES);
}

/* Tenths as minutes. The sign is put by hand: -5 tenths have a whole part of 0, which has none. */
static void print_minutes(int width, int32_t tenths)
{
    int32_t size = tenths < 0 ? -tenths : tenths;
    char text[24];
    snprintf(text, sizeof text, "%s%" PRId32 ".%" PRId32, tenths < 0 ? "-" : "", size / 10, size % 10);
    printf("  %*s", width, text);
}

static void print_figures(const elhavir_replay_row *row, int dash)
{
    print_minutes(12, row->paid);
    if (dash) {
        printf("  %10s  %10s\n", "-", "-");
    } else {
        print_minutes(10, row->won);
        print_minutes(10, row->detour);
        putchar('\n');
    }
}

/*
 * A row for each step, and the sums. With a dash in any row the sums of ground won and detour are dashes too: the three sums are over the
 * same rows, so that paid is won and detour together in the last line as in every other, and a change that was spoilt does not end with
 * a small detour. The sums up to a row are had by leaving out the steps after it.
 */
static void print_table(const struct log *log, const uint8_t *rows, size_t count)
{
    elhavir_replay_row sum = {0, 0, 0};
    int dash = 0;
    size_t i;
    puts("row  step  minutes paid  ground won      detour");
    for (i = 0; i < count; i++) {
        elhavir_replay_row row = elhavir_get_replay_row(rows, i);
        dash = row.won == ELHAVIR_DASH;
        printf("%3zu  %4" PRIu32, i + 1, step_of(log, i));
        print_figures(&row, dash);
        sum.paid += row.paid;
        if (!dash) {
            sum.won += row.won;
            sum.detour += row.detour;
        }
    }
    /* after a dash there are only dashes, so the last row knows */
    printf("%-9s", "sum");
    print_figures(&sum, dash);
}

/* A step is looked for by its row. */
static int print_replay_refusal(const struct log *log, uint64_t answer)
{
    int status = print_refusal(elhavir_answer_value(answer));
    if (elhavir_answer_value(answer) == ELHAVIR_BAD_STEP) {
        uint32_t row = elhavir_answer_steps(answer);
        failed("the first such row is %" PRIu32 ", with step %" PRIu32, row, step_of(log, row - 1));
    }
    return status;
}

static int replay(const struct sheet *model, const struct run *run, const struct log *log)
{
    uint8_t cut_sheet[ELHAVIR_MAX_CUT_SHEET_BYTES];
    uint8_t rows[ELHAVIR_MAX_LOG * ELHAVIR_REPLAY_ROW_BYTES];
    size_t length = write_cut_sheet(model, run, cut_sheet);
    uint64_t answer = elhavir_replay(model->bytes, model->length, cut_sheet, length,
                                     log->steps, log->count * ELHAVIR_STEP_BYTES, rows, sizeof rows);
    if (elhavir_answer_kind(answer) == ELHAVIR_REFUSED)
        return print_replay_refusal(log, answer);
    print_table(log, rows, elhavir_answer_steps(answer));
    return ANSWERED;
}

int main(int argc, char **argv)
{
    struct sheet model;
    struct run run;
    struct log log;
    int status;
    program = "replay";
    if (argc < 3)
        return failed("expected: replay MODEL.sheet ROOM [STEP ...]");
    status = read_log(argv + 3, (size_t)argc - 3, &log);
    if (status == ANSWERED)
        status = make_run(argv[1], argv[2], &model, &run);
    if (status == ANSWERED)
        status = replay(&model, &run, &log);
    return ended(status);
}
