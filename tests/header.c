/* The helpers of elhavir.h: an answer number taken apart, values read and written. Prints a line for each that is wrong. */
#include <stdio.h>
#include <string.h>

#include "elhavir.h"

static int wrong = 0;

static void expect(int holds, const char *what)
{
    if (!holds) {
        printf("wrong: %s\n", what);
        wrong = 1;
    }
}

/* Every part at its largest, so that none reaches into the next. */
static void answers(void)
{
    uint64_t plan = (uint64_t)ELHAVIR_PLAN << 56 | (uint64_t)256 << 44 | (uint64_t)255 << 32 | 16711425u;
    uint64_t full = UINT64_MAX;
    expect(elhavir_answer_kind(plan) == ELHAVIR_PLAN, "kind");
    expect(elhavir_answer_blocks(plan) == 256, "blocks");
    expect(elhavir_answer_steps(plan) == 255, "steps");
    expect(elhavir_answer_value(plan) == 16711425u, "value");
    expect(elhavir_answer_kind(full) == 255 && elhavir_answer_blocks(full) == 4095, "kind and blocks of all ones");
    expect(elhavir_answer_steps(full) == 4095 && elhavir_answer_value(full) == UINT32_MAX, "steps and value of all ones");
    expect(elhavir_answer_kind(7) == ELHAVIR_REFUSED && elhavir_answer_value(7) == ELHAVIR_BAD_ROOM, "a refusal is its number");
}

/* Rows of a replay, and the row of a refusal, stand where a plan's steps do. */
static void replay_answers(void)
{
    uint64_t done = (uint64_t)ELHAVIR_REPLAYED << 56 | (uint64_t)ELHAVIR_MAX_LOG << 32;
    uint64_t bad = (uint64_t)ELHAVIR_MAX_LOG << 32 | ELHAVIR_BAD_STEP;
    expect(elhavir_answer_kind(done) == ELHAVIR_REPLAYED && elhavir_answer_steps(done) == 255, "kind and rows of a replay");
    expect(elhavir_answer_blocks(done) == 0 && elhavir_answer_value(done) == 0, "a replay has no blocks and no value");
    expect(elhavir_answer_kind(bad) == ELHAVIR_REFUSED && elhavir_answer_value(bad) == 14, "a refused step is a refusal");
    expect(elhavir_answer_blocks(bad) == 0 && elhavir_answer_steps(bad) == 255, "a refused step has its row");
}

static void values(void)
{
    static const uint8_t bytes[4] = {0x81, 0x02, 0xf3, 0x84};
    uint8_t out[6] = {9, 9, 9, 9, 9, 9};
    expect(elhavir_get_value(bytes) == 0x8102f384u, "most significant byte first");
    elhavir_put_value(out + 1, 0x8102f384u);
    expect(memcmp(out + 1, bytes, 4) == 0 && out[0] == 9 && out[5] == 9, "four bytes written");
}

static int32_t as_signed(uint32_t value)
{
    uint8_t bytes[4];
    elhavir_put_value(bytes, value);
    return elhavir_get_signed_value(bytes);
}

/* Zero and both ends, and the numbers beside them. */
static void signed_values(void)
{
    expect(as_signed(0) == 0 && as_signed(1) == 1 && as_signed(UINT32_MAX) == -1, "zero, 1 and -1");
    expect(as_signed(0xfffffff6u) == -10, "-10");
    expect(as_signed(0x7fffffffu) == INT32_MAX && as_signed(0x7ffffffeu) == INT32_MAX - 1, "the largest");
    expect(as_signed(0x80000000u) == INT32_MIN && as_signed(0x80000001u) == INT32_MIN + 1, "the least");
    expect(as_signed(ELHAVIR_NO_WAY) == ELHAVIR_DASH, "a dash is the mark for no way");
}

static void places(void)
{
    uint8_t list[24];
    uint32_t i;
    elhavir_cut cut;
    elhavir_row row;
    for (i = 0; i < 6; i++)
        elhavir_put_value(list + i * ELHAVIR_VALUE_BYTES, 1000 + i);
    cut = elhavir_get_cut(list, 1);
    row = elhavir_get_row(list, 1);
    expect(cut.block == 1003 && cut.column == 1004 && cut.wanted == 1005, "block, column, wanted");
    expect(row.step == 1003 && row.tenths == 1004 && row.tenths_left == 1005, "step, tenths, tenths left");
}

static void replay_places(void)
{
    uint8_t list[2 * ELHAVIR_REPLAY_ROW_BYTES];
    elhavir_replay_row row;
    memset(list, 0x55, sizeof list);
    elhavir_put_value(list + 3 * ELHAVIR_VALUE_BYTES, 20);
    elhavir_put_value(list + 4 * ELHAVIR_VALUE_BYTES, 0xfffffff6u);
    elhavir_put_value(list + 5 * ELHAVIR_VALUE_BYTES, 30);
    row = elhavir_get_replay_row(list, 1);
    expect(row.paid == 20 && row.won == -10 && row.detour == 30, "paid, won, detour");
}

/* The largest sheets follow from the limits. */
static void sizes(void)
{
    uint32_t n = ELHAVIR_MAX_COLUMNS, m = ELHAVIR_MAX_STEPS;
    expect(ELHAVIR_MAX_MODEL_SHEET_BYTES == (17 + 17 * n + m * (16 + 12 * n) + 7) / 8, "the largest model sheet");
    expect(ELHAVIR_MAX_CUT_PART_BYTES == (12 + 44 * ELHAVIR_MAX_CUTS + 7) / 8, "the largest cut part");
    expect(ELHAVIR_MAX_STATES == 64, "states in one question");
    expect(ELHAVIR_MAX_LOG == 255, "steps in one replay");
    expect(ELHAVIR_STEP_BYTES == 4 && ELHAVIR_REPLAY_ROW_BYTES == 12, "bytes of a log's step and of a replay's row");
    expect(ELHAVIR_MAX_CUTS == ELHAVIR_MAX_ROOM - 1, "cuts are blocks less 1");
    expect(ELHAVIR_MAX_CUTS * ELHAVIR_MAX_COST < ELHAVIR_NO_WAY, "no way is above every distance");
    expect((ELHAVIR_MAX_CUTS + 1) * ELHAVIR_MAX_COST < ELHAVIR_NO_WAY, "a dash is above every detour: a step from the goal to the farthest block");
}

static void words(void)
{
    expect(strcmp(elhavir_refusal_words(ELHAVIR_BAD_ROOM), "room not 1 to 256") == 0, "words of 7");
    expect(strcmp(elhavir_refusal_words(14), "an unknown step or one that cannot be taken") == 0, "words of 14");
    expect(strcmp(elhavir_refusal_words(15), "more than 255 steps") == 0, "words of 15");
    expect(strcmp(elhavir_refusal_words(0), "no refusal number") == 0, "0 is no refusal");
    expect(strcmp(elhavir_refusal_words(16), "no refusal number") == 0, "16 is no refusal");
}

int main(void)
{
    answers();
    replay_answers();
    values();
    signed_values();
    places();
    replay_places();
    sizes();
    words();
    return wrong;
}
