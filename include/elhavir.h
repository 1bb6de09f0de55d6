/*
 * Elhavir, the change planner, for a C or C++ program: three entries on byte slices and numbers.
 *
 * Duties of the caller. The library asks for nothing else: every sheet, number and list is judged by the library itself.
 *
 * - A slice is a pointer and the number of bytes behind it that are lent. A null pointer goes with length 0 only.
 * - The slices lent to one call must not overlap, and no other thread may write to them while the call lasts.
 * - ELHAVIR_STACK_BYTES of stack have to be free.
 *
 * What the library promises in return.
 *
 * - Every call ends. Nothing outside the lent slices is read or written.
 * - There is no global state: calls from several threads at once are fine, each with slices of its own.
 * - A refusal returns its number and leaves every list as found.
 * - Places past the last one used stay untouched, and so do bytes that are too few for a whole place.
 */
#ifndef ELHAVIR_H
#define ELHAVIR_H

#include <stddef.h>
#include <stdint.h>

#ifdef __cplusplus
extern "C" {
#endif

/*
 * A run: the cheapest order of steps for the model of a model sheet, with room for so many blocks.
 *
 * Fills `cuts` with the cuts made and, for a plan, `rows` with the rows of the change sheet. Each needs room less 1 places,
 * whatever the answer. Returns an answer number, to be taken apart by the elhavir_answer_.. functions below.
 * It can be refused by the numbers 1 to 8.
 */
uint64_t elhavir_run(const uint8_t *sheet, size_t sheet_len, uint32_t room,
                     uint8_t *cuts, size_t cuts_len, uint8_t *rows, size_t rows_len);

/*
 * A question: the estimate of each state, after the cuts of a cut sheet of the given model sheet.
 *
 * `states` has one byte for each column of each state; `estimates` needs a place for each state, which gets tenths of a
 * minute or ELHAVIR_NO_WAY. Returns ELHAVIR_DONE or a refusal number: 1 to 6, or 8 to 11.
 */
uint32_t elhavir_question(const uint8_t *model, size_t model_len,
                          const uint8_t *cut_sheet, size_t cut_sheet_len,
                          const uint8_t *states, size_t states_len,
                          uint8_t *estimates, size_t estimates_len);

/*
 * A replay: for each step of a shift's log the tenths paid, the ground won and the detour, by the estimates after the cuts of a cut sheet
 * of the given model sheet.
 *
 * `log` has a value for each step, its number in the model, in the order in which they were taken from the start; bytes too few for a value
 * are no step. `rows` needs a place for each step. Returns an answer number: ELHAVIR_REPLAYED, with the number of rows as its steps, or a
 * refusal by the numbers 1 to 6, 8 to 10, 14 or 15. With ELHAVIR_BAD_STEP its steps are the first bad row, counted from 1.
 */
uint64_t elhavir_replay(const uint8_t *model, size_t model_len,
                        const uint8_t *cut_sheet, size_t cut_sheet_len,
                        const uint8_t *log, size_t log_len,
                        uint8_t *rows, size_t rows_len);

/* Kinds of a run's answer. A refusal is the same kind with a replay. */
#define ELHAVIR_REFUSED 0u /* value: the refusal number */
#define ELHAVIR_PLAN    1u /* value: the plan's cost; the rows are filled */
#define ELHAVIR_NO_PLAN 2u /* no list of steps reaches the goal; value 0 */
#define ELHAVIR_OPEN    3u /* the room was full, nothing else; value: the start's estimate, which no plan undercuts */

/* A question that was not refused. */
#define ELHAVIR_DONE 0u

/* The kind of a replay's answer that was not refused. Only elhavir_replay gives it: from elhavir_run the same number is a plan. */
#define ELHAVIR_REPLAYED 1u /* steps: the number of rows; value 0 */

/* Refusal numbers. elhavir_refusal_words has the same words at run time. */
#define ELHAVIR_ENDS_EARLY         1u /* the bytes, or a writer's lent input table, end before a field is complete */
#define ELHAVIR_BAD_FORM           2u /* form value not the expected one */
#define ELHAVIR_BAD_COUNT          3u /* columns not 1 to 16, or steps above 128 */
#define ELHAVIR_BAD_SIZE           4u /* a size not 1 to 32 */
#define ELHAVIR_BAD_START_OR_MARK  5u /* a start not below its size, or a mark above its size */
#define ELHAVIR_BAD_END            6u /* a fill bit is 1, or bytes follow the sheet */
#define ELHAVIR_BAD_ROOM           7u /* room not 1 to 256 */
#define ELHAVIR_TOO_FEW_PLACES     8u /* a lent table has too few places */
#define ELHAVIR_BAD_CUT            9u /* a cut names a block not yet made or a column that isn't there, or its set is not a
                                         non-empty proper part of the block's set; or a writer is given more than 255 cuts */
#define ELHAVIR_OTHER_MODEL       10u /* the model inside a cut sheet differs from the given one */
#define ELHAVIR_BAD_STATES        11u /* state bytes no multiple of the columns, more than 64 states, or a position not
                                         below its size */
#define ELHAVIR_BAD_STEP          14u /* an unknown step or one that cannot be taken */
#define ELHAVIR_TOO_MANY_STEPS    15u /* more than 255 steps */

/* The estimate of a state from which no way leads to the goal; every other estimate is smaller. */
#define ELHAVIR_NO_WAY 16777215u

/* A dash, in place of both the ground won and the detour: in a row whose state before or after has no way, and in every row after it. No row
 * wins or loses so much. */
#define ELHAVIR_DASH ((int32_t)ELHAVIR_NO_WAY)

/* Limits, for sizing buffers. What is accepted is decided by the library alone, so a program need not test against them. */
#define ELHAVIR_MAX_COLUMNS      16u
#define ELHAVIR_MAX_POSITIONS    32u
#define ELHAVIR_MAX_STEPS       128u
#define ELHAVIR_MAX_COST      65535u /* of one step, in tenths of a minute */
#define ELHAVIR_MAX_ROOM        256u
#define ELHAVIR_MAX_CUTS        255u /* and as many rows */
#define ELHAVIR_MAX_STATES       64u /* in one question */
#define ELHAVIR_MAX_LOG         255u /* steps in one replay, and as many rows */

#define ELHAVIR_MAX_MODEL_SHEET_BYTES 3365u
#define ELHAVIR_MAX_CUT_PART_BYTES    1404u
#define ELHAVIR_MAX_CUT_SHEET_BYTES   (ELHAVIR_MAX_MODEL_SHEET_BYTES + ELHAVIR_MAX_CUT_PART_BYTES)

/* Stack that has to be free when an entry is called. Some 52,500 bytes were measured, and 55,700 in a first call, where memcpy and memset are bound
 * at that moment; this leaves a margin. */
#define ELHAVIR_STACK_BYTES 65536u

/* Bytes of one place of a list: each value is four bytes, most significant first. */
#define ELHAVIR_VALUE_BYTES       4u
#define ELHAVIR_CUT_BYTES        12u /* block, column, wanted set */
#define ELHAVIR_ROW_BYTES        12u /* step, tenths, tenths left after it */
#define ELHAVIR_ESTIMATE_BYTES    4u
#define ELHAVIR_STEP_BYTES        4u /* one step of a log */
#define ELHAVIR_REPLAY_ROW_BYTES 12u /* tenths paid, ground won, detour; signed, in two's complement */

/* An answer number is kind * 2^56 + blocks * 2^44 + steps * 2^32 + value. */

static inline uint32_t elhavir_answer_kind(uint64_t answer)
{
    return (uint32_t)(answer >> 56);
}

/* A run's number of blocks, which is the number of cuts made plus one; 0 with a refusal and with a replay. */
static inline uint32_t elhavir_answer_blocks(uint64_t answer)
{
    return (uint32_t)(answer >> 44) & 4095u;
}

/* The number of rows: the steps of a plan, or those of a log that was replayed. With ELHAVIR_BAD_STEP the first bad row, counted from 1;
 * 0 with every other answer. */
static inline uint32_t elhavir_answer_steps(uint64_t answer)
{
    return (uint32_t)(answer >> 32) & 4095u;
}

/* A plan's cost, an open answer's estimate, or a refusal's number; 0 with every other answer. */
static inline uint32_t elhavir_answer_value(uint64_t answer)
{
    return (uint32_t)(answer & 0xffffffffu);
}

/* Reads one value of a list. */
static inline uint32_t elhavir_get_value(const uint8_t *at)
{
    return (uint32_t)at[0] << 24 | (uint32_t)at[1] << 16 | (uint32_t)at[2] << 8 | (uint32_t)at[3];
}

/* Writes one value of a list. */
static inline void elhavir_put_value(uint8_t *at, uint32_t value)
{
    at[0] = (uint8_t)(value >> 24);
    at[1] = (uint8_t)(value >> 16 & 255u);
    at[2] = (uint8_t)(value >> 8 & 255u);
    at[3] = (uint8_t)(value & 255u);
}

/* Reads one signed value of a list. What a cast gives where int32_t cannot hold the number is left to the compiler, so the casts here are
 * of numbers that it holds. */
static inline int32_t elhavir_get_signed_value(const uint8_t *at)
{
    uint32_t value = elhavir_get_value(at);
    return value <= 0x7fffffffu ? (int32_t)value : -(int32_t)(0xffffffffu - value) - 1;
}

/* One place of a list of cuts. Position p of the wanted set has weight 2^p. */
typedef struct elhavir_cut {
    uint32_t block;
    uint32_t column;
    uint32_t wanted;
} elhavir_cut;

/* One place of a list of rows. */
typedef struct elhavir_row {
    uint32_t step;
    uint32_t tenths;
    uint32_t tenths_left;
} elhavir_row;

/* One place of a replay's list of rows, in tenths of a minute. */
typedef struct elhavir_replay_row {
    int32_t paid;   /* the cost of the row's step, with a dash too */
    int32_t won;    /* the estimate before less the estimate after, which may be below zero, or ELHAVIR_DASH */
    int32_t detour; /* paid less won, never below zero, or ELHAVIR_DASH */
} elhavir_replay_row;

/* Reads cut i, counted from 0; there are elhavir_answer_blocks less 1 of them. */
static inline elhavir_cut elhavir_get_cut(const uint8_t *cuts, size_t i)
{
    const uint8_t *at = cuts + i * ELHAVIR_CUT_BYTES;
    elhavir_cut cut;
    cut.block = elhavir_get_value(at);
    cut.column = elhavir_get_value(at + ELHAVIR_VALUE_BYTES);
    cut.wanted = elhavir_get_value(at + 2 * ELHAVIR_VALUE_BYTES);
    return cut;
}

/* Reads row i, counted from 0; there are elhavir_answer_steps of them. */
static inline elhavir_row elhavir_get_row(const uint8_t *rows, size_t i)
{
    const uint8_t *at = rows + i * ELHAVIR_ROW_BYTES;
    elhavir_row row;
    row.step = elhavir_get_value(at);
    row.tenths = elhavir_get_value(at + ELHAVIR_VALUE_BYTES);
    row.tenths_left = elhavir_get_value(at + 2 * ELHAVIR_VALUE_BYTES);
    return row;
}

/* Reads row i of a replay, counted from 0; there are elhavir_answer_steps of them. */
static inline elhavir_replay_row elhavir_get_replay_row(const uint8_t *rows, size_t i)
{
    const uint8_t *at = rows + i * ELHAVIR_REPLAY_ROW_BYTES;
    elhavir_replay_row row;
    row.paid = elhavir_get_signed_value(at);
    row.won = elhavir_get_signed_value(at + ELHAVIR_VALUE_BYTES);
    row.detour = elhavir_get_signed_value(at + 2 * ELHAVIR_VALUE_BYTES);
    return row;
}

/* What a refusal number means. */
static inline const char *elhavir_refusal_words(uint32_t number)
{
    switch (number) {
    case ELHAVIR_ENDS_EARLY: return "the bytes, or a writer's lent input table, end before a field is complete";
    case ELHAVIR_BAD_FORM: return "form value not the expected one";
    case ELHAVIR_BAD_COUNT: return "columns not 1 to 16, or steps above 128";
    case ELHAVIR_BAD_SIZE: return "a size not 1 to 32";
    case ELHAVIR_BAD_START_OR_MARK: return "a start not below its size, or a mark above its size";
    case ELHAVIR_BAD_END: return "a fill bit is 1, or bytes follow the sheet";
    case ELHAVIR_BAD_ROOM: return "room not 1 to 256";
    case ELHAVIR_TOO_FEW_PLACES: return "a lent table has too few places";
    case ELHAVIR_BAD_CUT: return "a cut names a block not yet made or a column that isn't there, or its set is not a "
                                 "non-empty proper part of the block's set; or a writer is given more than 255 cuts";
    case ELHAVIR_OTHER_MODEL: return "the model inside a cut sheet differs from the given one";
    case ELHAVIR_BAD_STATES: return "state bytes no multiple of the columns, more than 64 states, or a position not "
                                    "below its size";
    case ELHAVIR_BAD_STEP: return "an unknown step or one that cannot be taken";
    case ELHAVIR_TOO_MANY_STEPS: return "more than 255 steps";
    default: return "no refusal number";
    }
}

#ifdef __cplusplus
}
#endif

#endif
