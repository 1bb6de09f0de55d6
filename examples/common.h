/*
 * What the example programs have in common: a number and a model sheet read, the run made, its cuts written as a cut sheet, words said
 * on standard error. Each program sets `program` to its name first.
 */
#ifndef COMMON_H
#define COMMON_H

#include <errno.h>
#include <inttypes.h>
#include <stdarg.h>
#include <stdint.h>
#include <stdio.h>
#include <string.h>

#include "elhavir.h"

enum { ANSWERED = 0, REFUSED = 1, FAILED = 2 };

static const char *program;

/* A model sheet as it stands in its file. One byte more than any sheet has, so that the library sees a file that is too long. */
struct sheet {
    uint8_t bytes[ELHAVIR_MAX_MODEL_SHEET_BYTES + 1];
    size_t length;
};

/* A run's answer number and the lists it filled, with places for the largest room. */
struct run {
    uint64_t answer;
    uint8_t cuts[ELHAVIR_MAX_CUTS * ELHAVIR_CUT_BYTES];
    uint8_t rows[ELHAVIR_MAX_CUTS * ELHAVIR_ROW_BYTES];
};

/* Says what is wrong on standard error. */
static int failed(const char *format, ...)
{
    va_list words;
    va_start(words, format);
    fprintf(stderr, "%s: ", program);
    vfprintf(stderr, format, words);
    fputc('\n', stderr);
    va_end(words);
    return FAILED;
}

static int print_refusal(uint32_t number)
{
    printf("refused %" PRIu32 "\n", number);
    /* so that the two lines stand in this order where both go to one place */
    fflush(stdout);
    failed("refused %" PRIu32 ": %s", number, elhavir_refusal_words(number));
    return REFUSED;
}

/* Reads decimal digits from *text up to `end`. Signs, blanks and numbers above `most` are not taken. */
static int read_number(const char **text, char end, uint32_t most, uint32_t *number)
{
    const char *at = *text;
    uint64_t value = 0;
    while (*at >= '0' && *at <= '9') {
        value = 10 * value + (uint64_t)(*at - '0');
        if (value > most)
            return 0;
        at++;
    }
    if (at == *text || *at != end)
        return 0;
    *text = at;
    *number = (uint32_t)value;
    return 1;
}

static int read_sheet(const char *name, struct sheet *sheet)
{
    FILE *file = fopen(name, "rb");
    int bad;
    if (file == NULL)
        return failed("cannot open %s: %s", name, strerror(errno));
    sheet->length = fread(sheet->bytes, 1, sizeof sheet->bytes, file);
    bad = ferror(file);
    fclose(file);
    if (bad)
        return failed("cannot read %s", name);
    if (sheet->length > ELHAVIR_MAX_MODEL_SHEET_BYTES)
        failed("%s is too long: no model sheet has more than %u bytes", name, ELHAVIR_MAX_MODEL_SHEET_BYTES);
    return ANSWERED;
}

/* Reads the model sheet of a file and makes the run with the room of a text. */
static int make_run(const char *name, const char *text, struct sheet *model, struct run *run)
{
    const char *at = text;
    uint32_t room;
    if (!read_number(&at, '\0', UINT32_MAX, &room))
        return failed("bad room '%s': expected a number of blocks", text);
    if (read_sheet(name, model) != ANSWERED)
        return FAILED;
    run->answer = elhavir_run(model->bytes, model->length, room, run->cuts, sizeof run->cuts, run->rows, sizeof run->rows);
    if (elhavir_answer_kind(run->answer) == ELHAVIR_REFUSED)
        return print_refusal(elhavir_answer_value(run->answer));
    return ANSWERED;
}

/* Sets the next `width` bits, most significant first. The bytes were all zero, so the last one is filled up with zero bits. */
static void put_field(uint8_t *bytes, size_t *used, unsigned width, uint32_t value)
{
    while (width-- > 0) {
        if (value >> width & 1)
            bytes[*used / 8] |= (uint8_t)(128 >> *used % 8);
        ++*used;
    }
}

/* Writes the model sheet and from the next byte the cut part; returns the number of bytes. */
static size_t write_cut_sheet(const struct sheet *model, const struct run *run, uint8_t *bytes)
{
    uint32_t cuts = elhavir_answer_blocks(run->answer) - 1;
    size_t used = 8 * model->length;
    uint32_t i;
    memset(bytes, 0, ELHAVIR_MAX_CUT_SHEET_BYTES);
    memcpy(bytes, model->bytes, model->length);
    put_field(bytes, &used, 4, 2);
    put_field(bytes, &used, 8, cuts);
    for (i = 0; i < cuts; i++) {
        elhavir_cut cut = elhavir_get_cut(run->cuts, i);
        put_field(bytes, &used, 8, cut.block);
        put_field(bytes, &used, 4, cut.column);
        put_field(bytes, &used, 32, cut.wanted);
    }
    return (used + 7) / 8;
}

/* The exit status, once everything that was printed is written. */
static int ended(int status)
{
    if (fflush(stdout) != 0 || ferror(stdout))
        return failed("cannot write the answer");
    return status;
}

#endif
