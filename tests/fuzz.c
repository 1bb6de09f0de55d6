/* The fuzz target over the C entries, with the independent planner beside.
 *
 * An input is a call:
 *   run       0, room (4 bytes), slack of cuts and of rows (1 byte each, signed), then the sheet
 *   question  1, lengths of model, states and estimates (2 bytes each), then model, states and cut part
 *   replay    2, lengths of model, log and rows (2 bytes each), then model, log and cut part
 * The lowest two bits of the first byte say which (3 is a replay too); the next two say where the lent memory lies: before
 * a page that faults, after one, or in a heap block of exactly its size, which AddressSanitizer and valgrind watch. With
 * the fifth bit (16) the rest of a question or of a replay is the whole cut sheet.
 *
 * With -fsanitize=fuzzer this is a target for libFuzzer. With -DDRIVER it has a main of its own that goes through the
 * files it is given and then through changed ones by seed: driver [heap] [alone] SEED ROUNDS FILE..
 * heap takes heap blocks always; alone leaves the comparison out (valgrind is slow enough). They are words and no variables
 * of the environment, so that nobody's shell leaves the comparison out where it belongs. */

#include <stddef.h>
#include <stdint.h>
#include <stdio.h>
#include <stdlib.h>
#include <string.h>
#include <sys/mman.h>

#include "elhavir.h"

/* Said again here, so that a header that says otherwise does not compile. */
uint64_t elhavir_run(const uint8_t *sheet, size_t sheet_len, uint32_t room, uint8_t *cuts, size_t cuts_len,
                     uint8_t *rows, size_t rows_len);
uint32_t elhavir_question(const uint8_t *model, size_t model_len, const uint8_t *cut_sheet, size_t cut_sheet_len,
                          const uint8_t *states, size_t states_len, uint8_t *estimates, size_t estimates_len);
uint64_t elhavir_replay(const uint8_t *model, size_t model_len, const uint8_t *cut_sheet, size_t cut_sheet_len,
                        const uint8_t *log, size_t log_len, uint8_t *rows, size_t rows_len);
uint64_t judge_run(const uint8_t *sheet, size_t sheet_len, uint32_t room, uint8_t *cuts, size_t cuts_len,
                   uint8_t *rows, size_t rows_len);
uint32_t judge_question(const uint8_t *model, size_t model_len, const uint8_t *cut_sheet, size_t cut_sheet_len,
                        const uint8_t *states, size_t states_len, uint8_t *estimates, size_t estimates_len);
uint64_t judge_replay(const uint8_t *model, size_t model_len, const uint8_t *cut_sheet, size_t cut_sheet_len,
                      const uint8_t *log, size_t log_len, uint8_t *rows, size_t rows_len);

enum { PAGE = 4096, SIZE = 4 * PAGE, SLICES = 4, LONGEST = 6000, CANARY = 0xc5 };
enum where { BEFORE_GUARD, AFTER_GUARD, HEAP };

/* One lent slice: its bytes as lent, and where they are lent. */
struct slice {
    uint8_t bytes[SIZE];
    size_t length;
    uint8_t *guarded; /* SIZE bytes between two pages that fault */
    uint8_t *lent;
    enum where where;
};

static struct slice slices[SLICES];
static int heap, alone;
enum entry { RUN, QUESTION, REPLAY, ENTRIES };
static unsigned long calls[ENTRIES]; /* an input too short to be a call makes none */

static void guard(struct slice *slice) {
    uint8_t *whole = mmap(NULL, SIZE + 2 * PAGE, PROT_NONE, MAP_PRIVATE | MAP_ANONYMOUS, -1, 0);
    if (whole == MAP_FAILED || mprotect(whole + PAGE, SIZE, PROT_READ | PROT_WRITE) != 0) {
        perror("fuzz: memory");
        exit(2);
    }
    slice->guarded = whole + PAGE;
}

static void lend(struct slice *slice, enum where where) {
    if (slice->guarded == NULL) guard(slice);
    slice->where = where;
    if (where == HEAP) {
        slice->lent = malloc(slice->length);
    } else {
        memset(slice->guarded, CANARY, SIZE);
        slice->lent = slice->guarded + (where == BEFORE_GUARD ? SIZE - slice->length : 0);
    }
    if (slice->length > 0) memcpy(slice->lent, slice->bytes, slice->length);
}

static void fail(const char *what, uint64_t seen, uint64_t expected) {
    printf("fuzz: %s: %#llx, expected %#llx\n", what, (unsigned long long)seen, (unsigned long long)expected);
    fflush(stdout);
    abort();
}

/* The slice holds what it should, and nothing beside it was changed. */
static void give_back(struct slice *slice, const uint8_t *wanted, const char *name) {
    if (slice->length > 0 && wanted != NULL && memcmp(slice->lent, wanted, slice->length) != 0) {
        size_t place = 0;
        while (slice->lent[place] == wanted[place]) place++;
        printf("fuzz: %s, byte %zu\n", name, place);
        fail("a byte of a slice", slice->lent[place], wanted[place]);
    }
    if (slice->where == HEAP) {
        free(slice->lent);
        return;
    }
    for (size_t place = 0; place < SIZE; place++) {
        uint8_t *byte = slice->guarded + place;
        int inside = byte >= slice->lent && byte < slice->lent + slice->length;
        if (!inside && *byte != CANARY) fail("a byte beside a slice", *byte, CANARY);
    }
}

static size_t number(const uint8_t *bytes, int count) {
    size_t value = 0;
    for (int place = 0; place < count; place++) value = value * 256 + bytes[place];
    return value;
}

static void put(struct slice *slice, const uint8_t *bytes, size_t length) {
    slice->length = length;
    if (length > 0) memcpy(slice->bytes, bytes, length);
}

/* A list as it comes: bytes that are no answer. */
static void put_list(struct slice *slice, size_t length) {
    slice->length = length;
    for (size_t place = 0; place < length; place++) slice->bytes[place] = (uint8_t)(place * 37 + 11);
}

static void one_run(const uint8_t *data, size_t size, enum where where) {
    if (size < 7) return;
    calls[RUN]++;
    uint32_t room = (uint32_t)number(data + 1, 4);
    long needed = (long)((room - 1) & 255) * 12;
    long cuts = needed + (int8_t)data[5], rows = needed + (int8_t)data[6];
    struct slice *sheet = &slices[0], *cut_list = &slices[1], *row_list = &slices[2];
    put(sheet, data + 7, size - 7);
    put_list(cut_list, cuts < 0 ? 0 : (size_t)cuts);
    put_list(row_list, rows < 0 ? 0 : (size_t)rows);
    for (int place = 0; place < 3; place++) lend(&slices[place], where);
    uint64_t seen = elhavir_run(sheet->lent, sheet->length, room, cut_list->lent, cut_list->length, row_list->lent,
                                row_list->length);
    give_back(sheet, sheet->bytes, "sheet");
    if (!alone) {
        uint64_t expected = judge_run(sheet->bytes, sheet->length, room, cut_list->bytes, cut_list->length,
                                      row_list->bytes, row_list->length);
        if (seen != expected) fail("answer of a run", seen, expected);
    }
    give_back(cut_list, alone ? NULL : cut_list->bytes, "cuts");
    give_back(row_list, alone ? NULL : row_list->bytes, "rows");
}

/* The four slices of a question or of a replay: model, cut sheet, states or log, and a list. */
static void lend_four(const uint8_t *data, size_t size, enum where where) {
    struct slice *model = &slices[0], *cut_sheet = &slices[1], *asked = &slices[2], *list = &slices[3];
    const uint8_t *rest = data + 7;
    size_t left = size - 7, model_len = number(data + 1, 2), asked_len = number(data + 3, 2);
    if (model_len > left) model_len = left;
    put(model, rest, model_len);
    rest += model_len, left -= model_len;
    if (asked_len > left) asked_len = left;
    put(asked, rest, asked_len);
    rest += asked_len, left -= asked_len;
    size_t copied = data[0] & 16 ? 0 : model_len;
    memcpy(cut_sheet->bytes, model->bytes, copied);
    memcpy(cut_sheet->bytes + copied, rest, left);
    cut_sheet->length = copied + left;
    put_list(list, number(data + 5, 2) % PAGE);
    for (int place = 0; place < 4; place++) lend(&slices[place], where);
}

static void one_question(const uint8_t *data, size_t size, enum where where) {
    if (size < 7) return;
    calls[QUESTION]++;
    lend_four(data, size, where);
    struct slice *model = &slices[0], *cut_sheet = &slices[1], *states = &slices[2], *list = &slices[3];
    uint32_t seen = elhavir_question(model->lent, model->length, cut_sheet->lent, cut_sheet->length, states->lent,
                                     states->length, list->lent, list->length);
    give_back(model, model->bytes, "model");
    give_back(cut_sheet, cut_sheet->bytes, "cut sheet");
    give_back(states, states->bytes, "states");
    if (!alone) {
        uint32_t expected = judge_question(model->bytes, model->length, cut_sheet->bytes, cut_sheet->length,
                                           states->bytes, states->length, list->bytes, list->length);
        if (seen != expected) fail("answer of a question", seen, expected);
    }
    give_back(list, alone ? NULL : list->bytes, "estimates");
}

static void one_replay(const uint8_t *data, size_t size, enum where where) {
    if (size < 7) return;
    calls[REPLAY]++;
    lend_four(data, size, where);
    struct slice *model = &slices[0], *cut_sheet = &slices[1], *log = &slices[2], *rows = &slices[3];
    uint64_t seen = elhavir_replay(model->lent, model->length, cut_sheet->lent, cut_sheet->length, log->lent,
                                   log->length, rows->lent, rows->length);
    give_back(model, model->bytes, "model");
    give_back(cut_sheet, cut_sheet->bytes, "cut sheet");
    give_back(log, log->bytes, "log");
    if (!alone) {
        uint64_t expected = judge_replay(model->bytes, model->length, cut_sheet->bytes, cut_sheet->length, log->bytes,
                                         log->length, rows->bytes, rows->length);
        if (seen != expected) fail("answer of a replay", seen, expected);
    }
    give_back(rows, alone ? NULL : rows->bytes, "rows");
}

int LLVMFuzzerTestOneInput(const uint8_t *data, size_t size) {
    if (size < 1 || size > LONGEST) return 0;
    enum where where = heap ? HEAP : (enum where)((data[0] >> 2 & 3) % 3);
    switch (data[0] & 3) {
    case 0: one_run(data, size, where); break;
    case 1: one_question(data, size, where); break;
    default: one_replay(data, size, where);
    }
    return 0;
}

#ifdef DRIVER
#include <signal.h>
#include <unistd.h>

static uint8_t input[LONGEST];
static size_t input_size;
static uint64_t chance;

static uint32_t below(uint32_t count) {
    chance ^= chance << 13, chance ^= chance >> 7, chance ^= chance << 17;
    return (uint32_t)(chance >> 20) % count;
}

/* The input that made it fall, in hex; only calls that a handler may make. */
static void fell(int signal_number) {
    static const char digits[] = "0123456789abcdef";
    static const char words[] = "fuzz: fell on input ";
    (void)signal_number;
    if (write(1, words, sizeof words - 1) < 0) _exit(1);
    for (size_t place = 0; place < input_size; place++) {
        char pair[2] = {digits[input[place] >> 4], digits[input[place] & 15]};
        if (write(1, pair, 2) < 0) break;
    }
    _exit(write(1, "\n", 1) < 0 ? 2 : 1);
}

static int read_file(const char *path) {
    FILE *file = fopen(path, "rb");
    if (file == NULL) {
        perror(path);
        return 0;
    }
    input_size = fread(input, 1, LONGEST, file);
    fclose(file);
    return 1;
}

/* A few bytes changed, the end cut off, or bytes more. */
static void change(void) {
    for (uint32_t times = 1 + below(4); times > 0 && input_size > 0; times--) {
        uint32_t place = below((uint32_t)input_size);
        switch (below(8)) {
        case 0: input[place] = (uint8_t)below(256); break;
        case 1: input_size = below((uint32_t)input_size) + 1; break;
        case 2:
            if (input_size < LONGEST) input[input_size++] = (uint8_t)below(256);
            break;
        case 3: input[0] = (uint8_t)(input[0] ^ (below(4) << 2)); break;
        default: input[place] ^= (uint8_t)(1 << below(8));
        }
    }
}

int main(int count, char **words) {
    for (; count > 1 && strcmp(words[1], "heap") == 0; words++, count--) heap = 1;
    for (; count > 1 && strcmp(words[1], "alone") == 0; words++, count--) alone = 1;
    unsigned long rounds = count < 4 ? 0 : strtoul(words[2], NULL, 10);
    if (rounds == 0) {
        fprintf(stderr, "driver [heap] [alone] SEED ROUNDS FILE.., with 1 round at least\n");
        return 2;
    }
    chance = strtoull(words[1], NULL, 10) * 2 + 1;
    int fatal[] = {SIGSEGV, SIGBUS, SIGABRT, SIGILL, SIGFPE};
    for (size_t place = 0; place < sizeof fatal / sizeof *fatal; place++) signal(fatal[place], fell);
    for (int file = 3; file < count; file++) {
        if (!read_file(words[file])) return 2;
        LLVMFuzzerTestOneInput(input, input_size);
    }
    for (; rounds > 0; rounds--) {
        if (!read_file(words[3 + below((uint32_t)(count - 3))])) return 2;
        change();
        LLVMFuzzerTestOneInput(input, input_size);
    }
    printf("fuzz: %lu runs, %lu questions, %lu replays, %s\n", calls[RUN], calls[QUESTION], calls[REPLAY],
           alone ? "not compared" : "0 differences");
    return calls[RUN] == 0 || calls[QUESTION] == 0 || calls[REPLAY] == 0;
}
#endif
