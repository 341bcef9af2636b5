/* Calls every exported function from C: work that is done, each refusal that it can give, and what the lent buffers hold then. */
#include "quelbrift.h"

#include <stdio.h>
#include <string.h>

static unsigned passed;
static unsigned failed;
/* Which of several like calls is being checked; printed with a failure. */
static size_t call;

static void expect(int holds, const char *expression, int line)
{
    if (holds) {
        passed++;
        return;
    }
    failed++;
    printf("smoke.c:%d: failed (call %zu): %s\n", line, call, expression);
}

/* One part of an answer. */
static void expect_part(uint64_t is, uint64_t expected, const char *part, const char *expression, int line)
{
    expect(is == expected, expression, line);
    if (is != expected) {
        printf("    %s is %llu, expected %llu\n", part, (unsigned long long)is, (unsigned long long)expected);
    }
}

static void expect_answer(quelbrift_answer is, quelbrift_answer expected, const char *expression, int line)
{
    expect_part(is.number, expected.number, "number", expression, line);
    expect_part(is.place, expected.place, "place", expression, line);
    expect_part(is.first, expected.first, "first", expression, line);
    expect_part(is.second, expected.second, "second", expression, line);
    expect_part(is.third, expected.third, "third", expression, line);
}

#define EXPECT(expression) expect((expression) != 0, #expression, __LINE__)
#define EXPECT_ANSWER(answer, ...) expect_answer((answer), (quelbrift_answer){__VA_ARGS__}, #answer, __LINE__)
#define EXPECT_DONE(answer, first, second) EXPECT_ANSWER(answer, QUELBRIFT_DONE, 0, first, second, 0)
#define EXPECT_REFUSED(answer, number, place) EXPECT_ANSWER(answer, number, place, 0, 0, 0)
#define LENGTH(array) (sizeof(array) / sizeof *(array))

/* A table, its words node by node, and its refusal by the check, if any. */
typedef struct {
    uint32_t variables;
    uint32_t nodes;
    size_t length;
    uint32_t words[11][11];
    uint32_t number;
    uint64_t place;
} table;

/* (pick 0 (no 1) (pick 1 (yes 2) (true))): 5 models, clearances -0 -1, +0 +1, +0 +2, -1 +2, blockers -0 +1, +0 -1 -2. */
static const table worked = {3, 5, 55, {{3, 1}, {2, 2}, {1}, {4, 1, 2, 1, 2}, {4, 0, 2, 0, 3}}, 0, 0};
static const char worked_nested[] = "(circuit 3)\n(pick 0 (no 1) (pick 1 (yes 2) (true)))\n";
static const char worked_lines[] =
    "(circuit 3)\n(no 1)\n(yes 2)\n(true)\n(pick 1 (line 1) (line 2))\n(pick 0 (line 0) (line 3))\n";

/* A conjunction of eight: 3 models, clearances +0 +1 and +0 +2, each with -3 to -8; blockers -0, +3 to +8 each alone, -1 -2. */
static const table eight = {
    9, 11, 121,
    {{2, 0}, {2, 2}, {1}, {4, 1, 2, 1, 2}, {3, 3}, {3, 4}, {3, 5}, {3, 6}, {3, 7}, {3, 8}, {5, 0, 8, 0, 3, 4, 5, 6, 7, 8, 9}}, 0, 0};
static const char eight_nested[] =
    "(circuit 9)\n(both (yes 0) (pick 1 (yes 2) (true)) (no 3) (no 4) (no 5) (no 6) (no 7) (no 8))\n";
static const char eight_lines[] =
    "(circuit 9)\n(yes 0)\n(yes 2)\n(true)\n(pick 1 (line 1) (line 2))\n(no 3)\n(no 4)\n(no 5)\n(no 6)\n(no 7)\n(no 8)\n"
    "(both (line 0) (line 3) (line 4) (line 5) (line 6) (line 7) (line 8) (line 9))\n";

static const table refused[] = {
    {0, 1, 11, {{1}}, QUELBRIFT_SIZES, 0},
    {41, 1, 11, {{1}}, QUELBRIFT_SIZES, 0},
    {1, 0, 11, {{1}}, QUELBRIFT_SIZES, 0},
    {1, 1025, 110, {{1}}, QUELBRIFT_SIZES, 0},
    {1, UINT32_MAX, 110, {{1}}, QUELBRIFT_SIZES, 0},
    {1, 2, 21, {{1}}, QUELBRIFT_SIZES, 0},
    {1, 1, 11, {{6}}, QUELBRIFT_MALFORMED, 0},
    {1, 2, 22, {{1}, {2, 1}}, QUELBRIFT_MALFORMED, 1},
    {1, 2, 22, {{1}, {5, 0, 2, 0, 1}}, QUELBRIFT_MALFORMED, 1},
    {1, 2, 22, {{1}, {5, 0, 8, 0, 0, 0, 0, 0, 0, 0, 1}}, QUELBRIFT_MALFORMED, 1},
    {1, 2, 22, {{1}, {5, 0, 7, 0, 0, 0, 0, 0, 0, 0, 1}}, QUELBRIFT_MALFORMED, 1},
    {1, 2, 22, {{1}, {5}}, QUELBRIFT_MALFORMED, 1},
    {1, 2, 22, {{1}, {5, 0, 1}}, QUELBRIFT_MALFORMED, 1},
    {1, 2, 22, {{1}, {5, 0, 9}}, QUELBRIFT_MALFORMED, 1},
    {1, 2, 22, {{1}, {5, 0, UINT32_MAX}}, QUELBRIFT_MALFORMED, 1},
    {1, 2, 22, {{1}, {4, 0, 1}}, QUELBRIFT_MALFORMED, 1},
    {1, 2, 22, {{1}, {4, 0, 3}}, QUELBRIFT_MALFORMED, 1},
    {1, 2, 22, {{1, 0, 1}, {5, 0, 2}}, QUELBRIFT_MALFORMED, 0},
    {1, 2, 22, {{1, 0, 0, 1}, {5, 0, 2}}, QUELBRIFT_MALFORMED, 0},
    {1, 2, 22, {{2}, {3}}, QUELBRIFT_PARENTLESS, 0},
    {1, 3, 33, {{2}, {3}, {5, 0, 2, 0, 1}}, QUELBRIFT_UNDECOMPOSABLE, 2},
    {1, 3, 33, {{2}, {1}, {5, 0, 3, 0, 1, 0}}, QUELBRIFT_UNDECOMPOSABLE, 2},
    {1, 3, 33, {{2}, {1}, {4, 0, 2, 0, 1}}, QUELBRIFT_UNDECOMPOSABLE, 2},
    {1, 3, 33, {{0}, {0}, {4, 0, 2, 0, 1}}, QUELBRIFT_UNREDUCED, 2},
    {1, 3, 33, {{0}, {1}, {5, 0, 2, 0, 1}}, QUELBRIFT_UNREDUCED, 2},
    {1, 3, 33, {{1}, {0}, {5, 0, 3, 0, 0, 1}}, QUELBRIFT_UNREDUCED, 2},
};

#define TABLE(table) (const uint32_t *)(table)->words, (table)->length, (table)->variables, (table)->nodes
#define FOR_EACH_REFUSED(row) \
    for (const table *row = refused; call = (size_t)(row - refused), row < refused + LENGTH(refused); row++)

/* Whether all bytes of a buffer are the same one. */
static int all_bytes(const void *buffer, size_t size, unsigned char byte)
{
    const unsigned char *bytes = buffer;
    for (size_t i = 0; i < size; i++) {
        if (bytes[i] != byte) {
            return 0;
        }
    }
    return 1;
}

typedef struct {
    const char *text;
    size_t words;
    uint32_t number;
    uint64_t place;
} refused_text;

static const char seventeen_deep[] =
    "(circuit 1)\n(both (both (both (both (both (both (both (both (both (both (both (both (both (both (both (both (true)";
static const char nine_forms[] =
    "(circuit 1)\n(true)\n(both (line 0) (line 0) (line 0) (line 0) (line 0) (line 0) (line 0) (line 0) (line 0))\n";

static const refused_text refused_texts[] = {
    {"", 22, QUELBRIFT_SHAPE, 0},
    {"(circuit 1)\n", 22, QUELBRIFT_SHAPE, 12},
    {"(circuit 1)\n(line 0)\n", 22, QUELBRIFT_SHAPE, 13},
    {"(circuit 07)\n(true)\n", 22, QUELBRIFT_SHAPE, 10},
    {"(circuit 12345)\n(true)\n", 22, QUELBRIFT_SHAPE, 13},
    {"(circuit 1)\n(true)", 22, QUELBRIFT_SHAPE, 18},
    {"(circuit 1)\n(both (true))\n", 22, QUELBRIFT_SHAPE, 24},
    {nine_forms, 22, QUELBRIFT_SHAPE, 24 + 8 * 9},
    {"(circuit 41)\n(true)\n", 22, QUELBRIFT_RANGE, 11},
    {"(circuit 0)\n(true)\n", 22, QUELBRIFT_RANGE, 10},
    {"(circuit 3)\n(yes 3)\n", 0, QUELBRIFT_RANGE, 18},
    {"(circuit 3)\n(both (line 0) (true))\n", 22, QUELBRIFT_REFERENCE, 25},
    {seventeen_deep, 22, QUELBRIFT_DEPTH, 12 + 16 * 6},
    {"(circuit 3)\n(yes 2)\n", 10, QUELBRIFT_NODES, 18},
    {"(circuit 3)\n(true)\n(true)\n(true)\n", 32, QUELBRIFT_NODES, 31},
};

static void check_read_refusals(void)
{
    static char longest[110001];
    uint32_t words[33];
    for (call = 0; call < LENGTH(refused_texts); call++) {
        const refused_text *row = &refused_texts[call];
        memset(words, 0xa5, sizeof words);
        EXPECT_REFUSED(quelbrift_read((const uint8_t *)row->text, strlen(row->text), words, row->words), row->number, row->place);
        EXPECT(all_bytes(words, row->words * sizeof *words, 0));
        EXPECT(all_bytes(words + row->words, sizeof words - row->words * sizeof *words, 0xa5));
    }
    memset(words, 0xa5, sizeof words);
    EXPECT_REFUSED(quelbrift_read((const uint8_t *)longest, 110001, words, 32), QUELBRIFT_LENGTH, 110000);
    EXPECT_REFUSED(quelbrift_read((const uint8_t *)longest, 110000, words, 32), QUELBRIFT_SHAPE, 0);
    EXPECT(all_bytes(words, 32 * sizeof *words, 0));
    EXPECT(words[32] == 0xa5a5a5a5u);
}

static void check_read(void)
{
    uint32_t words[66];
    const char *const texts[] = {worked_nested, worked_lines};
    for (call = 0; call < LENGTH(texts); call++) {
        memset(words, 0xa5, sizeof words);
        EXPECT_DONE(quelbrift_read((const uint8_t *)texts[call], strlen(texts[call]), words, 65), 3, 5);
        EXPECT(memcmp(words, worked.words, 55 * sizeof *words) == 0);
        EXPECT(all_bytes(words + 55, 10 * sizeof *words, 0));
        EXPECT(words[65] == 0xa5a5a5a5u);
    }
    check_read_refusals();
}

static void check_write(void)
{
    const size_t length = sizeof worked_lines - 1;
    uint8_t sink[128];
    memset(sink, 0xa5, sizeof sink);
    EXPECT_REFUSED(quelbrift_write(TABLE(&worked), sink, length - 1), QUELBRIFT_SINK, length);
    EXPECT_REFUSED(quelbrift_write(TABLE(&worked), sink, 0), QUELBRIFT_SINK, length);
    FOR_EACH_REFUSED(row) {
        if (row->number <= QUELBRIFT_MALFORMED) {
            EXPECT_REFUSED(quelbrift_write(TABLE(row), sink, sizeof sink), row->number, row->place);
        }
    }
    EXPECT(all_bytes(sink, sizeof sink, 0xa5));
    EXPECT_DONE(quelbrift_write(TABLE(&worked), sink, sizeof sink), length, 0);
    EXPECT(memcmp(sink, worked_lines, length) == 0);
    EXPECT(all_bytes(sink + length, sizeof sink - length, 0xa5));
    memset(sink, 0xa5, sizeof sink);
    EXPECT_DONE(quelbrift_write(TABLE(&worked), sink, length), length, 0);
    EXPECT(memcmp(sink, worked_lines, length) == 0);
    EXPECT(all_bytes(sink + length, sizeof sink - length, 0xa5));
}

/* A table that the check refuses with 23 to 25 is written all the same, and read in again. */
static void check_write_unaccepted(void)
{
    FOR_EACH_REFUSED(row) {
        uint8_t sink[128];
        uint32_t words[121];
        if (row->number > QUELBRIFT_MALFORMED) {
            quelbrift_answer written = quelbrift_write(TABLE(row), sink, sizeof sink);
            EXPECT(written.number == QUELBRIFT_DONE);
            EXPECT_DONE(quelbrift_read(sink, written.first, words, LENGTH(words)), row->variables, row->nodes);
            EXPECT(memcmp(words, row->words, sizeof words) == 0);
        }
    }
}

static void check_check(void)
{
    table copy = worked;
    EXPECT_DONE(quelbrift_check(TABLE(&copy)), 0, 0);
    EXPECT(memcmp(copy.words, worked.words, sizeof worked.words) == 0);
    FOR_EACH_REFUSED(row) {
        EXPECT_REFUSED(quelbrift_check(TABLE(row)), row->number, row->place);
    }
}

static void check_evaluate(void)
{
    /* By assignment: where variable 0 is false, not variable 1; else variable 1 or variable 2. */
    static const uint64_t allowed[8] = {1, 0, 0, 1, 1, 1, 0, 1};
    for (call = 0; call < LENGTH(allowed); call++) {
        EXPECT_DONE(quelbrift_evaluate(TABLE(&worked), call), allowed[call], 0);
    }
    EXPECT_REFUSED(quelbrift_evaluate(TABLE(&worked), 8), QUELBRIFT_ASSIGNMENT, 0);
    EXPECT_REFUSED(quelbrift_evaluate(TABLE(&worked), (uint64_t)1 << 63), QUELBRIFT_ASSIGNMENT, 0);
    FOR_EACH_REFUSED(row) {
        EXPECT_REFUSED(quelbrift_evaluate(TABLE(row), UINT64_MAX), row->number, row->place);
    }
}

/* The most measurements of a call here. */
#define MOST 4

/* Measurements as they are lent: the lengths of the four lists, and the lists. */
typedef struct {
    size_t lengths[4];
    uint32_t measured[MOST];
    int32_t lows[MOST];
    int32_t highs[MOST];
    int32_t thresholds[MOST];
} measurements;

static quelbrift_answer partial(const table *circuit, uint64_t positive, uint64_t negative, const measurements *lent)
{
    return quelbrift_evaluate_partial(TABLE(circuit), positive, negative, lent->measured, lent->lengths[0], lent->lows,
                                      lent->lengths[1], lent->highs, lent->lengths[2], lent->thresholds, lent->lengths[3]);
}

static quelbrift_answer partial_of_term(const table *circuit, uint64_t positive, uint64_t negative)
{
    static const measurements none;
    return partial(circuit, positive, negative, &none);
}

#define EXPECT_VERDICT(answer, verdict, allowed, forbidden) EXPECT_ANSWER(answer, QUELBRIFT_DONE, 0, verdict, allowed, forbidden)

/* Partial assignments without measurements. Variables that the circuit does not name count too. */
static void check_partial(void)
{
    const table never = {3, 1, 11, {{0}}, 0, 0}, never_40 = {40, 1, 11, {{0}}, 0, 0}, always_40 = {40, 1, 11, {{1}}, 0, 0};
    const uint64_t top = (uint64_t)1 << 39;
    table wide = worked;
    wide.variables = 40;
    EXPECT_VERDICT(partial_of_term(&worked, 0, 0), QUELBRIFT_OPEN, 5, 3);
    EXPECT_VERDICT(partial_of_term(&worked, 4, 0), QUELBRIFT_OPEN, 3, 1);
    EXPECT_VERDICT(partial_of_term(&worked, 4, 2), QUELBRIFT_ALLOWED, 2, 0);
    EXPECT_VERDICT(partial_of_term(&worked, 2, 1), QUELBRIFT_FORBIDDEN, 0, 2);
    EXPECT_VERDICT(partial_of_term(&worked, 7, 0), QUELBRIFT_ALLOWED, 1, 0);
    EXPECT_VERDICT(partial_of_term(&worked, 2, 5), QUELBRIFT_FORBIDDEN, 0, 1);
    EXPECT_VERDICT(partial_of_term(&eight, 0, 0), QUELBRIFT_OPEN, 3, 509);
    EXPECT_VERDICT(partial_of_term(&eight, 3, 0x1f8), QUELBRIFT_ALLOWED, 2, 0);
    EXPECT_VERDICT(partial_of_term(&eight, 0x100, 0), QUELBRIFT_FORBIDDEN, 0, 256);
    EXPECT_VERDICT(partial_of_term(&never, 0, 0), QUELBRIFT_FORBIDDEN, 0, 8);
    EXPECT_VERDICT(partial_of_term(&never, 1, 2), QUELBRIFT_FORBIDDEN, 0, 2);
    EXPECT_VERDICT(partial_of_term(&never_40, 0, 0), QUELBRIFT_FORBIDDEN, 0, 2 * top);
    EXPECT_VERDICT(partial_of_term(&always_40, 0, 0), QUELBRIFT_ALLOWED, 2 * top, 0);
    EXPECT_VERDICT(partial_of_term(&always_40, top, 0), QUELBRIFT_ALLOWED, top, 0);
    EXPECT_VERDICT(partial_of_term(&wide, 0, 0), QUELBRIFT_OPEN, 5 * (top >> 2), 3 * (top >> 2));
    EXPECT_VERDICT(partial_of_term(&wide, 4, 2), QUELBRIFT_ALLOWED, top >> 1, 0);
    EXPECT_VERDICT(partial_of_term(&wide, 4, top + 2), QUELBRIFT_ALLOWED, top >> 2, 0);
}

/* One measurement of the only variable of (yes 0): allowed where it is true, forbidden where it is false, open where unknown. */
static void check_partial_limits(void)
{
    static const table literal = {1, 1, 11, {{2}}, 0, 0};
    static const struct {
        int32_t low, high, threshold;
        uint64_t verdict;
    } ranges[] = {
        {10, 20, 10, QUELBRIFT_ALLOWED},
        {10, 10, 10, QUELBRIFT_ALLOWED},
        {0, 9, 10, QUELBRIFT_FORBIDDEN},
        {9, 9, 10, QUELBRIFT_FORBIDDEN},
        {9, 10, 10, QUELBRIFT_OPEN},
        {9, 30, 10, QUELBRIFT_OPEN},
        {-1, 1, 0, QUELBRIFT_OPEN},
        {-5, -3, -4, QUELBRIFT_OPEN},
        {-1, -1, 1, QUELBRIFT_FORBIDDEN},
        {-5, -5, -4, QUELBRIFT_FORBIDDEN},
        {1, 1, -1, QUELBRIFT_ALLOWED},
        {-4, -3, -4, QUELBRIFT_ALLOWED},
        {INT32_MIN, INT32_MAX, 0, QUELBRIFT_OPEN},
        {INT32_MIN, INT32_MAX, INT32_MIN, QUELBRIFT_ALLOWED},
        {INT32_MIN, INT32_MAX, INT32_MIN + 1, QUELBRIFT_OPEN},
        {INT32_MIN, INT32_MAX, INT32_MAX, QUELBRIFT_OPEN},
        {INT32_MIN, INT32_MAX - 1, INT32_MAX, QUELBRIFT_FORBIDDEN},
        {INT32_MAX, INT32_MAX, INT32_MAX, QUELBRIFT_ALLOWED},
        {INT32_MAX, INT32_MAX, INT32_MIN, QUELBRIFT_ALLOWED},
        {INT32_MIN, INT32_MIN, INT32_MIN, QUELBRIFT_ALLOWED},
        {INT32_MIN, INT32_MIN, INT32_MIN + 1, QUELBRIFT_FORBIDDEN},
        {INT32_MIN, INT32_MIN, INT32_MAX, QUELBRIFT_FORBIDDEN},
    };
    for (call = 0; call < LENGTH(ranges); call++) {
        const measurements lent = {{1, 1, 1, 1}, {0}, {ranges[call].low}, {ranges[call].high}, {ranges[call].threshold}};
        const uint64_t verdict = ranges[call].verdict;
        const uint64_t allowed = verdict != QUELBRIFT_FORBIDDEN, forbidden = verdict != QUELBRIFT_ALLOWED;
        EXPECT_VERDICT(partial(&literal, 0, 0, &lent), verdict, allowed, forbidden);
    }
}

/* A call on `worked` or on the same over more variables, and its answer. */
typedef struct {
    uint32_t variables;
    uint64_t positive;
    uint64_t negative;
    measurements lent;
    quelbrift_answer answer;
} partial_call;

static void check_partial_calls(const partial_call *calls, size_t count, int line)
{
    for (call = 0; call < count; call++) {
        table circuit = worked;
        circuit.variables = calls[call].variables;
        quelbrift_answer answer = partial(&circuit, calls[call].positive, calls[call].negative, &calls[call].lent);
        expect_answer(answer, calls[call].answer, "a call of quelbrift_evaluate_partial", line);
    }
}

#define ALL(length) {length, length, length, length}
#define VERDICT(verdict, allowed, forbidden) {QUELBRIFT_DONE, 0, QUELBRIFT_##verdict, allowed, forbidden}
#define WRONG(place) {QUELBRIFT_MEASUREMENT, place, 0, 0, 0}
#define NOT_TERM {QUELBRIFT_NOT_TERM, 0, 0, 0, 0}

/* Literals of the term and of measurements, in any order of the variables. Range 5 to 7: 5 gives true, 6 unknown, 8 false. */
static void check_partial_lists(void)
{
    static const partial_call calls[] = {
        {3, 0, 2, {ALL(1), {2}, {5}, {7}, {5}}, VERDICT(ALLOWED, 2, 0)},
        {3, 4, 0, {ALL(1), {1}, {5}, {7}, {8}}, VERDICT(ALLOWED, 2, 0)},
        {3, 4, 0, {ALL(1), {1}, {5}, {7}, {6}}, VERDICT(OPEN, 3, 1)},
        {3, 0, 1, {ALL(1), {1}, {5}, {7}, {5}}, VERDICT(FORBIDDEN, 0, 2)},
        {3, 0, 0, {ALL(2), {2, 1}, {5, 5}, {7, 7}, {5, 8}}, VERDICT(ALLOWED, 2, 0)},
        {3, 0, 0, {ALL(2), {1, 0}, {5, 5}, {7, 7}, {5, 8}}, VERDICT(FORBIDDEN, 0, 2)},
        {3, 0, 0, {ALL(3), {0, 1, 2}, {5, 5, 5}, {7, 7, 7}, {6, 6, 6}}, VERDICT(OPEN, 5, 3)},
        {3, 0, 0, {ALL(3), {2, 0, 1}, {5, 5, 5}, {7, 7, 7}, {5, 6, 8}}, VERDICT(ALLOWED, 2, 0)},
        {3, 0, 0, {ALL(3), {2, 0, 1}, {5, 5, 5}, {7, 7, 7}, {8, 5, 5}}, VERDICT(ALLOWED, 1, 0)},
        {3, 7, 0, {ALL(0), {0}, {0}, {0}, {0}}, VERDICT(ALLOWED, 1, 0)},
        {5, 0, 2, {ALL(2), {4, 2}, {5, 5}, {7, 7}, {8, 5}}, VERDICT(ALLOWED, 4, 0)},
        {5, 8, 2, {ALL(2), {4, 2}, {5, 5}, {7, 7}, {6, 5}}, VERDICT(ALLOWED, 4, 0)},
        {40, 0, 0, {ALL(1), {39}, {5}, {7}, {5}}, VERDICT(OPEN, (uint64_t)5 << 36, (uint64_t)3 << 36)},
        {40, 0, 0, {ALL(1), {39}, {5}, {7}, {6}}, VERDICT(OPEN, (uint64_t)5 << 37, (uint64_t)3 << 37)},
    };
    check_partial_calls(calls, LENGTH(calls), __LINE__);
}

/* Each reason for 53 but an incomplete entry, alone and with its place. */
static void check_partial_refusals(void)
{
    static const partial_call calls[] = {
        /* low above high */
        {3, 0, 0, {ALL(1), {0}, {1}, {0}, {0}}, WRONG(0)},
        {3, 0, 0, {ALL(1), {0}, {-1}, {-2}, {-9}}, WRONG(0)},
        {3, 0, 0, {ALL(1), {0}, {INT32_MAX}, {INT32_MIN}, {0}}, WRONG(0)},
        {3, 0, 0, {ALL(1), {0}, {INT32_MIN + 1}, {INT32_MIN}, {INT32_MAX}}, WRONG(0)},
        {3, 0, 0, {ALL(1), {0}, {INT32_MAX}, {INT32_MAX - 1}, {INT32_MIN}}, WRONG(0)},
        {3, 0, 0, {ALL(3), {0, 1, 2}, {5, 5, 7}, {7, 7, 5}, {5, 6, 8}}, WRONG(2)},
        /* a variable out of range */
        {3, 0, 0, {ALL(1), {3}, {0}, {0}, {0}}, WRONG(0)},
        {3, 0, 0, {ALL(1), {32}, {0}, {0}, {0}}, WRONG(0)},
        {3, 0, 0, {ALL(1), {64}, {0}, {0}, {0}}, WRONG(0)},
        {3, 0, 0, {ALL(1), {UINT32_MAX}, {0}, {0}, {0}}, WRONG(0)},
        {40, 0, 0, {ALL(2), {39, 40}, {0, 0}, {0, 0}, {0, 0}}, WRONG(1)},
        {40, 0, 0, {ALL(2), {0, 64}, {0, 0}, {0, 0}, {0, 0}}, WRONG(1)},
        /* a variable with a literal in the term, of either sign, whatever the measurement says */
        {3, 2, 0, {ALL(2), {0, 1}, {5, 5}, {7, 7}, {5, 5}}, WRONG(1)},
        {3, 0, 2, {ALL(2), {0, 1}, {5, 5}, {7, 7}, {5, 8}}, WRONG(1)},
        {3, 0, 2, {ALL(2), {0, 1}, {5, 5}, {7, 7}, {5, 6}}, WRONG(1)},
        {40, (uint64_t)1 << 39, 0, {ALL(1), {39}, {5}, {7}, {5}}, WRONG(0)},
        /* a variable measured before: true, false or left unknown, and then the same or not */
        {3, 0, 0, {ALL(2), {1, 1}, {5, 5}, {7, 7}, {5, 5}}, WRONG(1)},
        {3, 0, 0, {ALL(2), {1, 1}, {5, 5}, {7, 7}, {8, 5}}, WRONG(1)},
        {3, 0, 0, {ALL(2), {1, 1}, {5, 5}, {7, 7}, {6, 6}}, WRONG(1)},
        {3, 0, 0, {ALL(2), {1, 1}, {5, 5}, {7, 7}, {6, 5}}, WRONG(1)},
        {3, 0, 0, {ALL(3), {1, 0, 1}, {5, 5, 5}, {7, 7, 7}, {6, 5, 8}}, WRONG(2)},
        {3, 0, 0, {ALL(4), {2, 0, 1, 2}, {5, 5, 5, 5}, {7, 7, 7, 7}, {5, 5, 5, 5}}, WRONG(3)},
    };
    check_partial_calls(calls, LENGTH(calls), __LINE__);
}

/* Each list in turn shorter than the others, or longer: the entry at the shortest length is incomplete. */
static void check_partial_incomplete(void)
{
    for (size_t list = 0; list < 4; list++) {
        for (size_t length = 0; length < 4; length++) {
            for (size_t others = 0; others < 4; others++) {
                measurements lent = {ALL(others), {2, 0, 1}, {5, 5, 5}, {7, 7, 7}, {5, 5, 6}};
                lent.lengths[list] = length;
                call = 16 * list + 4 * length + others;
                if (length != others) {
                    EXPECT_REFUSED(partial(&worked, 0, 0, &lent), QUELBRIFT_MEASUREMENT, length < others ? length : others);
                } else {
                    EXPECT(partial(&worked, 0, 0, &lent).number == QUELBRIFT_DONE);
                }
            }
        }
    }
}

/* Of several faults: those of the table, then the term's as lent, then the lowest measurement's. */
static void check_partial_order(void)
{
    static const partial_call calls[] = {
        {3, 0, 0, {ALL(3), {0, 3, 0}, {5, 5, 9}, {7, 7, 7}, {5, 5, 5}}, WRONG(1)},
        {3, 0, 0, {ALL(3), {0, 1, 9}, {5, 9, 5}, {7, 7, 7}, {5, 5, 5}}, WRONG(1)},
        {3, 1, 0, {ALL(3), {0, 9, 9}, {5, 9, 9}, {7, 7, 7}, {5, 5, 5}}, WRONG(0)},
        {3, 0, 0, {{3, 3, 2, 3}, {0, 0, 1}, {5, 5, 5}, {7, 7, 7}, {5, 5, 5}}, WRONG(1)},
        {3, 0, 0, {{3, 2, 3, 3}, {0, 1, 9}, {5, 5, 9}, {7, 7, 7}, {5, 5, 5}}, WRONG(2)},
        {3, 0, 0, {{1, 0, 4, 2}, {9}, {9}, {7, 7, 7, 7}, {5, 5}}, WRONG(0)},
        {3, 8, 0, {ALL(1), {0}, {5}, {7}, {5}}, NOT_TERM},
        {3, 8, 0, {ALL(1), {9}, {9}, {7}, {5}}, NOT_TERM},
        {3, 0, 8, {ALL(1), {3}, {9}, {7}, {5}}, NOT_TERM},
        {3, 1, 1, {ALL(1), {0}, {9}, {7}, {5}}, NOT_TERM},
        {3, 1, 1, {{0, 1, 0, 0}, {0}, {0}, {0}, {0}}, NOT_TERM},
        {3, (uint64_t)1 << 63, 0, {ALL(0), {0}, {0}, {0}, {0}}, NOT_TERM},
    };
    static const measurements wrong = {ALL(1), {UINT32_MAX}, {1}, {0}, {0}}, incomplete = {{0, 0, 0, 1}, {0}, {0}, {0}, {0}};
    check_partial_calls(calls, LENGTH(calls), __LINE__);
    FOR_EACH_REFUSED(row) {
        EXPECT_REFUSED(partial(row, UINT64_MAX, UINT64_MAX, &wrong), row->number, row->place);
        EXPECT_REFUSED(partial(row, 0, 0, &wrong), row->number, row->place);
        EXPECT_REFUSED(partial(row, 0, 0, &incomplete), row->number, row->place);
        EXPECT_REFUSED(partial_of_term(row, 0, 0), row->number, row->place);
    }
}

static void check_count_models(void)
{
    const table all = {40, 1, 11, {{1}}, 0, 0};
    EXPECT_DONE(quelbrift_count_models(TABLE(&worked)), 5, 0);
    EXPECT_DONE(quelbrift_count_models(TABLE(&all)), (uint64_t)1 << 40, 0);
    FOR_EACH_REFUSED(row) {
        EXPECT_REFUSED(quelbrift_count_models(TABLE(row)), row->number, row->place);
    }
}

static void check_implies(void)
{
    EXPECT_DONE(quelbrift_implies(TABLE(&worked), 4, 2), 1, 0);
    EXPECT_DONE(quelbrift_implies(TABLE(&worked), 5, 2), 1, 0);
    EXPECT_DONE(quelbrift_implies(TABLE(&worked), 4, 0), 0, 0);
    EXPECT_DONE(quelbrift_implies(TABLE(&worked), 0, 0), 0, 0);
    EXPECT_REFUSED(quelbrift_implies(TABLE(&worked), 8, 0), QUELBRIFT_NOT_TERM, 0);
    EXPECT_REFUSED(quelbrift_implies(TABLE(&worked), 0, 8), QUELBRIFT_NOT_TERM, 0);
    EXPECT_REFUSED(quelbrift_implies(TABLE(&worked), 1, 1), QUELBRIFT_NOT_TERM, 0);
    FOR_EACH_REFUSED(row) {
        EXPECT_REFUSED(quelbrift_implies(TABLE(row), UINT64_MAX, UINT64_MAX), row->number, row->place);
    }
}

static void check_is_prime(void)
{
    EXPECT_DONE(quelbrift_is_prime(TABLE(&worked), 4, 2), 1, 0);
    EXPECT_DONE(quelbrift_is_prime(TABLE(&worked), 5, 2), 0, 0);
    EXPECT_DONE(quelbrift_is_prime(TABLE(&worked), 4, 0), 0, 0);
    EXPECT_REFUSED(quelbrift_is_prime(TABLE(&worked), 8, 0), QUELBRIFT_NOT_TERM, 0);
    EXPECT_REFUSED(quelbrift_is_prime(TABLE(&worked), 0, 8), QUELBRIFT_NOT_TERM, 0);
    EXPECT_REFUSED(quelbrift_is_prime(TABLE(&worked), 1, 1), QUELBRIFT_NOT_TERM, 0);
    FOR_EACH_REFUSED(row) {
        EXPECT_REFUSED(quelbrift_is_prime(TABLE(row), UINT64_MAX, UINT64_MAX), row->number, row->place);
    }
}

static void check_reduce(void)
{
    /* 101: variable 0 goes, 1 stays no, 2 stays yes. 111: 0 stays yes, 1 goes, 2 stays yes. */
    EXPECT_DONE(quelbrift_reduce(TABLE(&worked), 5), 4, 2);
    EXPECT_DONE(quelbrift_reduce(TABLE(&worked), 7), 5, 0);
    EXPECT_DONE(quelbrift_reduce(TABLE(&worked), 0), 0, 3);
    EXPECT_REFUSED(quelbrift_reduce(TABLE(&worked), 2), QUELBRIFT_UNSATISFIED, 0);
    EXPECT_REFUSED(quelbrift_reduce(TABLE(&worked), 10), QUELBRIFT_ASSIGNMENT, 0);
    FOR_EACH_REFUSED(row) {
        EXPECT_REFUSED(quelbrift_reduce(TABLE(row), UINT64_MAX), row->number, row->place);
    }
}

/* Either listing, of clearances or of blockers. */
typedef quelbrift_answer listing(const uint32_t *words, size_t words_length, uint32_t variables, uint32_t nodes,
                                 const uint32_t *minutes, size_t minutes_length, uint32_t capacity, uint64_t *positives,
                                 size_t positives_length, uint64_t *negatives, size_t negatives_length, uint32_t *counts,
                                 size_t counts_length);

/* Minutes as they are lent: how many, and the list, longer than any call here needs. */
typedef struct {
    size_t length;
    uint32_t entries[48];
} minutes;

/* The buffers of a listing, longer than any call here needs. */
typedef struct {
    uint64_t positives[96];
    uint64_t negatives[96];
    uint32_t counts[12];
} buffers;

/* Pairs as they are lent: the lengths of the two lists, and the lists, longer than most calls here need. */
#define MORE_PAIRS 8
typedef struct {
    size_t lengths[2];
    uint32_t firsts[MORE_PAIRS];
    uint32_t seconds[MORE_PAIRS];
} pairs;

static const pairs no_pairs;

/* The buffers of a listing with a shown list, longer than any call here needs. */
#define MORE_SHOWN 16
typedef struct {
    buffers listed;
    uint64_t positives[MORE_SHOWN];
    uint64_t negatives[MORE_SHOWN];
} shown_buffers;

static shown_buffers shown;

/* Whether the shown list holds these entries, and after them what it held before. */
static int shown_is(const uint64_t *positives, const uint64_t *negatives, size_t count)
{
    return memcmp(shown.positives, positives, count * 8) == 0 && memcmp(shown.negatives, negatives, count * 8) == 0
        && all_bytes(shown.positives + count, sizeof shown.positives - count * 8, 0xa5)
        && all_bytes(shown.negatives + count, sizeof shown.negatives - count * 8, 0xa5);
}

/* Whether the first entries of the shown list are 0, and the later ones what they were. */
static int shown_zeroed(size_t count)
{
    static const uint64_t zeros[MORE_SHOWN];
    return shown_is(zeros, zeros, count);
}

/* The listing of clearances without pairs: the shown list is that of the last node; 0 after 42; as it was after any other refusal. */
static quelbrift_answer list_clearances(const uint32_t *words, size_t words_length, uint32_t variables, uint32_t nodes,
                                        const uint32_t *minutes, size_t minutes_length, uint32_t capacity, uint64_t *positives,
                                        size_t positives_length, uint64_t *negatives, size_t negatives_length, uint32_t *counts,
                                        size_t counts_length)
{
    const size_t length = capacity < MORE_SHOWN ? capacity : MORE_SHOWN;
    memset(&shown, 0xa5, sizeof shown);
    quelbrift_answer answer = quelbrift_list(words, words_length, variables, nodes, minutes, minutes_length, no_pairs.firsts, 0,
                                             no_pairs.seconds, 0, capacity, positives, positives_length, negatives, negatives_length,
                                             counts, counts_length, shown.positives, length, shown.negatives, length);
    if (answer.number == QUELBRIFT_DONE) {
        const size_t last = (size_t)(nodes - 1) * capacity;
        EXPECT(answer.first == counts[nodes - 1]);
        EXPECT(shown_is(positives + last, negatives + last, capacity));
        answer.first = 0;
    } else {
        EXPECT(shown_zeroed(answer.number == QUELBRIFT_CAPACITY ? capacity : 0));
    }
    return answer;
}

static listing *const listings[] = {list_clearances, quelbrift_list_negation};

static quelbrift_answer list_by(listing *lists, const minutes *by, buffers *lent, const table *circuit, uint32_t capacity, size_t rows,
                                size_t negatives, size_t counts)
{
    memset(lent, 0xa5, sizeof *lent);
    return lists(TABLE(circuit), by->entries, by->length, capacity, lent->positives, rows, lent->negatives, negatives, lent->counts,
                 counts);
}

/* With buffers just enough. */
static quelbrift_answer list_fitting(listing *lists, const minutes *by, buffers *lent, const table *circuit, uint32_t capacity)
{
    const size_t rows = (size_t)circuit->nodes * capacity;
    return list_by(lists, by, lent, circuit, capacity, rows, rows, circuit->nodes);
}

static minutes no_minutes(const table *circuit)
{
    return (minutes){circuit->variables, {0}};
}

static quelbrift_answer list(listing *lists, buffers *lent, const table *circuit, uint32_t capacity, size_t rows, size_t negatives,
                             size_t counts)
{
    const minutes none = no_minutes(circuit);
    return list_by(lists, &none, lent, circuit, capacity, rows, negatives, counts);
}

/* The first entries are 0, the later ones unchanged. */
static int zeroed(const buffers *lent, size_t rows, size_t counts)
{
    return all_bytes(lent->positives, rows * 8, 0) && all_bytes(lent->positives + rows, sizeof lent->positives - rows * 8, 0xa5)
        && all_bytes(lent->negatives, rows * 8, 0) && all_bytes(lent->negatives + rows, sizeof lent->negatives - rows * 8, 0xa5)
        && all_bytes(lent->counts, counts * 4, 0) && all_bytes(lent->counts + counts, sizeof lent->counts - counts * 4, 0xa5);
}

/* A listing that is done, with buffers just enough and with longer ones. */
static void check_listed_by(listing *lists, const minutes *by, const table *circuit, uint32_t capacity, const uint64_t *positives,
                            const uint64_t *negatives, const uint32_t *counts)
{
    const size_t rows = (size_t)circuit->nodes * capacity, nodes = circuit->nodes;
    const size_t lengths[][3] = {{rows, rows, nodes}, {rows + 3, rows + 1, nodes + 1}};
    buffers lent;
    for (call = 0; call < LENGTH(lengths); call++) {
        EXPECT_DONE(list_by(lists, by, &lent, circuit, capacity, lengths[call][0], lengths[call][1], lengths[call][2]), 0, 0);
        EXPECT(memcmp(lent.positives, positives, rows * 8) == 0);
        EXPECT(memcmp(lent.negatives, negatives, rows * 8) == 0);
        EXPECT(memcmp(lent.counts, counts, nodes * 4) == 0);
        EXPECT(all_bytes(lent.positives + rows, sizeof lent.positives - rows * 8, 0xa5));
        EXPECT(all_bytes(lent.negatives + rows, sizeof lent.negatives - rows * 8, 0xa5));
        EXPECT(all_bytes(lent.counts + nodes, sizeof lent.counts - nodes * 4, 0xa5));
    }
}

static void check_listed(listing *lists, const table *circuit, uint32_t capacity, const uint64_t *positives, const uint64_t *negatives,
                         const uint32_t *counts)
{
    const minutes none = no_minutes(circuit);
    check_listed_by(lists, &none, circuit, capacity, positives, negatives, counts);
}

/* The clearances of every node of `worked`, at capacity 4. */
static const uint64_t worked_positives[20] = {0, 0, 0, 0, 4, 0, 0, 0, 0, 0, 0, 0, 2, 4, 0, 0, 0, 3, 5, 4};
static const uint64_t worked_negatives[20] = {2, 0, 0, 0, 0, 0, 0, 0, 0, 0, 0, 0, 0, 0, 0, 0, 3, 0, 0, 2};
static const uint32_t worked_counts[5] = {1, 1, 1, 2, 4};

static void check_list(void)
{
    check_listed(list_clearances, &worked, 4, worked_positives, worked_negatives, worked_counts);
}

/* Just enough room, and room for one more; the four clearances fit neither. */
static void check_list_negation(void)
{
    static const uint64_t positives[10] = {2, 0, 0, 0, 0, 0, 0, 0, 2, 1}, negatives[10] = {0, 0, 4, 0, 0, 0, 6, 0, 1, 6};
    static const uint64_t more_positives[15] = {2, 0, 0, 0, 0, 0, 0, 0, 0, 0, 0, 0, 2, 1, 0};
    static const uint64_t more_negatives[15] = {0, 0, 0, 4, 0, 0, 0, 0, 0, 6, 0, 0, 1, 6, 0};
    static const uint32_t counts[5] = {1, 1, 0, 1, 2};
    check_listed(quelbrift_list_negation, &worked, 2, positives, negatives, counts);
    check_listed(quelbrift_list_negation, &worked, 3, more_positives, more_negatives, counts);
}

/* What a listing refuses: one table has no row, one has one, and `worked` has a row more than the capacity `less`. */
static void check_refusals_of(listing *lists, const table *none, const table *one, uint32_t less)
{
    const size_t rows = 5 * (size_t)less;
    buffers lent;
    EXPECT_REFUSED(list(lists, &lent, &worked, less, rows, rows + 1, 5), QUELBRIFT_CAPACITY, 0);
    EXPECT(zeroed(&lent, rows, 5));
    EXPECT_REFUSED(list(lists, &lent, one, 0, 0, 0, 1), QUELBRIFT_CAPACITY, 0);
    EXPECT(zeroed(&lent, 0, 1));
    EXPECT_DONE(list(lists, &lent, none, 0, 0, 0, 1), 0, 0);
    EXPECT(zeroed(&lent, 0, 1));
    static const size_t short_lengths[][4] = {{4, 19, 20, 5}, {4, 20, 19, 5}, {4, 20, 20, 4}, {4097, 32, 32, 8}, {UINT32_MAX, 32, 32, 8}};
    for (call = 0; call < LENGTH(short_lengths); call++) {
        const size_t *row = short_lengths[call];
        EXPECT_REFUSED(list(lists, &lent, &worked, (uint32_t)row[0], row[1], row[2], row[3]), QUELBRIFT_BUFFERS, 0);
        EXPECT(all_bytes(&lent, sizeof lent, 0xa5));
    }
    FOR_EACH_REFUSED(row) {
        EXPECT_REFUSED(list(lists, &lent, row, 4097, 0, 0, 0), row->number, row->place);
        EXPECT(all_bytes(&lent, sizeof lent, 0xa5));
    }
}

static void check_list_refusals(void)
{
    const table never = {1, 1, 11, {{0}}, 0, 0}, always = {1, 1, 11, {{1}}, 0, 0};
    check_refusals_of(list_clearances, &never, &always, 3);
    call = 0;
    check_refusals_of(quelbrift_list_negation, &always, &never, 1);
}

/* Every operation but the listings on the conjunction of eight. */
static void check_eight(void)
{
    uint32_t words[121];
    uint8_t sink[sizeof eight_lines - 1];
    EXPECT_DONE(quelbrift_read((const uint8_t *)eight_nested, sizeof eight_nested - 1, words, 121), 9, 11);
    EXPECT(memcmp(words, eight.words, sizeof words) == 0);
    EXPECT_DONE(quelbrift_write(TABLE(&eight), sink, sizeof sink), sizeof sink, 0);
    EXPECT(memcmp(sink, eight_lines, sizeof sink) == 0);
    EXPECT_DONE(quelbrift_check(TABLE(&eight)), 0, 0);
    EXPECT_DONE(quelbrift_evaluate(TABLE(&eight), 7), 1, 0);
    EXPECT_DONE(quelbrift_evaluate(TABLE(&eight), 7 + 256), 0, 0);
    EXPECT_DONE(quelbrift_count_models(TABLE(&eight)), 3, 0);
    EXPECT_DONE(quelbrift_implies(TABLE(&eight), 3, 0x1f8), 1, 0);
    EXPECT_DONE(quelbrift_implies(TABLE(&eight), 3, 0x0f8), 0, 0);
    EXPECT_DONE(quelbrift_is_prime(TABLE(&eight), 3, 0x1f8), 1, 0);
    EXPECT_DONE(quelbrift_is_prime(TABLE(&eight), 7, 0x1f8), 0, 0);
    EXPECT_DONE(quelbrift_reduce(TABLE(&eight), 7), 5, 0x1f8);
}

/* The listings of the conjunction of eight: of the clearances each join, of the blockers each child's. */
static void check_eight_listed(void)
{
    static const uint64_t positives[22] = {1, 0, 4, 0, 0, 0, 2, 4, 0, 0, 0, 0, 0, 0, 0, 0, 0, 0, 0, 0, 3, 5};
    static const uint64_t negatives[22] = {0, 0, 0, 0, 0, 0, 0, 0, 8, 0, 16, 0, 32, 0, 64, 0, 128, 0, 256, 0, 0x1f8, 0x1f8};
    static const uint32_t counts[11] = {1, 1, 1, 2, 1, 1, 1, 1, 1, 1, 2};
    static const uint64_t blocker_positives[88] = {
        [32] = 8, [40] = 16, [48] = 32, [56] = 64, [64] = 128, [72] = 256,
        [81] = 8, [82] = 16, [83] = 32, [84] = 64, [85] = 128, [86] = 256};
    static const uint64_t blocker_negatives[88] = {[0] = 1, [8] = 4, [24] = 6, [80] = 1, [87] = 6};
    static const uint32_t blocker_counts[11] = {1, 1, 0, 1, 1, 1, 1, 1, 1, 1, 8};
    buffers lent;
    check_listed(list_clearances, &eight, 2, positives, negatives, counts);
    check_listed(quelbrift_list_negation, &eight, 8, blocker_positives, blocker_negatives, blocker_counts);
    EXPECT_REFUSED(list(list_clearances, &lent, &eight, 1, 11, 11, 11), QUELBRIFT_CAPACITY, 0);
    EXPECT(zeroed(&lent, 11, 11));
    for (uint32_t capacity = 0; capacity < 8; capacity++) {
        EXPECT_REFUSED(list(quelbrift_list_negation, &lent, &eight, capacity, 88, 88, 11), QUELBRIFT_CAPACITY, 0);
        EXPECT(zeroed(&lent, 11 * capacity, 11));
    }
}

/* (pick 1 (pick 0 (pick 3 (true) (yes 2)) (no 2)) (both (no 2) (no 3))), and the rows of its nodes where all minutes are 0, each its
   positive and its negative mask. Clearances: of node 2 +2, -3; of node 4 +0 -2, -0 +2, -0 -3, -2 -3; of the whole -2 -3, +0 -1 -2,
   -0 -1 +2, -0 -1 -3. Blockers: of node 4 +0 +2, -0 -2 +3; of node 7 +2, +3; of the whole +0 +2, +1 +2, +1 +3, -0 -2 +3. */
static const table mixed = {
    4, 9, 99, {{1}, {2, 2}, {4, 3, 2, 0, 1}, {3, 2}, {4, 0, 2, 2, 3}, {3, 2}, {3, 3}, {5, 0, 2, 5, 6}, {4, 1, 2, 4, 7}}, 0, 0};
static const uint64_t mixed_rows[2][9][4][2] = {
    {{{0, 0}}, {{4, 0}}, {{4, 0}, {0, 8}}, {{0, 4}}, {{1, 4}, {4, 1}, {0, 9}, {0, 12}}, {{0, 4}}, {{0, 8}}, {{0, 12}},
     {{0, 12}, {1, 6}, {4, 3}, {0, 11}}},
    {{{0, 0}}, {{0, 4}}, {{8, 4}}, {{4, 0}}, {{5, 0}, {8, 5}}, {{4, 0}}, {{8, 0}}, {{4, 0}, {8, 0}},
     {{5, 0}, {6, 0}, {10, 0}, {8, 5}}}};
static const uint32_t mixed_counts[2][9] = {{1, 1, 2, 1, 4, 1, 1, 1, 4}, {0, 1, 1, 1, 2, 1, 1, 2, 4}};

/* The rows of `mixed` at capacity 4, where those of some nodes stand in another order: for each the places where all minutes are 0. */
static void check_mixed(size_t which, const minutes *by, const char *const orders[9])
{
    uint64_t positives[36], negatives[36];
    for (size_t node = 0; node < 9; node++) {
        for (size_t row = 0; row < 4; row++) {
            const size_t place = orders[node] != NULL && row < strlen(orders[node]) ? (size_t)(orders[node][row] - '0') : row;
            positives[4 * node + row] = mixed_rows[which][node][place][0];
            negatives[4 * node + row] = mixed_rows[which][node][place][1];
        }
    }
    check_listed_by(listings[which], by, &mixed, 4, positives, negatives, mixed_counts[which]);
}

/* Fewer minutes before fewer marks, whether a variable is marked yes or no; of as many minutes fewer marks, then the smaller mask of all
   marked variables, then the smaller positive mask. Where all minutes are the same, the order is that of none. */
static void check_minutes(void)
{
    static const struct {
        uint32_t entries[4];
        const char *clearances[9];
        const char *blockers[9];
    } calls[] = {
        {{0, 0, 0, 0}, {NULL}, {NULL}},
        {{1000, 1000, 1000, 1000}, {NULL}, {NULL}},
        {{1, 1, 1, 1}, {NULL}, {NULL}},
        {{0, 0, 0, 1}, {[8] = "1203"}, {NULL}},
        {{0, 0, 1, 0}, {[2] = "10", [4] = "2013", [8] = "3012"}, {[7] = "10", [8] = "2013"}},
        {{0, 0, 500, 500}, {[8] = "1230"}, {NULL}},
        {{0, 5, 0, 0}, {NULL}, {[8] = "0312"}},
        {{7, 0, 0, 0}, {[4] = "3012"}, {[8] = "1203"}},
        {{1000, 0, 0, 1}, {[4] = "3012"}, {[8] = "1203"}},
        {{0, 0, 1000, 1}, {[2] = "10", [4] = "2013", [8] = "3120"}, {[7] = "10", [8] = "2013"}},
        {{2, 3, 4, 6}, {[8] = "1203"}, {NULL}},
        {{1, 1, 2, 1}, {[2] = "10", [4] = "2013", [8] = "0312"}, {[7] = "10", [8] = "2013"}},
        {{999, 0, 1000, 0}, {[2] = "10", [4] = "2301", [8] = "3012"}, {[7] = "10", [8] = "2103"}},
    };
    for (size_t i = 0; i < LENGTH(calls); i++) {
        minutes by = {4, {0}};
        memcpy(by.entries, calls[i].entries, sizeof calls[i].entries);
        check_mixed(0, &by, calls[i].clearances);
        check_mixed(1, &by, calls[i].blockers);
    }
}

/* The conjunction of eight: the clearance with +2 comes first, and among the blockers -1 -2 after those of one mark and one minute. */
static void check_minutes_of_eight(void)
{
    static const minutes by = {9, {9, 1, 0, 3, 3, 2, 2, 1, 1}};
    static const uint64_t positives[22] = {1, 0, 4, 0, 0, 0, 4, 2, 0, 0, 0, 0, 0, 0, 0, 0, 0, 0, 0, 0, 5, 3};
    static const uint64_t negatives[22] = {0, 0, 0, 0, 0, 0, 0, 0, 8, 0, 16, 0, 32, 0, 64, 0, 128, 0, 256, 0, 0x1f8, 0x1f8};
    static const uint32_t counts[11] = {1, 1, 1, 2, 1, 1, 1, 1, 1, 1, 2};
    static const uint64_t blocker_positives[88] = {
        [32] = 8, [40] = 16, [48] = 32, [56] = 64, [64] = 128, [72] = 256,
        [80] = 128, [81] = 256, [83] = 32, [84] = 64, [85] = 8, [86] = 16};
    static const uint64_t blocker_negatives[88] = {[0] = 1, [8] = 4, [24] = 6, [82] = 6, [87] = 1};
    static const uint32_t blocker_counts[11] = {1, 1, 0, 1, 1, 1, 1, 1, 1, 1, 8};
    check_listed_by(list_clearances, &by, &eight, 2, positives, negatives, counts);
    check_listed_by(quelbrift_list_negation, &by, &eight, 8, blocker_positives, blocker_negatives, blocker_counts);
}

/* The sum of the minutes of some variables. */
static uint32_t sum_of(const minutes *by, uint64_t variables)
{
    uint32_t sum = 0;
    for (size_t variable = 0; variable < by->length; variable++) {
        sum += variables >> variable & 1 ? by->entries[variable] : 0;
    }
    return sum;
}

static int number_of(uint64_t variables)
{
    return variables == 0 ? 0 : number_of(variables & (variables - 1)) + 1;
}

/* Whether one row comes before another. */
static int precedes(const minutes *by, uint64_t positive, uint64_t negative, uint64_t other_positive, uint64_t other_negative)
{
    const uint64_t marks = positive | negative, others = other_positive | other_negative;
    if (sum_of(by, marks) != sum_of(by, others)) {
        return sum_of(by, marks) < sum_of(by, others);
    }
    if (number_of(marks) != number_of(others)) {
        return number_of(marks) < number_of(others);
    }
    return marks != others ? marks < others : positive < other_positive;
}

/* Whether each row of a node is one of its rows in other buffers, which hold as many, and comes before the next. */
static int is_reordered(const buffers *lent, const buffers *other, const minutes *by, size_t start, uint32_t count)
{
    for (size_t row = start; row < start + count; row++) {
        size_t same = start;
        while (same < start + count && (lent->positives[row] != other->positives[same] || lent->negatives[row] != other->negatives[same])) {
            same++;
        }
        const int last = row + 1 == start + count;
        if (same == start + count
            || (!last && !precedes(by, lent->positives[row], lent->negatives[row], lent->positives[row + 1], lent->negatives[row + 1]))) {
            return 0;
        }
    }
    return 1;
}

/* Both listings of every node by some minutes: the rows that are listed without minutes, in order. */
static void check_reordered(const table *circuit, uint32_t capacity, const minutes *by)
{
    const minutes none = no_minutes(circuit);
    const size_t rows = (size_t)circuit->nodes * capacity;
    buffers lent, other;
    for (size_t which = 0; which < LENGTH(listings); which++) {
        EXPECT_DONE(list_fitting(listings[which], &none, &other, circuit, capacity), 0, 0);
        EXPECT_DONE(list_fitting(listings[which], by, &lent, circuit, capacity), 0, 0);
        EXPECT(memcmp(lent.counts, other.counts, sizeof lent.counts) == 0);
        for (size_t node = 0; node < circuit->nodes; node++) {
            const size_t start = node * capacity, count = lent.counts[node];
            EXPECT(is_reordered(&lent, &other, by, start, lent.counts[node]));
            EXPECT(all_bytes(lent.positives + start + count, (capacity - count) * 8, 0));
            EXPECT(all_bytes(lent.negatives + start + count, (capacity - count) * 8, 0));
        }
        EXPECT(all_bytes(lent.positives + rows, sizeof lent.positives - rows * 8, 0xa5));
        EXPECT(all_bytes(lent.negatives + rows, sizeof lent.negatives - rows * 8, 0xa5));
    }
}

/* All minutes of 0 to 2 for few variables; for more some up to the most. */
static void check_many_minutes(void)
{
    uint32_t state = 1;
    for (call = 0; call < 81; call++) {
        minutes by = {4, {(uint32_t)call % 3, (uint32_t)call / 3 % 3, (uint32_t)call / 9 % 3, (uint32_t)call / 27}};
        check_reordered(&mixed, 4, &by);
        by.length = 3;
        if (call < 27) {
            check_reordered(&worked, 4, &by);
        }
        by.length = 9;
        for (size_t variable = 0; variable < 9; variable++) {
            state = state * 1664525 + 1013904223;
            by.entries[variable] = (state >> 16) % (call % 2 == 0 ? 4 : 1001);
        }
        check_reordered(&eight, 8, &by);
    }
}

/* Minutes that are wrong for three variables: too few, too many, and, at each place, too large. */
static const minutes wrong_minutes[] = {
    {0, {0}}, {1, {0}}, {2, {0}}, {4, {0}}, {5, {0}}, {40, {0}}, {41, {0}}, {48, {0}},
    {3, {1001, 0, 0}}, {3, {0, 1001, 0}}, {3, {0, 0, 1001}}, {3, {1001, 1001, 1001}}, {3, {1000, 1000, 1001}},
    {3, {65536, 0, 0}}, {3, {0, 65537, 0}}, {3, {0, 0, (uint32_t)1 << 31}}, {3, {UINT32_MAX, 0, 0}}, {3, {0, 0, UINT32_MAX}},
    {2, {1001, 0}}, {4, {0, 0, 0, 1001}}, {4, {1000, 1000, 1000, 1000}},
};

/* 56 comes after the table's refusals and 41, and before 42; it leaves every buffer as it was. */
static void check_minutes_refusals_of(listing *lists)
{
    static const size_t short_lengths[][4] = {{4, 19, 20, 5}, {4, 20, 19, 5}, {4, 20, 20, 4}, {4, 0, 0, 0}, {4097, 96, 96, 12}};
    buffers lent;
    for (size_t i = 0; i < LENGTH(wrong_minutes); i++) {
        const minutes *wrong = &wrong_minutes[i];
        call = i;
        for (uint32_t capacity = 0; capacity <= 5; capacity++) {
            EXPECT_REFUSED(list_fitting(lists, wrong, &lent, &worked, capacity), QUELBRIFT_MINUTES, 0);
            EXPECT(all_bytes(&lent, sizeof lent, 0xa5));
        }
        EXPECT_REFUSED(list_by(lists, wrong, &lent, &worked, 4, 96, 96, 12), QUELBRIFT_MINUTES, 0);
        EXPECT(all_bytes(&lent, sizeof lent, 0xa5));
        for (size_t j = 0; j < LENGTH(short_lengths); j++) {
            const size_t *row = short_lengths[j];
            EXPECT_REFUSED(list_by(lists, wrong, &lent, &worked, (uint32_t)row[0], row[1], row[2], row[3]), QUELBRIFT_BUFFERS, 0);
            EXPECT(all_bytes(&lent, sizeof lent, 0xa5));
        }
    }
    FOR_EACH_REFUSED(row) {
        static const minutes wrong = {47, {[0] = 1001, [46] = UINT32_MAX}};
        EXPECT_REFUSED(list_by(lists, &wrong, &lent, row, 4, 96, 96, 12), row->number, row->place);
        EXPECT_REFUSED(list_by(lists, &wrong, &lent, row, 4097, 0, 0, 0), row->number, row->place);
        EXPECT(all_bytes(&lent, sizeof lent, 0xa5));
    }
}

/* The most minutes are taken, and what stands after the list is not read; 42 comes as it does without minutes. */
static void check_minutes_taken_by(listing *lists, uint32_t needed)
{
    static const minutes right[] = {
        {3, {0, 0, 0}}, {3, {1000, 0, 0}}, {3, {0, 1000, 0}}, {3, {0, 0, 1000}}, {3, {1000, 1000, 1000}}, {3, {1, 2, 3, 1001, 1001}}};
    buffers lent;
    for (call = 0; call < LENGTH(right); call++) {
        EXPECT_DONE(list_fitting(lists, &right[call], &lent, &worked, needed), 0, 0);
        EXPECT(lent.counts[4] == needed);
        EXPECT_REFUSED(list_fitting(lists, &right[call], &lent, &worked, needed - 1), QUELBRIFT_CAPACITY, 0);
        EXPECT(zeroed(&lent, 5 * ((size_t)needed - 1), 5));
    }
}

static void check_minutes_refusals(void)
{
    check_minutes_refusals_of(list_clearances);
    check_minutes_refusals_of(quelbrift_list_negation);
    check_minutes_taken_by(list_clearances, 4);
    check_minutes_taken_by(quelbrift_list_negation, 2);
}

/* The limit holds for each of the most variables, whether the circuit names it or not. */
static void check_minutes_of_every_variable(void)
{
    table wide = worked;
    buffers lent;
    wide.variables = 40;
    for (size_t which = 0; which < LENGTH(listings); which++) {
        for (call = 0; call < 40; call++) {
            minutes by = {40, {0}};
            by.entries[call] = 1000;
            EXPECT_DONE(list_fitting(listings[which], &by, &lent, &wide, 4), 0, 0);
            by.entries[call] = 1001;
            EXPECT_REFUSED(list_fitting(listings[which], &by, &lent, &wide, 4), QUELBRIFT_MINUTES, 0);
            EXPECT(all_bytes(&lent, sizeof lent, 0xa5));
        }
        for (call = 0; call <= 48; call++) {
            const minutes by = {call, {0}};
            EXPECT_DONE(list_fitting(listings[which], &(minutes){40, {0}}, &lent, &wide, 4), 0, 0);
            EXPECT(list_fitting(listings[which], &by, &lent, &wide, 4).number == (call == 40 ? QUELBRIFT_DONE : QUELBRIFT_MINUTES));
        }
    }
}

/* The circuit, the minutes and what is not lent of them are only read. */
static void check_minutes_unchanged(void)
{
    static const minutes lists[] = {{4, {3, 0, 1000, 7, 9}}, {4, {0, 0, 0, 1001, 9}}, {3, {3, 0, 1000, 7, 9}}, {0, {7, 9}}};
    buffers lent;
    for (call = 0; call < 2 * LENGTH(lists); call++) {
        table circuit = mixed;
        minutes by = lists[call / 2];
        list_fitting(listings[call % 2], &by, &lent, &circuit, 4);
        EXPECT(memcmp(&by, &lists[call / 2], sizeof by) == 0);
        EXPECT(memcmp(&circuit, &mixed, sizeof circuit) == 0);
    }
}

/* A conjunction of the most variables: a literal of each of 0 to 37, the even ones positive, and 38 or not 39. There are two clearances
   of 39 marks; the blockers are 38 of one mark and -38 +39. */
#define WIDE_NODES 47
#define WIDE_ROWS 39
static const uint64_t wide_even = 0x1555555555, wide_odd = 0x2aaaaaaaaa, wide_38 = (uint64_t)1 << 38, wide_39 = (uint64_t)1 << 39;
static uint32_t wide_words[WIDE_NODES][11];

static void make_wide(void)
{
    for (uint32_t i = 0; i < 38; i++) {
        memcpy(wide_words[i], (uint32_t[]){2 + i % 2, i}, 2 * sizeof(uint32_t));
        wide_words[41 + i / 8][2] = i % 8 + 1;
        wide_words[41 + i / 8][3 + i % 8] = i;
    }
    memcpy(wide_words[38], (uint32_t[]){3, 39}, 2 * sizeof(uint32_t));
    wide_words[39][0] = 1;
    memcpy(wide_words[40], (uint32_t[]){4, 38, 2, 38, 39}, 5 * sizeof(uint32_t));
    wide_words[45][2] = 7;
    wide_words[45][9] = 40;
    memcpy(wide_words[46], (uint32_t[]){5, 0, 5, 41, 42, 43, 44, 45}, 8 * sizeof(uint32_t));
    for (uint32_t i = 41; i < 46; i++) {
        wide_words[i][0] = 5;
    }
}

static uint64_t wide_positives[WIDE_NODES * WIDE_ROWS], wide_negatives[WIDE_NODES * WIDE_ROWS];

/* Lists the wide circuit; where the rows of its last node start. */
static size_t list_wide(listing *lists, const minutes *by, uint32_t capacity, uint32_t expected)
{
    static uint32_t counts[WIDE_NODES];
    EXPECT_DONE(lists(wide_words[0], WIDE_NODES * 11, 40, WIDE_NODES, by->entries, by->length, capacity, wide_positives,
                      LENGTH(wide_positives), wide_negatives, LENGTH(wide_negatives), counts, WIDE_NODES),
                0, 0);
    EXPECT(counts[WIDE_NODES - 1] == expected);
    return (size_t)(WIDE_NODES - 1) * capacity;
}

/* The clearance with +38 first, or that with -39. */
static void check_wide_clearances(const minutes *by, int with_38_first)
{
    const size_t start = list_wide(list_clearances, by, 2, 2), with_38 = with_38_first ? start : start + 1, other = 2 * start + 1 - with_38;
    EXPECT(wide_positives[with_38] == (wide_even | wide_38) && wide_negatives[with_38] == wide_odd);
    EXPECT(wide_positives[other] == wide_even && wide_negatives[other] == (wide_odd | wide_39));
}

/* The blockers of one mark by their variables, rising or falling; and where -38 +39 stands among them. */
static void check_wide_blockers(const minutes *by, int rising, size_t pair)
{
    const size_t start = list_wide(quelbrift_list_negation, by, WIDE_ROWS, WIDE_ROWS);
    EXPECT(wide_positives[start + pair] == wide_39 && wide_negatives[start + pair] == wide_38);
    for (call = 0; call < 38; call++) {
        const size_t variable = rising ? call : 37 - call, row = start + call + (call >= pair);
        const uint64_t bit = (uint64_t)1 << variable;
        EXPECT(wide_positives[row] == (variable % 2 == 1 ? bit : 0) && wide_negatives[row] == (variable % 2 == 0 ? bit : 0));
    }
}

/* The clearance with +38 has so many minutes, that with -39 one less. */
static void check_wide_sum(uint32_t sum)
{
    minutes by = {40, {0}};
    for (size_t i = 0; i < 38; i++) {
        by.entries[i] = (sum - 1) / 38;
    }
    by.entries[39] = (sum - 1) % 38;
    by.entries[38] = by.entries[39] + 1;
    check_wide_clearances(&by, 0);
}

/* The most minutes of the most variables; fewer for some; sums at the powers of two. */
static void check_minutes_of_wide(void)
{
    minutes by = {40, {0}};
    make_wide();
    for (uint32_t sum = 1; sum <= 32768; sum *= 2) {
        check_wide_sum(sum);
    }
    check_wide_clearances(&by, 1);
    check_wide_blockers(&by, 1, 38);
    for (size_t i = 0; i < 40; i++) {
        by.entries[i] = 1000;
    }
    check_wide_clearances(&by, 1);
    check_wide_blockers(&by, 1, 38);
    by.entries[39] = 999;
    check_wide_clearances(&by, 0);
    check_wide_blockers(&by, 1, 38);
    by.entries[38] = by.entries[39] = 500;
    check_wide_clearances(&by, 1);
    check_wide_blockers(&by, 1, 38);
    by.entries[38] = 499;
    check_wide_blockers(&by, 1, 0);
    for (uint32_t i = 0; i < 40; i++) {
        by.entries[i] = 1000 - i;
    }
    check_wide_clearances(&by, 0);
    check_wide_blockers(&by, 0, 38);
    by.entries[38] = by.entries[39] = 490;
    check_wide_clearances(&by, 1);
    check_wide_blockers(&by, 0, 18);
}

/* The lengths of the five buffers of a listing of clearances. */
typedef struct {
    size_t positives, negatives, counts, shown_positives, shown_negatives;
} shown_lengths;

static quelbrift_answer show_by(const minutes *by, const pairs *apart, const table *circuit, uint32_t capacity, shown_lengths lengths)
{
    memset(&shown, 0xa5, sizeof shown);
    return quelbrift_list(TABLE(circuit), by->entries, by->length, apart->firsts, apart->lengths[0], apart->seconds, apart->lengths[1],
                          capacity, shown.listed.positives, lengths.positives, shown.listed.negatives, lengths.negatives,
                          shown.listed.counts, lengths.counts, shown.positives, lengths.shown_positives, shown.negatives,
                          lengths.shown_negatives);
}

/* Buffers just long enough, and longer than any call here needs. */
static shown_lengths enough_shown(const table *circuit, uint32_t capacity)
{
    const size_t rows = (size_t)circuit->nodes * capacity;
    return (shown_lengths){rows, rows, circuit->nodes, capacity, capacity};
}

static const shown_lengths longest_shown = {96, 96, 12, MORE_SHOWN, MORE_SHOWN};

/* Without minutes, and with buffers just enough. */
static quelbrift_answer show(const pairs *apart, const table *circuit, uint32_t capacity)
{
    const minutes none = no_minutes(circuit);
    return show_by(&none, apart, circuit, capacity, enough_shown(circuit, capacity));
}

/* Whether no buffer was written. */
static int shown_untouched(void)
{
    return all_bytes(&shown, sizeof shown, 0xa5);
}

/* A listing by pairs: rows and counts are those without pairs, and of the last node's rows those at these places are shown. */
static void check_shown(const minutes *by, const pairs *apart, const table *circuit, uint32_t capacity, const char *places)
{
    const size_t count = strlen(places), last = (size_t)(circuit->nodes - 1) * capacity;
    shown_lengths longer = enough_shown(circuit, capacity);
    longer.shown_positives += 2;
    longer.shown_negatives += 1;
    const shown_lengths lengths[] = {enough_shown(circuit, capacity), longer, longest_shown};
    uint64_t positives[MORE_SHOWN] = {0}, negatives[MORE_SHOWN] = {0};
    buffers all;
    EXPECT_DONE(list_fitting(list_clearances, by, &all, circuit, capacity), 0, 0);
    for (size_t row = 0; row < count; row++) {
        positives[row] = all.positives[last + (size_t)(places[row] - '0')];
        negatives[row] = all.negatives[last + (size_t)(places[row] - '0')];
    }
    for (size_t i = 0; i < LENGTH(lengths); i++) {
        EXPECT_DONE(show_by(by, apart, circuit, capacity, lengths[i]), count, 0);
        EXPECT(memcmp(&shown.listed, &all, sizeof all) == 0);
        EXPECT(shown_is(positives, negatives, capacity));
    }
}

/* The masks of one shown list: of `worked`, where variables 1 and 0 exclude each other, in room for four and for six. */
static void check_shown_masks(void)
{
    static const pairs apart = {{1, 1}, {1}, {0}};
    static const uint64_t positives[6] = {0, 5, 4}, negatives[6] = {3, 0, 2};
    EXPECT_DONE(show(&apart, &worked, 4), 3, 0);
    EXPECT(shown_is(positives, negatives, 4));
    EXPECT(memcmp(shown.listed.positives, worked_positives, sizeof worked_positives) == 0);
    EXPECT(memcmp(shown.listed.negatives, worked_negatives, sizeof worked_negatives) == 0);
    EXPECT(memcmp(shown.listed.counts, worked_counts, sizeof worked_counts) == 0);
    EXPECT_DONE(show(&apart, &worked, 6), 3, 0);
    EXPECT(shown_is(positives, negatives, 6));
    EXPECT(shown.listed.counts[4] == 4);
}

/* Only two marks of yes leave a row out, whichever comes first, once or often. Clearances of `worked`: -0 -1, +0 +1, +0 +2, -1 +2, and by
   the minutes here -1 +2, -0 -1, +0 +1, +0 +2; of `eight`: +0 +1 and +0 +2, each with -3 to -8; of `mixed` none has two marks of yes. */
static void check_pairs(void)
{
    static const struct {
        const table *circuit;
        minutes by;
        pairs apart;
        const char *places;
    } calls[] = {
        {&worked, {3, {0}}, {{0, 0}, {0}, {0}}, "0123"},
        {&worked, {3, {0}}, {{1, 1}, {0}, {1}}, "023"},
        {&worked, {3, {0}}, {{1, 1}, {1}, {0}}, "023"},
        {&worked, {3, {0}}, {{1, 1}, {0}, {2}}, "013"},
        {&worked, {3, {0}}, {{1, 1}, {2}, {0}}, "013"},
        {&worked, {3, {0}}, {{1, 1}, {1}, {2}}, "0123"},
        {&worked, {3, {0}}, {{1, 1}, {2}, {1}}, "0123"},
        {&worked, {3, {0}}, {{2, 2}, {0, 0}, {1, 2}}, "03"},
        {&worked, {3, {0}}, {{2, 2}, {1, 0}, {0, 2}}, "03"},
        {&worked, {3, {0}}, {{2, 2}, {2, 0}, {0, 1}}, "03"},
        {&worked, {3, {0}}, {{2, 2}, {1, 1}, {0, 2}}, "023"},
        {&worked, {3, {0}}, {{2, 2}, {1, 1}, {2, 0}}, "023"},
        {&worked, {3, {0}}, {{3, 3}, {0, 1, 0}, {1, 0, 1}}, "023"},
        {&worked, {3, {0}}, {{3, 3}, {1, 2, 2}, {2, 0, 1}}, "013"},
        {&worked, {3, {0}}, {{6, 6}, {0, 0, 1, 1, 2, 2}, {1, 2, 0, 2, 0, 1}}, "03"},
        {&worked, {3, {30, 5, 10}}, {{0, 0}, {0}, {0}}, "0123"},
        {&worked, {3, {30, 5, 10}}, {{1, 1}, {1}, {0}}, "013"},
        {&worked, {3, {30, 5, 10}}, {{1, 1}, {2}, {0}}, "012"},
        {&worked, {3, {30, 5, 10}}, {{3, 3}, {2, 1, 1}, {0, 2, 0}}, "01"},
        {&worked, {3, {1000, 1000, 1000}}, {{1, 1}, {1}, {0}}, "023"},
        {&eight, {9, {0}}, {{1, 1}, {1}, {0}}, "1"},
        {&eight, {9, {0}}, {{1, 1}, {0}, {2}}, "0"},
        {&eight, {9, {0}}, {{2, 2}, {0, 2}, {1, 0}}, ""},
        {&eight, {9, {0}}, {{5, 5}, {1, 3, 0, 8, 7}, {2, 4, 3, 0, 8}}, "01"},
        {&eight, {9, {0}}, {{4, 4}, {0, 2, 7, 1}, {8, 1, 8, 0}}, "1"},
        {&eight, {9, {0, 1}}, {{1, 1}, {1}, {0}}, "0"},
        {&mixed, {4, {0}}, {{6, 6}, {0, 2, 0, 1, 3, 2}, {1, 0, 3, 2, 1, 3}}, "0123"},
    };
    for (call = 0; call < LENGTH(calls); call++) {
        check_shown(&calls[call].by, &calls[call].apart, calls[call].circuit, 4, calls[call].places);
        check_shown(&calls[call].by, &calls[call].apart, calls[call].circuit, 7, calls[call].places);
    }
}

/* Adds a pair to both lists. */
static void add_pair(pairs *apart, uint32_t first, uint32_t second)
{
    apart->firsts[apart->lengths[0]++] = first;
    apart->seconds[apart->lengths[1]++] = second;
}

/* A listing by pairs that shows the rows without both marks of yes of a pair, one by one. */
static void check_filtered(const minutes *by, const pairs *apart, const table *circuit, uint32_t capacity)
{
    char places[MORE_SHOWN + 1] = "";
    size_t count = 0;
    buffers all;
    EXPECT_DONE(list_fitting(list_clearances, by, &all, circuit, capacity), 0, 0);
    for (size_t row = 0; row < all.counts[circuit->nodes - 1]; row++) {
        const uint64_t yes = all.positives[(size_t)(circuit->nodes - 1) * capacity + row];
        int stays = 1;
        for (size_t i = 0; i < apart->lengths[0]; i++) {
            stays &= !(yes >> apart->firsts[i] & yes >> apart->seconds[i] & 1);
        }
        if (stays) {
            places[count++] = (char)('0' + row);
        }
    }
    check_shown(by, apart, circuit, capacity, places);
}

/* Each pair of variables alone; and of the pairs of three variables any, each missing, in one order, in the other, or in both. */
static void check_many_pairs(void)
{
    static const table *const circuits[] = {&worked, &eight, &mixed};
    for (size_t i = 0; i < LENGTH(circuits); i++) {
        const uint32_t variables = circuits[i]->variables;
        for (call = 0; call < (size_t)variables * variables; call++) {
            const uint32_t first = (uint32_t)call / variables, second = (uint32_t)call % variables;
            const minutes none = no_minutes(circuits[i]), by = {variables, {9, 1, 4, 3}};
            const pairs apart = {{1, 1}, {first}, {second}};
            if (first != second) {
                check_filtered(&none, &apart, circuits[i], 4);
                check_filtered(&by, &apart, circuits[i], 4);
            }
        }
    }
    for (call = 0; call < 64; call++) {
        const minutes by = {3, {(uint32_t)call % 3, (uint32_t)call % 2, (uint32_t)call % 5}};
        pairs apart = no_pairs;
        for (uint32_t i = 0; i < 3; i++) {
            const uint32_t first = i / 2, second = 1 + (i + 1) / 2;
            if (call >> 2 * i & 1) {
                add_pair(&apart, first, second);
            }
            if (call >> 2 * i & 2) {
                add_pair(&apart, second, first);
            }
        }
        check_filtered(&by, &apart, &worked, 4);
    }
}

/* No room, no row, and the row without marks, which no pair leaves out. */
static void check_pairs_of_constants(void)
{
    static const table never = {2, 1, 11, {{0}}, 0, 0}, always = {2, 1, 11, {{1}}, 0, 0};
    static const pairs apart = {{1, 1}, {1}, {0}}, wrong = {{1, 1}, {1}, {1}};
    const minutes none = {2, {0}};
    for (uint32_t capacity = 0; capacity < 3; capacity++) {
        call = capacity;
        check_shown(&none, &apart, &never, capacity, "");
        EXPECT_REFUSED(show(&wrong, &never, capacity), QUELBRIFT_PAIRS, 0);
        EXPECT(shown_untouched());
        EXPECT_REFUSED(show(&wrong, &always, capacity), QUELBRIFT_PAIRS, 0);
        EXPECT(shown_untouched());
        if (capacity > 0) {
            check_shown(&none, &apart, &always, capacity, "0");
        }
    }
    EXPECT_REFUSED(show(&apart, &always, 0), QUELBRIFT_CAPACITY, 0);
    EXPECT(zeroed(&shown.listed, 0, 1));
    EXPECT(shown_zeroed(0));
}

/* 42 counts all clearances, though the shown list would fit; the shown list is 0 then, and past the capacity as it was. */
static void check_pairs_capacity(void)
{
    static const pairs lists[] = {
        {{0, 0}, {0}, {0}}, {{1, 1}, {0}, {1}}, {{2, 2}, {2, 1}, {0, 0}}, {{3, 3}, {2, 1, 1}, {0, 0, 2}}};
    const minutes by = {3, {30, 5, 10}};
    for (call = 0; call < LENGTH(lists); call++) {
        for (uint32_t capacity = 0; capacity < 4; capacity++) {
            EXPECT_REFUSED(show(&lists[call], &worked, capacity), QUELBRIFT_CAPACITY, 0);
            EXPECT(zeroed(&shown.listed, (size_t)5 * capacity, 5));
            EXPECT(shown_zeroed(capacity));
            EXPECT_REFUSED(show_by(&by, &lists[call], &worked, capacity, longest_shown), QUELBRIFT_CAPACITY, 0);
            EXPECT(zeroed(&shown.listed, (size_t)5 * capacity, 5));
            EXPECT(shown_zeroed(capacity));
        }
    }
    /* All clearances of the conjunction of eight are left out. */
    static const pairs both = {{2, 2}, {1, 0}, {0, 2}};
    EXPECT_REFUSED(show(&both, &eight, 0), QUELBRIFT_CAPACITY, 0);
    EXPECT_REFUSED(show(&both, &eight, 1), QUELBRIFT_CAPACITY, 0);
    EXPECT(shown_zeroed(1));
    check_shown(&(minutes){9, {0}}, &both, &eight, 2, "");
}

/* Pairs that are wrong for three variables: one variable twice, out of range as the first or the second, at each place; incomplete. */
static const pairs wrong_pairs[] = {
    {{1, 1}, {0}, {0}}, {{1, 1}, {1}, {1}}, {{1, 1}, {2}, {2}},
    {{1, 1}, {3}, {0}}, {{1, 1}, {0}, {3}}, {{1, 1}, {2}, {3}}, {{1, 1}, {3}, {2}}, {{1, 1}, {3}, {3}}, {{1, 1}, {3}, {4}},
    {{1, 1}, {32}, {1}}, {{1, 1}, {1}, {32}}, {{1, 1}, {40}, {1}}, {{1, 1}, {1}, {40}}, {{1, 1}, {63}, {1}}, {{1, 1}, {1}, {63}},
    {{1, 1}, {64}, {1}}, {{1, 1}, {1}, {64}}, {{1, 1}, {256}, {1}}, {{1, 1}, {1}, {65536}},
    {{1, 1}, {(uint32_t)1 << 31}, {1}}, {{1, 1}, {1}, {(uint32_t)1 << 31}},
    {{1, 1}, {UINT32_MAX}, {0}}, {{1, 1}, {0}, {UINT32_MAX}}, {{1, 1}, {UINT32_MAX}, {UINT32_MAX}},
    {{3, 3}, {1, 0, 0}, {1, 1, 2}}, {{3, 3}, {0, 1, 0}, {1, 1, 2}}, {{3, 3}, {0, 0, 1}, {1, 2, 1}},
    {{3, 3}, {3, 0, 0}, {1, 1, 2}}, {{3, 3}, {0, 3, 0}, {1, 1, 2}}, {{3, 3}, {0, 0, 3}, {1, 2, 1}},
    {{3, 3}, {0, 0, 1}, {3, 1, 2}}, {{3, 3}, {0, 0, 1}, {1, 3, 2}}, {{3, 3}, {0, 0, 1}, {1, 2, 3}},
    {{8, 8}, {0, 0, 1, 0, 0, 1, 0, 2}, {1, 2, 2, 1, 2, 2, 1, 2}}, {{8, 8}, {0, 0, 1, 0, 0, 1, 0, 3}, {1, 2, 2, 1, 2, 2, 1, 2}},
    {{1, 0}, {0}, {1}}, {{0, 1}, {0}, {1}}, {{2, 1}, {0, 0}, {1, 2}}, {{1, 2}, {0, 0}, {1, 2}}, {{3, 0}, {0, 0, 1}, {1, 2, 2}},
    {{0, 3}, {0, 0, 1}, {1, 2, 2}}, {{8, 7}, {0, 0, 1, 0, 0, 1, 0, 1}, {1, 2, 2, 1, 2, 2, 1, 2}},
    {{7, 8}, {0, 0, 1, 0, 0, 1, 0, 1}, {1, 2, 2, 1, 2, 2, 1, 2}}, {{2, 1}, {1, 0}, {1, 2}}, {{1, 2}, {3, 0}, {1, 2}},
};

/* Buffers that are too short for `worked`, each of them in turn. */
static const struct {
    uint32_t capacity;
    shown_lengths lengths;
} short_shown[] = {
    {4, {19, 20, 5, 4, 4}}, {4, {20, 19, 5, 4, 4}}, {4, {20, 20, 4, 4, 4}}, {4, {20, 20, 5, 3, 4}}, {4, {20, 20, 5, 4, 3}},
    {4, {96, 96, 12, 0, MORE_SHOWN}}, {4, {96, 96, 12, MORE_SHOWN, 0}}, {4, {0, 0, 0, 0, 0}}, {1, {5, 5, 5, 0, 1}},
    {1, {5, 5, 5, 1, 0}}, {3, {15, 15, 5, 2, 3}}, {3, {15, 15, 5, 3, 2}}, {4097, {96, 96, 12, MORE_SHOWN, MORE_SHOWN}},
    {UINT32_MAX, {96, 96, 12, MORE_SHOWN, MORE_SHOWN}}, {MORE_SHOWN, {80, 80, 5, MORE_SHOWN, MORE_SHOWN - 1}},
};

/* A buffer that is too short is 41, though the rows that are shown would fit, and before 56 and 42; no buffer is written. */
static void check_shown_buffers(void)
{
    static const pairs right[] = {{{0, 0}, {0}, {0}}, {{2, 2}, {0, 1}, {1, 2}}, {{2, 2}, {2, 1}, {0, 0}}};
    const minutes none = no_minutes(&worked);
    for (call = 0; call < LENGTH(short_shown); call++) {
        for (size_t i = 0; i < LENGTH(right); i++) {
            EXPECT_REFUSED(show_by(&none, &right[i], &worked, short_shown[call].capacity, short_shown[call].lengths), QUELBRIFT_BUFFERS, 0);
            EXPECT(shown_untouched());
        }
        for (size_t i = 0; i < LENGTH(wrong_minutes); i++) {
            EXPECT_REFUSED(show_by(&wrong_minutes[i], &right[1], &worked, short_shown[call].capacity, short_shown[call].lengths),
                           QUELBRIFT_BUFFERS, 0);
            EXPECT(shown_untouched());
        }
    }
}

/* 57 comes after the table's refusals, 41 and 56, and before 42; it leaves every buffer as it was. */
static void check_pairs_refusals(void)
{
    const minutes none = no_minutes(&worked);
    for (call = 0; call < LENGTH(wrong_pairs); call++) {
        const pairs *wrong = &wrong_pairs[call];
        for (uint32_t capacity = 0; capacity <= 5; capacity++) {
            EXPECT_REFUSED(show(wrong, &worked, capacity), QUELBRIFT_PAIRS, 0);
            EXPECT(shown_untouched());
            EXPECT_REFUSED(show_by(&none, wrong, &worked, capacity, longest_shown), QUELBRIFT_PAIRS, 0);
            EXPECT(shown_untouched());
        }
        for (size_t i = 0; i < LENGTH(wrong_minutes); i++) {
            EXPECT_REFUSED(show_by(&wrong_minutes[i], wrong, &worked, 3 + (uint32_t)i % 2, longest_shown), QUELBRIFT_MINUTES, 0);
            EXPECT(shown_untouched());
        }
        for (size_t i = 0; i < LENGTH(short_shown); i++) {
            const minutes *by = i % 2 == 0 ? &none : &wrong_minutes[i];
            EXPECT_REFUSED(show_by(by, wrong, &worked, short_shown[i].capacity, short_shown[i].lengths), QUELBRIFT_BUFFERS, 0);
            EXPECT(shown_untouched());
        }
    }
    FOR_EACH_REFUSED(row) {
        static const pairs wrong = {{3, 2}, {UINT32_MAX, 1, 7}, {0, 1}};
        const minutes right = {row->variables <= 40 ? row->variables : 40, {0}};
        EXPECT_REFUSED(show_by(&right, &wrong, row, 4, longest_shown), row->number, row->place);
        EXPECT_REFUSED(show_by(&wrong_minutes[0], &wrong, row, 4097, (shown_lengths){0}), row->number, row->place);
        EXPECT_REFUSED(show_by(&right, &no_pairs, row, 4, (shown_lengths){96, 96, 12, 3, 3}), row->number, row->place);
        EXPECT(shown_untouched());
    }
}

/* Lists of different lengths, each the longer one: a pair is incomplete, whatever else stands there. */
static void check_pairs_incomplete(void)
{
    for (call = 0; call < (MORE_PAIRS + 1) * (MORE_PAIRS + 1); call++) {
        const pairs apart = {{call / (MORE_PAIRS + 1), call % (MORE_PAIRS + 1)}, {0, 1, 2, 0, 1, 2, 0, 1}, {1, 2, 0, 2, 0, 1, 1, 0}};
        if (apart.lengths[0] == apart.lengths[1]) {
            check_filtered(&(minutes){3, {0}}, &apart, &worked, 4);
        } else {
            EXPECT_REFUSED(show(&apart, &worked, 4), QUELBRIFT_PAIRS, 0);
            EXPECT(shown_untouched());
        }
    }
}

/* A variable of a pair is below the number of variables, whether the circuit names it or not. */
static void check_pairs_of_every_variable(void)
{
    for (uint32_t variables = 3; variables <= 40; variables++) {
        table wide = worked;
        wide.variables = variables;
        const minutes none = no_minutes(&wide);
        call = variables;
        for (uint32_t other = 0; other < 2; other++) {
            check_filtered(&none, &(pairs){{1, 1}, {variables - 1}, {other}}, &wide, 4);
            check_filtered(&none, &(pairs){{1, 1}, {other}, {variables - 1}}, &wide, 4);
            EXPECT_REFUSED(show(&(pairs){{1, 1}, {variables}, {other}}, &wide, 4), QUELBRIFT_PAIRS, 0);
            EXPECT_REFUSED(show(&(pairs){{1, 1}, {other}, {variables}}, &wide, 4), QUELBRIFT_PAIRS, 0);
            EXPECT_REFUSED(show(&(pairs){{2, 2}, {1, other}, {0, variables + 64}}, &wide, 4), QUELBRIFT_PAIRS, 0);
        }
        EXPECT_REFUSED(show(&(pairs){{1, 1}, {variables - 1}, {variables - 1}}, &wide, 4), QUELBRIFT_PAIRS, 0);
        EXPECT(shown_untouched());
    }
}

/* The circuit, the minutes, the pairs and what is not lent of them are only read. */
static void check_pairs_unchanged(void)
{
    static const pairs lists[] = {
        {{2, 2}, {1, 0, 7, 9}, {0, 2, 7, 9}}, {{2, 2}, {1, 1, 7, 9}, {0, 1, 7, 9}}, {{2, 1}, {1, 0, 7}, {0, 2, 7}},
        {{0, 0}, {7, 9}, {7, 8}}};
    static const minutes right = {3, {3, 0, 1000, 7, 9}};
    for (call = 0; call < 3 * LENGTH(lists); call++) {
        table circuit = worked;
        minutes by = right;
        pairs apart = lists[call / 3];
        const uint32_t capacity = 3 + (uint32_t)call % 3;
        show_by(&by, &apart, &circuit, capacity, (shown_lengths){20, 20, 5, capacity, capacity});
        EXPECT(memcmp(&apart, &lists[call / 3], sizeof apart) == 0);
        EXPECT(memcmp(&by, &right, sizeof by) == 0);
        EXPECT(memcmp(&circuit, &worked, sizeof circuit) == 0);
    }
}

/* More pairs than any two of the most variables make. */
#define MANY_PAIRS 2000
static uint32_t many_firsts[MANY_PAIRS], many_seconds[MANY_PAIRS];

/* Lists the wide circuit by so many first and second variables, in room for three. */
static quelbrift_answer show_wide(size_t firsts, size_t seconds)
{
    static const uint32_t none[40];
    static uint32_t counts[WIDE_NODES];
    memset(&shown, 0xa5, sizeof shown);
    return quelbrift_list(wide_words[0], WIDE_NODES * 11, 40, WIDE_NODES, none, 40, many_firsts, firsts, many_seconds, seconds, 3,
                          wide_positives, LENGTH(wide_positives), wide_negatives, LENGTH(wide_negatives), counts, WIDE_NODES,
                          shown.positives, 3, shown.negatives, 3);
}

/* The clearances of the wide circuit, each its positive and its negative mask; and those where every literal is positive instead. */
static const uint64_t wide_rows[2][2][2] = {
    {{0x5555555555, 0x2aaaaaaaaa}, {0x1555555555, 0xaaaaaaaaaa}}, {{0x7fffffffff, 0}, {0xbfffffffff, 0}}};

static void make_wide_rows(size_t which)
{
    make_wide();
    for (uint32_t i = 0; which == 1 && i <= 38; i++) {
        wide_words[i][0] = 2;
    }
}

/* By so many pairs the first of these clearances is shown, or the second, both, or none. */
static void check_wide_shown(size_t which, size_t length, int first, int second)
{
    const int is_shown[2] = {first, second};
    uint64_t positives[3] = {0}, negatives[3] = {0};
    size_t count = 0;
    for (size_t row = 0; row < 2; row++) {
        if (is_shown[row]) {
            positives[count] = wide_rows[which][row][0];
            negatives[count++] = wide_rows[which][row][1];
        }
    }
    EXPECT_DONE(show_wide(length, length), count, 0);
    EXPECT(shown_is(positives, negatives, 3));
}

/* Every two variables, in both orders, alone. */
static void check_each_pair_of_wide(void)
{
    for (size_t which = 0; which < 2; which++) {
        make_wide_rows(which);
        check_wide_shown(which, 0, 1, 1);
        for (call = 0; call < 40 * 40; call++) {
            const uint64_t two = (uint64_t)1 << call / 40 | (uint64_t)1 << call % 40;
            many_firsts[0] = (uint32_t)call / 40;
            many_seconds[0] = (uint32_t)call % 40;
            if (call / 40 == call % 40) {
                EXPECT_REFUSED(show_wide(1, 1), QUELBRIFT_PAIRS, 0);
                EXPECT(shown_untouched());
            } else {
                check_wide_shown(which, 1, (two & ~wide_rows[which][0][0]) != 0, (two & ~wide_rows[which][1][0]) != 0);
            }
        }
    }
}

/* A list of every two variables, but not of two in the mask, each pair in the one order or in the other; its length. */
static size_t make_pairs_but(uint64_t mask, int reversed)
{
    size_t length = 0;
    for (uint32_t higher = 0; higher < 40; higher++) {
        for (uint32_t lower = 0; lower < higher; lower++) {
            if (!(mask >> higher & mask >> lower & 1)) {
                many_firsts[length] = reversed ? higher : lower;
                many_seconds[length++] = reversed ? lower : higher;
            }
        }
    }
    return length;
}

/* Lists of all pairs, and of all but those that leave out a clearance or both; one pair more at the end, after many repeated ones. */
static void check_all_pairs_of_wide(void)
{
    make_wide_rows(0);
    for (call = 0; call < 2; call++) {
        EXPECT(make_pairs_but(0, (int)call) == 780);
        check_wide_shown(0, 780, 0, 0);
        EXPECT_REFUSED(show_wide(780, 779), QUELBRIFT_PAIRS, 0);
        EXPECT_REFUSED(show_wide(779, 780), QUELBRIFT_PAIRS, 0);
        check_wide_shown(0, make_pairs_but(wide_even, (int)call), 0, 1);
        const size_t length = make_pairs_but(wide_even | wide_38, (int)call), last = MANY_PAIRS - 1;
        check_wide_shown(0, length, 1, 1);
        for (size_t i = length; i < MANY_PAIRS; i++) {
            many_firsts[i] = many_firsts[i - length];
            many_seconds[i] = many_seconds[i - length];
        }
        check_wide_shown(0, MANY_PAIRS, 1, 1);
        many_firsts[last] = 38;
        many_seconds[last] = 36;
        check_wide_shown(0, last, 1, 1);
        check_wide_shown(0, MANY_PAIRS, 0, 1);
        many_firsts[last] = 34;
        check_wide_shown(0, MANY_PAIRS, 0, 0);
        many_seconds[last] = 34;
        EXPECT_REFUSED(show_wide(MANY_PAIRS, MANY_PAIRS), QUELBRIFT_PAIRS, 0);
        many_seconds[last] = 40;
        EXPECT_REFUSED(show_wide(MANY_PAIRS, MANY_PAIRS), QUELBRIFT_PAIRS, 0);
        EXPECT(shown_untouched());
    }
}

static void check_view(void)
{
    static const uint64_t buffer[20];
    EXPECT_DONE(quelbrift_view(buffer, 20, 4, 4, 4), 16, 4);
    EXPECT_DONE(quelbrift_view(buffer, 20, 4, 1, 2), 4, 2);
    EXPECT_DONE(quelbrift_view(buffer, 20, 4, 1, 0), 0, 0);
    EXPECT_DONE(quelbrift_view(buffer, 19, 4, 4, 4), 0, 0);
    EXPECT_DONE(quelbrift_view(buffer, 19, 4, 4, 3), 16, 3);
    EXPECT_DONE(quelbrift_view(buffer, 20, 4, 1, 5), 0, 0);
    EXPECT_DONE(quelbrift_view(buffer, 20, 4097, 0, 1), 0, 0);
    EXPECT_DONE(quelbrift_view(buffer, 20, 0, 1024, 0), 0, 0);
    EXPECT_DONE(quelbrift_view(buffer, 20, UINT32_MAX, UINT32_MAX, UINT32_MAX), 0, 0);
}

static void check_read_assignment(void)
{
    static const struct {
        const char *text;
        uint32_t variables;
        quelbrift_answer answer;
    } lines[] = {
        {"(stow)\n", 1, {QUELBRIFT_DONE, 0, 0, 0, 0}},
        {"(stow 0 2)\n", 3, {QUELBRIFT_DONE, 0, 5, 0, 0}},
        {"(stow 39)\n", 40, {QUELBRIFT_DONE, 0, (uint64_t)1 << 39, 0, 0}},
        {"(stow)\n", 0, {QUELBRIFT_SIZES, 0, 0, 0, 0}},
        {"(stow)\n", 41, {QUELBRIFT_SIZES, 0, 0, 0, 0}},
        {"(stow)", 3, {QUELBRIFT_LINE_SHAPE, 6, 0, 0, 0}},
        {"(stow 0 )\n", 3, {QUELBRIFT_LINE_SHAPE, 8, 0, 0, 0}},
        {"(stow)\n\n", 3, {QUELBRIFT_LINE_SHAPE, 7, 0, 0, 0}},
        {"(stow 9", 3, {QUELBRIFT_LINE_SHAPE, 7, 0, 0, 0}},
        {"(stow 3)\n", 3, {QUELBRIFT_LINE_ORDER, 7, 0, 0, 0}},
        {"(stow 1 1)\n", 3, {QUELBRIFT_LINE_ORDER, 9, 0, 0, 0}},
        {"(stow 2 1)\n", 3, {QUELBRIFT_LINE_ORDER, 9, 0, 0, 0}},
    };
    for (call = 0; call < LENGTH(lines); call++) {
        const uint8_t *line = (const uint8_t *)lines[call].text;
        quelbrift_answer answer = quelbrift_read_assignment(line, strlen(lines[call].text), lines[call].variables);
        expect_answer(answer, lines[call].answer, lines[call].text, __LINE__);
    }
}

#define SET_NO(variable) {variable, QUELBRIFT_SET_NO}
#define SET_YES(variable) {variable, QUELBRIFT_SET_YES}
#define DROP(variable) {variable, QUELBRIFT_DROP}

/* More entries than any list or step buffer here needs. */
#define MORE_STEPS 300

/* The list that a script is read into. */
static quelbrift_step script[MORE_STEPS];

static quelbrift_answer read_script(const char *text, size_t length, uint32_t variables, size_t list_length)
{
    memset(script, 0xa5, sizeof script);
    return quelbrift_read_script((const uint8_t *)text, length, variables, script, list_length);
}

/* Whether the list holds these steps, and after them what it held before. */
static int script_is(const quelbrift_step *steps, size_t count)
{
    return memcmp(script, steps, count * sizeof *steps) == 0
        && all_bytes(script + count, sizeof script - count * sizeof *script, 0xa5);
}

/* Whether the list was not written. */
static int script_untouched(void)
{
    return all_bytes(script, sizeof script, 0xa5);
}

/* Scripts that are read, into a list just long enough and into a longer one. */
static void check_read_script(void)
{
    static const struct {
        const char *text;
        uint32_t variables;
        size_t count;
        quelbrift_step steps[4];
    } scripts[] = {
        {"", 1, 0, {{0, 0}}},
        {"(set 0 no)\n", 1, 1, {SET_NO(0)}},
        {"(set 0 yes)\n", 1, 1, {SET_YES(0)}},
        {"(drop 0)\n", 1, 1, {DROP(0)}},
        {"(set 2 yes)\n(set 2 no)\n(drop 2)\n(drop 2)\n", 3, 4, {SET_YES(2), SET_NO(2), DROP(2), DROP(2)}},
        {"(drop 39)\n(set 9 no)\n(set 10 yes)\n", 40, 3, {DROP(39), SET_NO(9), SET_YES(10)}},
    };
    for (call = 0; call < LENGTH(scripts); call++) {
        const char *text = scripts[call].text;
        const size_t count = scripts[call].count;
        EXPECT_DONE(read_script(text, strlen(text), scripts[call].variables, count), count, 0);
        EXPECT(script_is(scripts[call].steps, count));
        EXPECT_DONE(read_script(text, strlen(text), scripts[call].variables, MORE_STEPS), count, 0);
        EXPECT(script_is(scripts[call].steps, count));
    }
}

/* What each refusal says; it leaves the whole list as it was. */
static void check_read_script_refusals(void)
{
    static const struct {
        const char *text;
        uint32_t variables;
        size_t list_length;
        uint32_t number;
        uint64_t place;
    } scripts[] = {
        /* the number of variables, before anything else */
        {"", 0, 9, QUELBRIFT_SIZES, 0},
        {"(drop 0)\n", 41, 9, QUELBRIFT_SIZES, 0},
        {"(drop 99)x", UINT32_MAX, 0, QUELBRIFT_SIZES, 0},
        /* a wrong byte */
        {"\n", 3, 9, QUELBRIFT_STEP_SHAPE, 0},
        {"set 0 yes\n", 3, 9, QUELBRIFT_STEP_SHAPE, 0},
        {"(stow 0)\n", 3, 9, QUELBRIFT_STEP_SHAPE, 2},
        {"(set  0 yes)\n", 3, 9, QUELBRIFT_STEP_SHAPE, 5},
        {"(set yes 0)\n", 3, 9, QUELBRIFT_STEP_SHAPE, 5},
        {"(set 00 yes)\n", 3, 9, QUELBRIFT_STEP_SHAPE, 6},
        {"(set 0)\n", 3, 9, QUELBRIFT_STEP_SHAPE, 6},
        {"(set 0 drop)\n", 3, 9, QUELBRIFT_STEP_SHAPE, 7},
        {"(set 0 yes no)\n", 3, 9, QUELBRIFT_STEP_SHAPE, 10},
        {"(set 0 yes)\r\n", 3, 9, QUELBRIFT_STEP_SHAPE, 11},
        {"(drop 0 yes)\n", 3, 9, QUELBRIFT_STEP_SHAPE, 7},
        {"(set 0 yes)\n(drop 0)\n\n", 3, 9, QUELBRIFT_STEP_SHAPE, 21},
        {"(set 0 yes)\n(drop 0) \n", 3, 9, QUELBRIFT_STEP_SHAPE, 20},
        /* the end, where more is needed */
        {"(", 3, 9, QUELBRIFT_STEP_SHAPE, 1},
        {"(drop", 3, 9, QUELBRIFT_STEP_SHAPE, 5},
        {"(set 0 yes)", 3, 9, QUELBRIFT_STEP_SHAPE, 11},
        {"(set 0 yes)\n(drop 1", 3, 9, QUELBRIFT_STEP_SHAPE, 19},
        /* a step beyond the list, at its opening bracket or at what stands in its place */
        {"(drop 0)\n", 3, 0, QUELBRIFT_STEP_SHAPE, 0},
        {"(set 0 yes)\n(drop 0)\n", 3, 1, QUELBRIFT_STEP_SHAPE, 12},
        {"(set 0 yes)\n(", 3, 1, QUELBRIFT_STEP_SHAPE, 12},
        {"(set 0 yes)\nx", 3, 1, QUELBRIFT_STEP_SHAPE, 12},
        {"(set 0 yes)\n(drop 9)\n", 3, 1, QUELBRIFT_STEP_SHAPE, 12},
        {"(set 0 yes)\n(drop 1)\n(set 2 no)\n", 3, 2, QUELBRIFT_STEP_SHAPE, 21},
        /* a variable out of range, at the byte after the number */
        {"(set 3 yes)\n", 3, 9, QUELBRIFT_STEP_VARIABLE, 6},
        {"(set 3 no)\n", 3, 9, QUELBRIFT_STEP_VARIABLE, 6},
        {"(drop 3)\n", 3, 9, QUELBRIFT_STEP_VARIABLE, 7},
        {"(drop 9999)\n", 40, 9, QUELBRIFT_STEP_VARIABLE, 10},
        {"(drop 2)\n(set 40 no)\n", 40, 9, QUELBRIFT_STEP_VARIABLE, 16},
        /* of both, the lower place; at one byte 54 */
        {"(set 3 yess)\n", 3, 9, QUELBRIFT_STEP_VARIABLE, 6},
        {"(set 3 ", 3, 9, QUELBRIFT_STEP_VARIABLE, 6},
        {"(drop 3)\n(drop 0)\n", 3, 1, QUELBRIFT_STEP_VARIABLE, 7},
        {"(drop x)\n(drop 3)\n", 3, 9, QUELBRIFT_STEP_SHAPE, 6},
        {"(set 3", 3, 9, QUELBRIFT_STEP_SHAPE, 6},
        {"(set 3)\n", 3, 9, QUELBRIFT_STEP_SHAPE, 6},
        {"(drop 3 yes)\n", 3, 9, QUELBRIFT_STEP_SHAPE, 7},
        {"(drop 12345)\n", 3, 9, QUELBRIFT_STEP_SHAPE, 10},
    };
    for (call = 0; call < LENGTH(scripts); call++) {
        const char *text = scripts[call].text;
        quelbrift_answer answer = read_script(text, strlen(text), scripts[call].variables, scripts[call].list_length);
        expect_answer(answer, (quelbrift_answer){scripts[call].number, scripts[call].place, 0, 0, 0}, text, __LINE__);
        EXPECT(script_untouched());
    }
}

/* A script of so many lines (drop 2), and the steps that it means. */
#define LINE "(drop 2)\n"
#define LINE_LENGTH (sizeof LINE - 1)
static char many_lines[MORE_STEPS * LINE_LENGTH + 1];
static quelbrift_step many_steps[MORE_STEPS];

static void make_many(void)
{
    for (size_t i = 0; i < MORE_STEPS; i++) {
        memcpy(many_lines + i * LINE_LENGTH, LINE, LINE_LENGTH);
        many_steps[i] = (quelbrift_step)DROP(2);
    }
}

/* The most steps, and one more; a list that is shorter than the script, by one and by more. */
static void check_read_script_limit(void)
{
    static const size_t lengths[] = {256, 257, MORE_STEPS};
    const size_t most = QUELBRIFT_MAX_STEPS;
    make_many();
    for (call = 0; call < LENGTH(lengths); call++) {
        EXPECT_DONE(read_script(many_lines, most * LINE_LENGTH, 3, lengths[call]), most, 0);
        EXPECT(script_is(many_steps, most));
        EXPECT_REFUSED(read_script(many_lines, most * LINE_LENGTH + 1, 3, lengths[call]), QUELBRIFT_STEP_SHAPE, most * LINE_LENGTH);
        EXPECT(script_untouched());
        EXPECT_REFUSED(read_script(many_lines, (most + 1) * LINE_LENGTH, 3, lengths[call]), QUELBRIFT_STEP_SHAPE, most * LINE_LENGTH);
        EXPECT(script_untouched());
        EXPECT_REFUSED(read_script(many_lines, (most + 1) * LINE_LENGTH, 2, lengths[call]), QUELBRIFT_STEP_VARIABLE, 7);
        EXPECT(script_untouched());
    }
    for (size_t length = 0; length < most; length++) {
        call = length;
        EXPECT_REFUSED(read_script(many_lines, most * LINE_LENGTH, 3, length), QUELBRIFT_STEP_SHAPE, length * LINE_LENGTH);
        EXPECT(script_untouched());
        EXPECT_DONE(read_script(many_lines, length * LINE_LENGTH, 3, length), length, 0);
        EXPECT(script_is(many_steps, length));
    }
    /* A fault in the line past the most is not reached; one in the last line is. */
    many_lines[most * LINE_LENGTH + 6] = '9';
    EXPECT_REFUSED(read_script(many_lines, (most + 1) * LINE_LENGTH, 3, MORE_STEPS), QUELBRIFT_STEP_SHAPE, most * LINE_LENGTH);
    many_lines[(most - 1) * LINE_LENGTH + 6] = '9';
    EXPECT_REFUSED(read_script(many_lines, (most + 1) * LINE_LENGTH, 3, MORE_STEPS), QUELBRIFT_STEP_VARIABLE, (most - 1) * LINE_LENGTH + 7);
    EXPECT(script_untouched());
}

/* The buffers of a walk, longer than any call here needs. */
typedef struct {
    buffers listed;
    uint32_t statuses[MORE_STEPS];
    uint32_t compatibles[MORE_STEPS];
} walk_buffers;

static walk_buffers walked;

/* The lengths of the five buffers. */
typedef struct {
    size_t positives, negatives, counts, statuses, compatibles;
} walk_lengths;

static quelbrift_answer walk_by(const minutes *by, const table *circuit, uint32_t capacity, const quelbrift_step *steps, size_t count,
                                walk_lengths lengths)
{
    memset(&walked, 0xa5, sizeof walked);
    return quelbrift_walk(TABLE(circuit), by->entries, by->length, capacity, steps, count, walked.listed.positives, lengths.positives,
                          walked.listed.negatives, lengths.negatives, walked.listed.counts, lengths.counts, walked.statuses,
                          lengths.statuses, walked.compatibles, lengths.compatibles);
}

static quelbrift_answer walk(const table *circuit, uint32_t capacity, const quelbrift_step *steps, size_t count, walk_lengths lengths)
{
    const minutes none = no_minutes(circuit);
    return walk_by(&none, circuit, capacity, steps, count, lengths);
}

/* Buffers just long enough. */
static walk_lengths fitting(const table *circuit, uint32_t capacity, size_t count)
{
    const size_t rows = (size_t)circuit->nodes * capacity;
    return (walk_lengths){rows, rows, circuit->nodes, count, count};
}

static quelbrift_answer walk_fitting(const table *circuit, uint32_t capacity, const quelbrift_step *steps, size_t count)
{
    return walk(circuit, capacity, steps, count, fitting(circuit, capacity, count));
}

/* Whether no buffer was written. */
static int untouched(void)
{
    return all_bytes(&walked, sizeof walked, 0xa5);
}

/* Whether neither step buffer was written. */
static int entries_untouched(void)
{
    return all_bytes(walked.statuses, sizeof walked.statuses, 0xa5) && all_bytes(walked.compatibles, sizeof walked.compatibles, 0xa5);
}

/* Whether the step buffers hold these entries, and after them what they held before. */
static int entries_are(const uint32_t *statuses, const uint32_t *compatibles, size_t count)
{
    return memcmp(walked.statuses, statuses, count * 4) == 0 && memcmp(walked.compatibles, compatibles, count * 4) == 0
        && all_bytes(walked.statuses + count, sizeof walked.statuses - count * 4, 0xa5)
        && all_bytes(walked.compatibles + count, sizeof walked.compatibles - count * 4, 0xa5);
}

/* Whether the other buffers hold the listing of `worked` at capacity 4, and after it what they held before. */
static int worked_is_listed(void)
{
    const buffers *listed = &walked.listed;
    return memcmp(listed->positives, worked_positives, sizeof worked_positives) == 0
        && memcmp(listed->negatives, worked_negatives, sizeof worked_negatives) == 0
        && memcmp(listed->counts, worked_counts, sizeof worked_counts) == 0
        && all_bytes(listed->positives + 20, sizeof listed->positives - 20 * 8, 0xa5)
        && all_bytes(listed->negatives + 20, sizeof listed->negatives - 20 * 8, 0xa5)
        && all_bytes(listed->counts + 5, sizeof listed->counts - 5 * 4, 0xa5);
}

/* A script with variables that are replaced and dropped; after each step the status, and how many of the four clearances are left. */
static const quelbrift_step loading[8] = {
    SET_YES(0), /* +0 +1, +0 +2 and -1 +2 */
    SET_NO(1),  /* +0 +2 and -1 +2 */
    SET_YES(2), /* the same, and each is met */
    DROP(0),    /* -0 -1 too; -1 +2 is met */
    SET_NO(2),  /* -0 -1 */
    SET_YES(0), /* none */
    SET_NO(0),  /* -0 -1, which is met */
    DROP(2),    /* -1 +2 too */
};
static const uint32_t loading_statuses[8] = {1, 1, 2, 2, 1, 0, 2, 2};
static const uint32_t loading_compatibles[8] = {3, 2, 2, 3, 1, 0, 1, 2};

/* The script and each beginning of it, with buffers just enough and with longer ones. The step named is the first of the last run of
   allowed, where this run reaches the end. */
static void check_walk(void)
{
    static const uint64_t named[9][2] = {{0, 0}, {0, 0}, {0, 0}, {1, 2}, {1, 2}, {0, 0}, {0, 0}, {1, 6}, {1, 6}};
    quelbrift_step steps[8];
    memcpy(steps, loading, sizeof steps);
    for (size_t count = 0; count <= 8; count++) {
        const walk_lengths lengths[] = {{20, 20, 5, count, count}, {21, 24, 7, count + 3, count + 1}, {96, 96, 12, 256, MORE_STEPS}};
        for (size_t i = 0; i < LENGTH(lengths); i++) {
            call = 8 * i + count;
            EXPECT_DONE(walk(&worked, 4, steps, count, lengths[i]), named[count][0], named[count][1]);
            EXPECT(entries_are(loading_statuses, loading_compatibles, count));
            EXPECT(worked_is_listed());
        }
    }
    EXPECT(memcmp(steps, loading, sizeof steps) == 0);
}

/* Walks through other circuits: constants, variables that are not named, a conjunction of eight. */
static void check_walk_more(void)
{
    static const table never = {1, 1, 11, {{0}}, 0, 0}, always = {40, 1, 11, {{1}}, 0, 0};
    static const quelbrift_step steps[] = {SET_YES(0), SET_NO(0), DROP(0)};
    static const uint32_t zeros[3], ones[3] = {1, 1, 1}, twos[3] = {2, 2, 2};
    EXPECT_DONE(walk_fitting(&never, 0, steps, 3), 0, 0);
    EXPECT(entries_are(zeros, zeros, 3));
    EXPECT_DONE(walk_fitting(&always, 1, steps, 3), 1, 0);
    EXPECT(entries_are(twos, ones, 3));
    EXPECT_DONE(walk_fitting(&always, 1, steps, 0), 0, 0);
    EXPECT(entries_untouched() && walked.listed.counts[0] == 1);

    static const quelbrift_step wide_steps[] = {SET_YES(39), SET_NO(1), SET_NO(39), SET_YES(2), DROP(39)};
    static const uint32_t wide_statuses[] = {1, 1, 1, 2, 2}, wide_compatibles[] = {4, 3, 3, 3, 3};
    table wide = worked;
    wide.variables = 40;
    EXPECT_DONE(walk_fitting(&wide, 4, wide_steps, 5), 1, 3);
    EXPECT(entries_are(wide_statuses, wide_compatibles, 5));
    EXPECT(worked_is_listed());

    /* Both clearances ask for variable 0 and against 3 to 8; one asks for 1, the other for 2. */
    static const quelbrift_step eight_steps[] = {SET_YES(0), SET_NO(3), SET_NO(4), SET_NO(5), SET_NO(6), SET_NO(7), SET_YES(8),
                                                 SET_NO(8), SET_NO(1), SET_YES(2), DROP(1), DROP(2), SET_YES(1)};
    static const uint32_t eight_statuses[] = {1, 1, 1, 1, 1, 1, 0, 1, 1, 2, 2, 1, 2};
    static const uint32_t eight_compatibles[] = {2, 2, 2, 2, 2, 2, 0, 2, 1, 1, 2, 2, 2};
    EXPECT_DONE(walk_fitting(&eight, 2, eight_steps, 13), 1, 12);
    EXPECT(entries_are(eight_statuses, eight_compatibles, 13));
    EXPECT_DONE(walk_fitting(&eight, 2, eight_steps, 12), 0, 0);
    EXPECT_DONE(walk_fitting(&eight, 2, eight_steps, 11), 1, 9);
}

/* The most steps, and one more: where +0 and -1 are known, +2 decides. */
static void check_walk_limit(void)
{
    static quelbrift_step steps[MORE_STEPS] = {SET_YES(0), SET_NO(1)};
    static uint32_t statuses[MORE_STEPS] = {1, 1}, compatibles[MORE_STEPS] = {3, 2};
    for (uint32_t i = 2; i < MORE_STEPS; i++) {
        steps[i] = (quelbrift_step){2, i % 2};
        statuses[i] = compatibles[i] = 2 * (i % 2);
    }
    EXPECT_DONE(walk_fitting(&worked, 4, steps, 256), 1, 255);
    EXPECT(entries_are(statuses, compatibles, 256));
    EXPECT(worked_is_listed());
    EXPECT_DONE(walk_fitting(&worked, 4, steps, 255), 0, 0);
    EXPECT(entries_are(statuses, compatibles, 255));
    EXPECT_REFUSED(walk_fitting(&worked, 4, steps, 257), QUELBRIFT_STEP_SHAPE, 256);
    EXPECT(untouched());
    EXPECT_REFUSED(walk_fitting(&worked, 4, steps, MORE_STEPS), QUELBRIFT_STEP_SHAPE, 256);
    EXPECT(untouched());
    /* A wrong step past the most is not reached, whatever is wrong; one before it is. */
    steps[257].act = 3;
    steps[256].variable = 3;
    EXPECT_REFUSED(walk_fitting(&worked, 4, steps, MORE_STEPS), QUELBRIFT_STEP_SHAPE, 256);
    steps[255].variable = 3;
    EXPECT_REFUSED(walk_fitting(&worked, 4, steps, MORE_STEPS), QUELBRIFT_STEP_VARIABLE, 255);
    steps[100].act = 3;
    EXPECT_REFUSED(walk_fitting(&worked, 4, steps, 257), QUELBRIFT_STEP_SHAPE, 100);
    EXPECT(untouched());
}

/* Wrong steps: the lowest, and of its faults 54; no buffer is written. */
static void check_walk_steps(void)
{
    static const struct {
        uint32_t variables;
        quelbrift_step steps[3];
        uint32_t number;
        uint64_t place;
    } scripts[] = {
        {3, {{0, 3}, DROP(0), DROP(0)}, QUELBRIFT_STEP_SHAPE, 0},
        {3, {{0, 256}, DROP(0), DROP(0)}, QUELBRIFT_STEP_SHAPE, 0},
        {3, {DROP(0), DROP(0), {2, UINT32_MAX}}, QUELBRIFT_STEP_SHAPE, 2},
        {3, {SET_NO(3), DROP(0), DROP(0)}, QUELBRIFT_STEP_VARIABLE, 0},
        {3, {DROP(0), SET_YES(64), DROP(0)}, QUELBRIFT_STEP_VARIABLE, 1},
        {3, {DROP(0), DROP(0), DROP(UINT32_MAX)}, QUELBRIFT_STEP_VARIABLE, 2},
        {40, {DROP(39), DROP(40), DROP(0)}, QUELBRIFT_STEP_VARIABLE, 1},
        {3, {DROP(0), {3, 3}, DROP(0)}, QUELBRIFT_STEP_SHAPE, 1},
        {3, {DROP(0), DROP(3), {0, 3}}, QUELBRIFT_STEP_VARIABLE, 1},
        {3, {DROP(0), {0, 3}, DROP(3)}, QUELBRIFT_STEP_SHAPE, 1},
        {3, {{UINT32_MAX, UINT32_MAX}, DROP(3), {0, 3}}, QUELBRIFT_STEP_SHAPE, 0},
    };
    for (call = 0; call < LENGTH(scripts); call++) {
        table circuit = worked;
        circuit.variables = scripts[call].variables;
        EXPECT_REFUSED(walk_fitting(&circuit, 4, scripts[call].steps, 3), scripts[call].number, scripts[call].place);
        EXPECT(untouched());
        /* before 42, and before 41 */
        EXPECT_REFUSED(walk_fitting(&circuit, 3, scripts[call].steps, 3), scripts[call].number, scripts[call].place);
        EXPECT(untouched());
        EXPECT_REFUSED(walk(&circuit, 4097, scripts[call].steps, 3, (walk_lengths){0}), scripts[call].number, scripts[call].place);
        EXPECT(untouched());
    }
}

/* What is refused for the table and for the buffers, with no buffer written; and 42. */
static void check_walk_refusals(void)
{
    static const quelbrift_step wrong[] = {{UINT32_MAX, UINT32_MAX}};
    static const struct {
        uint32_t capacity;
        walk_lengths lengths;
    } calls[] = {
        {4, {19, 20, 5, 8, 8}}, {4, {20, 19, 5, 8, 8}}, {4, {20, 20, 4, 8, 8}}, {4, {20, 20, 5, 7, 8}}, {4, {20, 20, 5, 8, 7}},
        {4, {0, 0, 0, 0, 0}}, {4, {96, 96, 12, 0, MORE_STEPS}}, {4, {96, 96, 12, MORE_STEPS, 0}}, {4097, {96, 96, 12, 8, 8}},
        {UINT32_MAX, {96, 96, 12, 8, 8}}, {3, {15, 15, 5, 8, 7}}, {3, {15, 15, 5, 7, 8}}, {3, {14, 15, 5, 8, 8}},
    };
    for (call = 0; call < LENGTH(calls); call++) {
        EXPECT_REFUSED(walk(&worked, calls[call].capacity, loading, 8, calls[call].lengths), QUELBRIFT_BUFFERS, 0);
        EXPECT(untouched());
    }
    EXPECT_REFUSED(walk(&worked, 4, loading, 0, (walk_lengths){20, 20, 4, 0, 0}), QUELBRIFT_BUFFERS, 0);
    EXPECT(untouched());
    for (size_t count = 0; count <= 8; count++) {
        for (uint32_t capacity = 0; capacity < 4; capacity++) {
            call = 4 * count + capacity;
            EXPECT_REFUSED(walk_fitting(&worked, capacity, loading, count), QUELBRIFT_CAPACITY, 0);
            EXPECT(zeroed(&walked.listed, (size_t)5 * capacity, 5));
            EXPECT(entries_untouched());
        }
    }
    FOR_EACH_REFUSED(row) {
        EXPECT_REFUSED(walk(row, 4097, wrong, 1, (walk_lengths){0}), row->number, row->place);
        EXPECT(untouched());
        EXPECT_REFUSED(walk(row, 4, loading, 1, (walk_lengths){96, 96, 12, 8, 8}), row->number, row->place);
        EXPECT(untouched());
    }
}

/* The rows as quelbrift_list lists them by the same minutes, whatever else the walk finds; the lists that are lent are only read. */
static void check_walk_minutes(void)
{
    /* Minutes, and the masks of the clearance that comes first by them. */
    static const struct {
        minutes by;
        uint64_t positive, negative;
    } calls[] = {
        {{3, {0, 0, 0}}, 0, 3}, {{3, {1000, 1000, 1000}}, 0, 3}, {{3, {0, 3, 0}}, 5, 0}, {{3, {5, 1, 1}}, 4, 2},
        {{3, {2, 7, 1, 1001}}, 5, 0},
    };
    buffers lent;
    for (call = 0; call < LENGTH(calls); call++) {
        table circuit = worked;
        minutes by = calls[call].by;
        quelbrift_step steps[8];
        memcpy(steps, loading, sizeof steps);
        EXPECT_DONE(walk_by(&by, &circuit, 4, steps, 8, fitting(&circuit, 4, 8)), 1, 6);
        EXPECT(entries_are(loading_statuses, loading_compatibles, 8));
        EXPECT_DONE(list_fitting(list_clearances, &by, &lent, &circuit, 4), 0, 0);
        EXPECT(memcmp(&walked.listed, &lent, sizeof lent) == 0);
        EXPECT(walked.listed.positives[16] == calls[call].positive && walked.listed.negatives[16] == calls[call].negative);
        EXPECT(memcmp(&by, &calls[call].by, sizeof by) == 0);
        EXPECT(memcmp(&circuit, &worked, sizeof circuit) == 0);
        EXPECT(memcmp(steps, loading, sizeof steps) == 0);
    }
}

/* 56 comes after the table's refusals, 54, 55 and 41, and before 42; it leaves every buffer as it was. */
static void check_walk_minutes_refusals(void)
{
    static const quelbrift_step out_of_range[] = {DROP(0), DROP(3)}, no_act[] = {{0, 3}};
    static const walk_lengths longest = {96, 96, 12, MORE_STEPS, MORE_STEPS};
    for (call = 0; call < LENGTH(wrong_minutes); call++) {
        const minutes *wrong = &wrong_minutes[call];
        for (uint32_t capacity = 0; capacity <= 5; capacity++) {
            for (size_t count = 0; count <= 8; count += 4) {
                EXPECT_REFUSED(walk_by(wrong, &worked, capacity, loading, count, fitting(&worked, capacity, count)), QUELBRIFT_MINUTES, 0);
                EXPECT(untouched());
            }
        }
        EXPECT_REFUSED(walk_by(wrong, &worked, 4, loading, 8, longest), QUELBRIFT_MINUTES, 0);
        EXPECT(untouched());
        EXPECT_REFUSED(walk_by(wrong, &worked, 4, out_of_range, 2, longest), QUELBRIFT_STEP_VARIABLE, 1);
        EXPECT(untouched());
        EXPECT_REFUSED(walk_by(wrong, &worked, 4, no_act, 1, longest), QUELBRIFT_STEP_SHAPE, 0);
        EXPECT(untouched());
        EXPECT_REFUSED(walk_by(wrong, &worked, 4, loading, 8, (walk_lengths){20, 19, 5, 8, 8}), QUELBRIFT_BUFFERS, 0);
        EXPECT(untouched());
        EXPECT_REFUSED(walk_by(wrong, &worked, 4, loading, 8, (walk_lengths){20, 20, 5, 7, 8}), QUELBRIFT_BUFFERS, 0);
        EXPECT(untouched());
        EXPECT_REFUSED(walk_by(wrong, &worked, 4, loading, 8, (walk_lengths){20, 20, 5, 8, 7}), QUELBRIFT_BUFFERS, 0);
        EXPECT(untouched());
        EXPECT_REFUSED(walk_by(wrong, &worked, 4097, loading, 8, longest), QUELBRIFT_BUFFERS, 0);
        EXPECT(untouched());
    }
    FOR_EACH_REFUSED(row) {
        static const minutes wrong = {47, {[0] = 1001, [46] = UINT32_MAX}};
        EXPECT_REFUSED(walk_by(&wrong, row, 4, loading, 1, longest), row->number, row->place);
        EXPECT(untouched());
    }
    EXPECT_REFUSED(walk_by(&(minutes){3, {1000, 1000, 1000}}, &worked, 3, loading, 8, fitting(&worked, 3, 8)), QUELBRIFT_CAPACITY, 0);
    EXPECT(zeroed(&walked.listed, 15, 5));
    EXPECT(entries_untouched());
}

/* The record of a step as it is lent. */
static void check_step(void)
{
    EXPECT(sizeof(quelbrift_step) == 8);
    EXPECT(offsetof(quelbrift_step, variable) == 0);
    EXPECT(offsetof(quelbrift_step, act) == 4);
}

static void check_version(void)
{
    EXPECT(QUELBRIFT_VERSION == 7);
    EXPECT(quelbrift_version() == QUELBRIFT_VERSION);
}

/* Every number has a text of its own. */
static void check_texts(void)
{
    static const uint32_t numbers[] = {0, 10, 11, 12, 13, 14, 15, 16, 21, 22, 23, 24, 25, 31, 32, 33, 41, 42, 51, 52, 53, 54, 55, 56, 57};
    for (call = 0; call < LENGTH(numbers); call++) {
        EXPECT(strcmp(quelbrift_text(numbers[call]), quelbrift_text(1)) != 0);
        for (size_t other = 0; other < call; other++) {
            EXPECT(strcmp(quelbrift_text(numbers[call]), quelbrift_text(numbers[other])) != 0);
        }
    }
    EXPECT(strcmp(quelbrift_text(1), quelbrift_text(UINT32_MAX)) == 0);
}

static void run(void (*operation)(void))
{
    call = 0;
    operation();
}

int main(void)
{
    run(check_read);
    run(check_write);
    run(check_write_unaccepted);
    run(check_check);
    run(check_evaluate);
    run(check_partial);
    run(check_partial_limits);
    run(check_partial_lists);
    run(check_partial_refusals);
    run(check_partial_incomplete);
    run(check_partial_order);
    run(check_count_models);
    run(check_implies);
    run(check_is_prime);
    run(check_reduce);
    run(check_list);
    run(check_list_negation);
    run(check_list_refusals);
    run(check_eight);
    run(check_eight_listed);
    run(check_minutes);
    run(check_minutes_of_eight);
    run(check_many_minutes);
    run(check_minutes_refusals);
    run(check_minutes_of_every_variable);
    run(check_minutes_unchanged);
    run(check_minutes_of_wide);
    run(check_shown_masks);
    run(check_pairs);
    run(check_many_pairs);
    run(check_pairs_of_constants);
    run(check_pairs_capacity);
    run(check_shown_buffers);
    run(check_pairs_refusals);
    run(check_pairs_incomplete);
    run(check_pairs_of_every_variable);
    run(check_pairs_unchanged);
    run(check_each_pair_of_wide);
    run(check_all_pairs_of_wide);
    run(check_view);
    run(check_read_assignment);
    run(check_step);
    run(check_read_script);
    run(check_read_script_refusals);
    run(check_read_script_limit);
    run(check_walk);
    run(check_walk_more);
    run(check_walk_limit);
    run(check_walk_steps);
    run(check_walk_refusals);
    run(check_walk_minutes);
    run(check_walk_minutes_refusals);
    run(check_version);
    run(check_texts);
    if (failed > 0) {
        printf("%u checks failed, %u passed\n", failed, passed);
        return 1;
    }
    printf("%u checks passed\n", passed);
    return 0;
}
