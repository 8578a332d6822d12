/* Every call from C, on the customer's charts, on bytes that are refused, and on nothing at all. */
#include "doilystrand.h"

#include <stdio.h>
#include <string.h>

_Static_assert(DOILYSTRAND_MAX_STATES == 256, "most states");
_Static_assert(DOILYSTRAND_MAX_ARROWS == 2048, "most arrows");
_Static_assert(DOILYSTRAND_MAX_NODES == 64, "most nodes");
_Static_assert(DOILYSTRAND_MAX_CHART == 9 + 2 * 256 + 8 * 2048, "longest chart");
_Static_assert(DOILYSTRAND_MAX_RULE == 7 + 8 * 64, "longest rule");
_Static_assert(DOILYSTRAND_MAX_MAP == 7 + 2 * 256, "longest map");
_Static_assert(DOILYSTRAND_MAX_MARKS == 64 * 256, "largest marks table");
_Static_assert(DOILYSTRAND_MAX_SCRATCH == 256 * 256, "largest scratch");
_Static_assert(DOILYSTRAND_MAX_RUN == 257 * 6, "longest run");
_Static_assert(DOILYSTRAND_MAX_RUN_SCRATCH == 257 * 256, "largest scratch of a run");
_Static_assert(DOILYSTRAND_MAX_COUNT_BOUND == UINT8_MAX, "greatest bound of a count");
_Static_assert(DOILYSTRAND_MAX_COUNT_SCRATCH == 256 * 256, "largest scratch of a count");
_Static_assert(DOILYSTRAND_MAX_TEXT == 4096, "longest text that is read");
_Static_assert(DOILYSTRAND_MAX_RULE_TEXT == 31 * 13 + 32 * 4 + 1, "longest text of a rule");
_Static_assert(DOILYSTRAND_NO_END == UINT16_MAX, "no end");
_Static_assert(sizeof(doilystrand_outcome) == 12, "three numbers of 4 bytes");
_Static_assert(offsetof(doilystrand_outcome, number) == 0, "number first");
_Static_assert(offsetof(doilystrand_outcome, place) == 4, "then the place");
_Static_assert(offsetof(doilystrand_outcome, entry) == 8, "then the entry");
_Static_assert(DOILYSTRAND_NONE_WRONG == 0 && DOILYSTRAND_CHART_OR_DETAIL == 1 && DOILYSTRAND_OVERVIEW == 2 &&
               DOILYSTRAND_RULE == 3 && DOILYSTRAND_MAP == 4 && DOILYSTRAND_BUFFER == 5, "the papers' entries");
_Static_assert(offsetof(doilystrand_written, written) == 16, "behind the outcome");
_Static_assert(offsetof(doilystrand_kind_answer, kind) == 12, "behind the outcome");

static int failures;

static void expect(bool held, const char *what) {
    if (!held) {
        printf("calls: %s\n", what);
        failures++;
    }
}

static bool is(doilystrand_outcome o, uint32_t number, uint32_t place, uint32_t entry) {
    return o.number == number && o.place == place && o.entry == entry;
}

/* Short: 0 to 1 in 5 to 10 minutes, 1 to 2 in 0 to 4, 2 to 0 in 20 to no end. */
static const uint8_t short_chart[] = {1, 0, 0, 0, 39, 0, 3, 0, 3, 0, 1, 0, 2, 0, 4,
                                      0, 0, 0, 1, 0, 5, 0, 10, 0, 1, 0, 2, 0, 0, 0, 4,
                                      0, 2, 0, 0, 0, 20, 255, 255};

/* A(true until L2, at most 13). */
static const uint8_t rule[] = {1, 0, 0, 0, 31, 0, 3, 0, 0, 0, 0, 0, 0, 0, 0,
                               1, 0, 0, 2, 0, 0, 0, 0, 6, 1, 0, 0, 0, 1, 0, 13};

/* E(true until L2, at most 5). */
static const uint8_t some_rule[] = {1, 0, 0, 0, 31, 0, 3, 0, 0, 0, 0, 0, 0, 0, 0,
                                    1, 0, 0, 2, 0, 0, 0, 0, 5, 1, 0, 0, 0, 1, 0, 5};

/* E(true until L2, exactly 14). */
static const uint8_t exact_rule[] = {1, 0, 0, 0, 31, 0, 3, 0, 0, 0, 0, 0, 0, 0, 0,
                                     1, 0, 0, 2, 0, 0, 0, 0, 5, 3, 0, 0, 0, 1, 0, 14};

static const uint8_t identity[] = {1, 0, 0, 0, 13, 0, 3, 0, 0, 0, 1, 0, 2};

static void marks_are_written(void) {
    static const uint8_t listed[] = {1, 1, 1, 0, 0, 1, 0, 1, 1, 77};
    uint8_t marks[10];
    uint32_t scratch[13];
    memset(marks, 77, sizeof marks);
    for (int i = 0; i < 13; i++) scratch[i] = 7;
    expect(is(doilystrand_check(short_chart, sizeof short_chart, rule, sizeof rule, marks, 10, scratch, 13), 0, 0, 0),
           "check refuses Short");
    expect(memcmp(marks, listed, sizeof listed) == 0, "check writes other marks");
    for (int i = 0; i < 12; i++) expect(scratch[i] == 0, "scratch is not cleared");
    expect(scratch[12] == 7, "scratch is cleared past 4n numbers");
}

static void refusals_are_told(void) {
    uint8_t marks[9];
    uint32_t scratch[12];
    expect(is(doilystrand_check(NULL, 0, rule, sizeof rule, marks, 9, scratch, 12), 1, 0, 1),
           "an empty chart is not 1");
    expect(is(doilystrand_check(short_chart, sizeof short_chart, NULL, 0, marks, 9, scratch, 12), 10, 0, 3),
           "an empty rule is not 10");
    expect(is(doilystrand_check(short_chart, sizeof short_chart, rule, sizeof rule, NULL, 0, NULL, 0), 17, 0, 5),
           "an empty marks table is not 17");
    expect(is(doilystrand_check(short_chart, sizeof short_chart, rule, sizeof rule, marks, 9, scratch, 11), 18, 0, 5),
           "11 numbers are not 18");
}

/* Short with states 0 and 1 leading to themselves, 1 in 0 to 0 minutes. */
static void make_stuck(uint8_t stuck[sizeof short_chart]) {
    memcpy(stuck, short_chart, sizeof short_chart);
    stuck[18] = 0, stuck[26] = 1, stuck[30] = 0;
}

/* What Short and a rule of three nodes are counted with: 9 marks and 768 numbers, and one more of each. */
static uint8_t counted_marks[10];
static uint32_t counted_scratch[769];

static doilystrand_outcome counted(const uint8_t *chart, size_t chart_size, const uint8_t *of, size_t of_size,
                                   size_t marks_size, size_t scratch_size) {
    memset(counted_marks, 77, sizeof counted_marks);
    for (int i = 0; i < 769; i++) counted_scratch[i] = 7;
    return doilystrand_count(chart, chart_size, of, of_size, counted_marks, marks_size, counted_scratch, scratch_size);
}

/* The marks are these, so many first numbers of scratch are 0, and the others as lent. */
static void expect_counted(const uint8_t *listed, size_t cleared) {
    expect(memcmp(counted_marks, listed, sizeof counted_marks) == 0, "count leaves other marks");
    for (size_t i = 0; i < 769; i++) expect(counted_scratch[i] == (i < cleared ? 0 : 7), "count leaves other numbers");
}

static void minutes_are_counted(void) {
    static const uint8_t listed[] = {1, 1, 1, 0, 0, 1, 0, 1, 1, 77};
    static const uint8_t lent[] = {77, 77, 77, 77, 77, 77, 77, 77, 77, 77};
    uint8_t late_rule[sizeof rule], stuck[sizeof short_chart];
    size_t size = sizeof short_chart;
    memcpy(late_rule, rule, sizeof rule);
    late_rule[29] = 1; /* at most 269 */
    make_stuck(stuck);
    expect(is(counted(short_chart, size, rule, sizeof rule, 10, 769), 0, 0, 0), "count refuses Short");
    expect_counted(listed, 768);
    expect(is(counted(short_chart, size, rule, sizeof rule, 9, 768), 0, 0, 0),
           "what is just enough for a count is not");
    expect(is(counted(short_chart, size, late_rule, sizeof late_rule, 0, 0), 63, 2, 3), "a bound of 269 is not 63");
    expect_counted(lent, 0);
    expect(is(counted(short_chart, size, rule, sizeof rule, 8, 767), 17, 0, 5), "8 marks are not 17");
    expect_counted(lent, 0);
    expect(is(counted(short_chart, size, rule, sizeof rule, 9, 767), 18, 0, 5), "767 numbers are not 18");
    expect_counted(lent, 0);
    expect(is(counted(stuck, size, rule, sizeof rule, 9, 769), 19, 1, 1),
           "a state from which no time can pass is not 19");
    expect_counted(lent, 768);
    expect(is(doilystrand_count(NULL, 0, NULL, 0, NULL, 0, NULL, 0), 1, 0, 1), "nothing at all is not 1");
}

/* What Short and the rule with an exact bound are checked with: as much as they are counted with. */
static doilystrand_outcome checked_exactly(const uint8_t *chart, const uint8_t *of, size_t scratch_size) {
    memset(counted_marks, 77, sizeof counted_marks);
    for (int i = 0; i < 769; i++) counted_scratch[i] = 7;
    return doilystrand_check(chart, sizeof short_chart, of, sizeof exact_rule, counted_marks, 9, counted_scratch,
                             scratch_size);
}

static void exact_bounds_are_checked(void) {
    static const uint8_t listed[] = {1, 1, 1, 0, 0, 1, 1, 0, 0, 77};
    static const uint8_t lent[] = {77, 77, 77, 77, 77, 77, 77, 77, 77, 77};
    uint8_t late_rule[sizeof exact_rule], stuck[sizeof short_chart];
    size_t size = sizeof short_chart;
    memcpy(late_rule, exact_rule, sizeof exact_rule);
    late_rule[29] = 1, late_rule[30] = 0; /* exactly 256 */
    make_stuck(stuck);
    expect(is(checked_exactly(short_chart, exact_rule, 769), 0, 0, 0), "check refuses an exact bound");
    expect_counted(listed, 768);
    expect(is(checked_exactly(short_chart, exact_rule, 768), 0, 0, 0), "768 numbers are too few for an exact bound");
    expect(is(checked_exactly(short_chart, exact_rule, 767), 18, 0, 5), "767 numbers are enough for an exact bound");
    expect_counted(lent, 0);
    expect(is(checked_exactly(short_chart, late_rule, 0), 14, 2, 3), "exactly 256 is not 14");
    expect_counted(lent, 0);
    expect(is(checked_exactly(stuck, exact_rule, 769), 19, 1, 1), "where no time can pass is not 19 of an exact bound");
    expect_counted(lent, 768);
    expect(is(counted(short_chart, size, exact_rule, sizeof exact_rule, 9, 768), 0, 0, 0),
           "count refuses an exact bound");
    expect_counted(listed, 768);
}

/* What Short and a rule of three nodes are shown with: 9 marks, 771 numbers and 18 bytes, and one more of each. */
static uint8_t shown_marks[10];
static uint32_t shown_scratch[772];
static uint8_t shown_output[19];

static doilystrand_written shown(size_t node, size_t state, size_t scratch_size, size_t output_size) {
    memset(shown_marks, 77, sizeof shown_marks);
    for (int i = 0; i < 772; i++) shown_scratch[i] = 7;
    memset(shown_output, 99, sizeof shown_output);
    return doilystrand_show(short_chart, sizeof short_chart, some_rule, sizeof some_rule, shown_marks, 10,
                            shown_scratch, scratch_size, node, state, shown_output, output_size);
}

/* The marks stand, so many first numbers of scratch are 0, and all else is as lent past so many bytes of output. */
static void expect_left(size_t cleared, size_t written) {
    static const uint8_t listed[] = {1, 1, 1, 0, 0, 1, 1, 1, 1, 77};
    expect(memcmp(shown_marks, listed, sizeof listed) == 0, "show leaves other marks");
    for (size_t i = 0; i < 772; i++) expect(shown_scratch[i] == (i < cleared ? 0 : 7), "show leaves another scratch");
    for (size_t i = written; i < 19; i++) expect(shown_output[i] == 99, "show changes output past the run");
}

static void expect_refused(doilystrand_written w, uint32_t number, uint32_t entry, size_t cleared, const char *what) {
    expect(is(w.outcome, number, 0, entry) && w.written == 0, what);
    expect_left(cleared, 0);
}

static void runs_are_shown(void) {
    static const uint8_t run[] = {0, 0, 0, 0, 0, 5, 0, 1, 0, 0, 0, 0, 0, 2, 0, 0, 0, 0};
    doilystrand_written w = shown(2, 0, 772, 19);
    expect(is(w.outcome, 0, 0, 0) && w.written == sizeof run, "no run of Short is shown");
    expect(memcmp(shown_output, run, sizeof run) == 0, "another run of Short is shown");
    expect_left(771, sizeof run);
    w = shown(2, 0, 771, 18);
    expect(is(w.outcome, 0, 0, 0) && w.written == sizeof run, "buffers that are just enough are not");
    expect_refused(shown(1, 0, 772, 19), 60, 3, 12, "a label is not 60");
    expect_refused(shown(3, 0, 772, 19), 60, 3, 12, "a node out of range is not 60");
    expect_refused(shown(2, 3, 772, 19), 60, 3, 12, "a state out of range is not 60");
    expect_refused(shown(SIZE_MAX, SIZE_MAX, 772, 19), 60, 3, 12, "the greatest numbers are not 60");
    expect_refused(shown(2, 0, 770, 19), 61, 5, 12, "770 numbers are not 61");
    expect_refused(shown(2, 0, 772, 17), 62, 5, 771, "17 bytes are not 62");
    w = doilystrand_show(short_chart, sizeof short_chart, some_rule, sizeof some_rule, shown_marks, 10,
                         shown_scratch, 772, 2, 0, NULL, 0);
    expect(is(w.outcome, 62, 0, 5) && w.written == 0, "an empty output is not 62");
    w = doilystrand_show(NULL, 0, NULL, 0, NULL, 0, NULL, 0, 0, 0, NULL, 0);
    expect(is(w.outcome, 1, 0, 1) && w.written == 0, "nothing at all is not 1");
}

/* Exactly 14: 10 minutes and 4. After 60 and 61 as many numbers are 0 as check asks for. */
static void exact_runs_are_shown(void) {
    static const uint8_t run[] = {0, 0, 0, 0, 0, 10, 0, 1, 0, 0, 0, 4, 0, 2, 0, 0, 0, 0};
    static const struct { size_t state, scratch, output, cleared; uint32_t number, entry; } asked[] = {
        {0, 771, 18, 771, 0, 0}, {0, 770, 18, 768, 61, 5}, {0, 772, 17, 771, 62, 5},
        {1, 772, 18, 768, 60, 3}, {0, 767, 18, 0, 18, 5},
    };
    for (size_t i = 0; i < sizeof asked / sizeof asked[0]; i++) {
        for (int j = 0; j < 772; j++) shown_scratch[j] = 7;
        doilystrand_written w = doilystrand_show(short_chart, sizeof short_chart, exact_rule, sizeof exact_rule,
                                                 shown_marks, 9, shown_scratch, asked[i].scratch, 2, asked[i].state,
                                                 shown_output, asked[i].output);
        expect(is(w.outcome, asked[i].number, 0, asked[i].entry), "show answers otherwise of an exact bound");
        for (size_t j = 0; j < 772; j++)
            expect(shown_scratch[j] == (j < asked[i].cleared ? 0 : 7), "show leaves another scratch of an exact bound");
        if (asked[i].number == 0)
            expect(w.written == sizeof run && memcmp(shown_output, run, sizeof run) == 0, "another run of exactly 14");
    }
}

static void kinds_are_told(void) {
    doilystrand_kind_answer a = doilystrand_kind_of_rule(rule, sizeof rule);
    expect(is(a.outcome, 0, 0, 0) && a.kind == DOILYSTRAND_ALL_RUNS, "A-until is not all-runs");
    a = doilystrand_kind_of_rule(exact_rule, sizeof exact_rule);
    expect(is(a.outcome, 0, 0, 0) && a.kind == DOILYSTRAND_SOME_RUN, "E exactly is not some-run");
    a = doilystrand_kind_of_rule(rule, 30);
    expect(is(a.outcome, 12, 0, 3) && a.kind == DOILYSTRAND_NEITHER, "a cut rule is not 12");
    a = doilystrand_kind_of_rule(NULL, 0);
    expect(is(a.outcome, 10, 0, 3) && a.kind == DOILYSTRAND_NEITHER, "an empty rule is not 10");
}

/* What texts and rules are turned into: as much as the longest of either takes, and one more. */
static uint8_t turned[DOILYSTRAND_MAX_RULE_TEXT + 1];

/* A call on an output of so many bytes: the output past what is written is as lent. */
static doilystrand_written turn(doilystrand_written (*call)(const uint8_t *, size_t, uint8_t *, size_t),
                                const void *bytes, size_t size, size_t output_size) {
    memset(turned, 99, sizeof turned);
    doilystrand_written w = call(bytes, size, turned, output_size);
    expect(w.written <= output_size, "more is written than is lent");
    for (size_t i = w.written; i < sizeof turned; i++) expect(turned[i] == 99, "more of the output is changed");
    return w;
}

static doilystrand_written read_text(const char *text, size_t output_size) {
    return turn(doilystrand_read_rule, text, strlen(text), output_size);
}

static doilystrand_written write_text(const uint8_t *of, size_t of_size, size_t output_size) {
    return turn(doilystrand_write_rule, of, of_size, output_size);
}

static bool is_refused(doilystrand_written w, uint32_t number, uint32_t place, uint32_t entry) {
    return is(w.outcome, number, place, entry) && w.written == 0;
}

static bool is_written(doilystrand_written w, const void *bytes, size_t size) {
    return is(w.outcome, 0, 0, 0) && w.written == size && memcmp(turned, bytes, size) == 0;
}

static void texts_are_read(void) {
    char deep[DOILYSTRAND_MAX_TEXT + 2] = {0};
    expect(is_written(read_text("A(true U<=13 L2)", 32), rule, sizeof rule), "a text is another rule");
    expect(is_written(read_text("A(true U<=13 L2)", 31), rule, sizeof rule), "31 bytes are too few for three nodes");
    expect(is_refused(read_text("A(true U<=13 L2)", 30), 66, 0, 5), "30 bytes are not 66");
    expect(is_written(read_text("E(true U<=5 L2)", 31), some_rule, sizeof some_rule), "E is another rule");
    expect(is_refused(read_text("A(true U<=65536 L2)", 31), 64, 14, 3), "65,536 is not 64 at its last digit");
    expect(read_text("A(true U<=65535 L2)", 31).written == 31, "65,535 is refused");
    expect(is_written(read_text("E(true U==14 L2)", 31), exact_rule, sizeof exact_rule), "E exactly is another rule");
    expect(is_refused(read_text("E(true U==256 L2)", 31), 64, 12, 3), "exactly 256 is not 64 at its last digit");
    expect(read_text("E(true U==255 L2)", 31).written == 31, "exactly 255 is refused");
    expect(is_refused(read_text("L16", 0), 64, 2, 3), "L16 is not 64 at 2");
    expect(is_refused(read_text("L15", 0), 66, 0, 5), "L15 without an output is not 66");
    expect(is_refused(read_text("true\n", 31), 64, 4, 3), "a newline is not 64");
    expect(is_refused(read_text("", 31), 64, 0, 3), "an empty text is not 64");
    memset(deep, '!', DOILYSTRAND_MAX_TEXT);
    expect(is_refused(read_text(deep, 31), 64, DOILYSTRAND_MAX_TEXT, 3), "the longest text that stops is not 64");
    deep[DOILYSTRAND_MAX_TEXT] = '!';
    expect(is_refused(read_text(deep, 31), 65, 0, 3), "a longer text is not 65");
    memcpy(deep + 64, "true", 5);
    expect(is_refused(read_text(deep, 0), 65, 0, 3), "65 nodes are not 65");
    expect(read_text(deep + 1, sizeof turned).written == DOILYSTRAND_MAX_RULE, "64 nodes are refused");
    expect(is_refused(doilystrand_read_rule(NULL, 0, NULL, 0), 64, 0, 3), "nothing at all is not 64");
}

static void rules_are_written(void) {
    static const char text[] = "A(true U<=13 L2)";
    size_t size = sizeof text - 1;
    expect(is_written(write_text(rule, sizeof rule, size + 1), text, size), "a rule has another text");
    expect(is_written(write_text(rule, sizeof rule, size), text, size), "16 bytes are too few for the text");
    expect(is_refused(write_text(rule, sizeof rule, size - 1), 66, 0, 5), "15 bytes are not 66");
    expect(is_written(write_text(exact_rule, sizeof exact_rule, size), "E(true U==14 L2)", size),
           "an exact bound has another text");
    expect(is_refused(write_text(rule, 30, size), 12, 0, 3), "a cut rule is not 12");
    expect(is_refused(doilystrand_write_rule(rule, sizeof rule, NULL, 0), 66, 0, 5), "an empty output is not 66");
    expect(is_refused(doilystrand_write_rule(NULL, 0, NULL, 0), 10, 0, 3), "nothing at all is not 10");
}

/* 31 untils, each in the next, under a not: read into the largest rule, and written back. */
static void the_longest_text_comes_back(void) {
    char text[DOILYSTRAND_MAX_RULE_TEXT + 1], *at = text;
    uint8_t longest[DOILYSTRAND_MAX_RULE];
    *at++ = '!';
    for (int i = 0; i < 31; i++) at = (char *)memcpy(at, "A(", 2) + 2;
    at = (char *)memcpy(at, "true", 4) + 4;
    for (int i = 0; i < 31; i++) at = (char *)memcpy(at, " U<=65535 true)", 15) + 15;
    *at = 0;
    expect(at == text + DOILYSTRAND_MAX_RULE_TEXT, "the longest text's size");
    expect(is_refused(read_text(text, sizeof longest - 1), 66, 0, 5), "the largest rule manages with less output");
    expect(read_text(text, sizeof longest).written == sizeof longest, "the longest text is not the largest rule");
    memcpy(longest, turned, sizeof longest);
    size_t size = DOILYSTRAND_MAX_RULE_TEXT;
    expect(is_written(write_text(longest, sizeof longest, size), text, size), "another text comes back");
    expect(is_refused(write_text(longest, sizeof longest, size - 1), 66, 0, 5), "the longest text manages with less");
}

static void maps_are_checked(void) {
    static const uint8_t far[] = {1, 0, 0, 0, 13, 0, 3, 0, 0, 0, 3, 0, 2};
    static const uint8_t other[] = {1, 0, 0, 0, 13, 0, 3, 0, 0, 0, 0, 0, 2};
    uint8_t stuck[sizeof short_chart], slow[sizeof short_chart];
    size_t size = sizeof short_chart;
    make_stuck(stuck);
    memcpy(slow, short_chart, size);
    slow[22] = 11; /* 0 to 1 in 5 to 11 minutes */
    expect(is(doilystrand_map_check(short_chart, size, short_chart, size, identity, sizeof identity), 0, 0, 0),
           "Short is not one under itself");
    expect(is(doilystrand_map_check(short_chart, size, short_chart, size, NULL, 0), 20, 0, 4),
           "an empty map is not 20");
    expect(is(doilystrand_map_check(NULL, 0, NULL, 0, NULL, 0), 1, 0, 1), "an empty detail is not 1");
    expect(is(doilystrand_map_check(short_chart, size, NULL, 0, NULL, 0), 1, 0, 2), "an empty overview is not its 1");
    expect(is(doilystrand_map_check(short_chart, size, stuck, size, NULL, 0), 19, 1, 2),
           "an overview where no time can pass is not its 19");
    expect(is(doilystrand_map_check(short_chart, size, short_chart, size, far, sizeof far), 21, 1, 4),
           "entry 3 is not 21");
    expect(is(doilystrand_map_check(short_chart, size, short_chart, size, other, sizeof other), 22, 1, 4),
           "other labels are not 22");
    expect(is(doilystrand_map_check(slow, size, short_chart, size, identity, sizeof identity), 23, 0, 1),
           "11 minutes within 10 are not 23");
}

static bool says(uint32_t number, uint32_t place, uint32_t entry, const char *sentence, const char *paper,
                 const char *counts) {
    doilystrand_words w = doilystrand_words_of((doilystrand_outcome){number, place, entry});
    return strcmp(w.sentence, sentence) == 0 && strcmp(w.paper, paper) == 0 && strcmp(w.counts, counts) == 0;
}

static void words_are_told(void) {
    expect(says(9, 2, 1, "state without an outgoing arrow", "chart or detail", "state"), "9 has other words");
    expect(says(1, 0, 2, "chart under 9 bytes", "overview", ""), "1 of the overview has other words");
    expect(says(0, 0, 0, "", "none", ""), "success has words");
    expect(says(67, 0, 6, "", "", ""), "a number that no call answers has words");
}

static void rows_are_found(void) {
    doilystrand_place p = doilystrand_row(9, 12, true, 4, 2);
    expect(p.start == 8 && p.size == 4, "row 2 of the detail's table");
    p = doilystrand_row(9, 12, false, 4, 2);
    expect(p.start == 0 && p.size == 0, "row 2 is not wholly in the overview's table");
    p = doilystrand_row(9, 12, false, SIZE_MAX, SIZE_MAX);
    expect(p.start == 0 && p.size == 0, "the greatest numbers");
}

static void arrows_are_handed_out(void) {
    size_t size = sizeof short_chart;
    doilystrand_arrow_words a = doilystrand_arrow(short_chart, size, 0);
    expect(a.found == 1 && a.start == 0 && a.end == 1 && a.fewest == 5 && a.most == 10, "arrow 0 of Short");
    a = doilystrand_arrow(short_chart, size, 2);
    expect(a.found == 1 && a.start == 2 && a.end == 0 && a.fewest == 20 && a.most == DOILYSTRAND_NO_END,
           "arrow 2 of Short");
    expect(doilystrand_arrow(short_chart, size, 3).found == 0, "Short has three arrows");
    expect(doilystrand_arrow(short_chart, size, SIZE_MAX).found == 0, "the greatest number");
    expect(doilystrand_arrow(short_chart, size - 1, 0).found == 0, "a cut chart is read");
    expect(doilystrand_arrow(NULL, 0, 0).found == 0, "an empty chart is read");
}

static uint8_t *put(uint8_t *at, unsigned word) {
    at[0] = (uint8_t)(word >> 8);
    at[1] = (uint8_t)word;
    return at + 2;
}

/* Version and length; the words of the rest follow. */
static uint8_t *head(uint8_t *bytes, unsigned length) {
    bytes[0] = 1;
    return put(put(bytes + 1, 0), length);
}

static uint8_t largest_chart[DOILYSTRAND_MAX_CHART];
static uint8_t largest_rule[DOILYSTRAND_MAX_RULE];
static uint8_t largest_map[DOILYSTRAND_MAX_MAP];

/* A ring of all states, each arrow 8 times; true and 63 times not; each state under itself. */
static void make_the_largest(void) {
    uint8_t *at = put(put(head(largest_chart, sizeof largest_chart), 256), 2048) + 2 * 256;
    for (unsigned i = 0; i < 2048; i++) at = put(put(put(put(at, i % 256), (i + 1) % 256), 1), 1);
    expect(at == largest_chart + sizeof largest_chart, "the largest chart's size");
    at = put(head(largest_rule, sizeof largest_rule), 64) + 8;
    for (unsigned i = 1; i < 64; i++) at = put(put(at, 0x200), i - 1) + 4;
    expect(at == largest_rule + sizeof largest_rule, "the largest rule's size");
    at = put(head(largest_map, sizeof largest_map), 256);
    for (unsigned i = 0; i < 256; i++) at = put(at, i);
    expect(at == largest_map + sizeof largest_map, "the largest map's size");
}

static doilystrand_outcome check_the_largest(const uint8_t *of, size_t of_size, size_t marks_size,
                                             size_t scratch_size) {
    static uint8_t marks[DOILYSTRAND_MAX_MARKS];
    static uint32_t scratch[DOILYSTRAND_MAX_SCRATCH];
    return doilystrand_check(largest_chart, sizeof largest_chart, of, of_size,
                             marks, marks_size, scratch, scratch_size);
}

/* E(true until true, at least 256): on the ring of all states it takes the longest run that is shown. */
static const uint8_t long_rule[] = {1, 0, 0, 0, 31, 0, 3, 0, 0, 0, 0, 0, 0, 0, 0,
                                    0, 0, 0, 0, 0, 0, 0, 0, 5, 2, 0, 0, 0, 1, 1, 0};

static doilystrand_written show_the_longest(size_t scratch_size, size_t output_size) {
    static uint8_t marks[DOILYSTRAND_MAX_MARKS];
    static uint32_t scratch[DOILYSTRAND_MAX_RUN_SCRATCH];
    static uint8_t output[DOILYSTRAND_MAX_RUN];
    return doilystrand_show(largest_chart, sizeof largest_chart, long_rule, sizeof long_rule, marks, sizeof marks,
                            scratch, scratch_size, 2, 0, output, output_size);
}

/* E(true until true, at least 255): the greatest bound of a count, on the largest chart. */
static doilystrand_outcome count_the_largest(size_t marks_size, size_t scratch_size) {
    static uint8_t marks[DOILYSTRAND_MAX_MARKS];
    static uint32_t scratch[DOILYSTRAND_MAX_COUNT_SCRATCH];
    uint8_t greatest[sizeof long_rule];
    memcpy(greatest, long_rule, sizeof greatest);
    put(greatest + 29, DOILYSTRAND_MAX_COUNT_BOUND);
    return doilystrand_count(largest_chart, sizeof largest_chart, greatest, sizeof greatest,
                             marks, marks_size, scratch, scratch_size);
}

static void the_largest_is_counted(void) {
    size_t marks = 3 * 256, scratch = DOILYSTRAND_MAX_COUNT_SCRATCH;
    expect(is(count_the_largest(marks, scratch), 0, 0, 0), "count refuses the largest chart");
    expect(is(count_the_largest(marks - 1, scratch), 17, 0, 5), "the largest count manages with fewer marks");
    expect(is(count_the_largest(marks, scratch - 1), 18, 0, 5), "the largest count manages with less scratch");
    expect(is(doilystrand_count(largest_chart, sizeof largest_chart, long_rule, sizeof long_rule, NULL, 0, NULL, 0),
              63, 2, 3), "a bound of 256 is not 63");
}

static void the_longest_is_shown(void) {
    size_t scratch = DOILYSTRAND_MAX_RUN_SCRATCH, output = DOILYSTRAND_MAX_RUN;
    doilystrand_written w = show_the_longest(scratch, output);
    expect(is(w.outcome, 0, 0, 0) && w.written == output, "the longest run is not shown");
    expect(is(show_the_longest(scratch - 1, output).outcome, 61, 0, 5), "the longest run manages with less scratch");
    expect(is(show_the_longest(scratch, output - 1).outcome, 62, 0, 5), "the longest run manages with less output");
}

static void the_largest_is_taken(void) {
    size_t size = sizeof largest_chart, marks = DOILYSTRAND_MAX_MARKS, scratch = DOILYSTRAND_MAX_SCRATCH;
    const uint8_t *of = largest_rule;
    size_t of_size = sizeof largest_rule;
    make_the_largest();
    expect(is(check_the_largest(of, of_size, marks, scratch), 0, 0, 0), "check refuses the largest");
    expect(is(check_the_largest(of, of_size, marks - 1, scratch), 17, 0, 5), "the largest manages with fewer marks");
    expect(is(check_the_largest(of, of_size, marks, 4 * 256), 0, 0, 0), "4n numbers are too few without exact bounds");
    expect(is(check_the_largest(of, of_size, marks, 4 * 256 - 1), 18, 0, 5), "the largest manages with less scratch");
    of = exact_rule, of_size = sizeof exact_rule;
    expect(is(check_the_largest(of, of_size, marks, scratch), 0, 0, 0), "check refuses the largest, an exact bound");
    expect(is(check_the_largest(of, of_size, marks, scratch - 1), 18, 0, 5), "an exact bound manages with less");
    expect(is(doilystrand_map_check(largest_chart, size, largest_chart, size, largest_map, sizeof largest_map),
              0, 0, 0), "map check refuses the largest");
}

int main(void) {
    marks_are_written();
    refusals_are_told();
    minutes_are_counted();
    exact_bounds_are_checked();
    runs_are_shown();
    exact_runs_are_shown();
    kinds_are_told();
    texts_are_read();
    rules_are_written();
    the_longest_text_comes_back();
    maps_are_checked();
    words_are_told();
    rows_are_found();
    arrows_are_handed_out();
    the_largest_is_taken();
    the_largest_is_counted();
    the_longest_is_shown();
    if (failures == 0) printf("calls: from C as promised\n");
    return failures != 0;
}
