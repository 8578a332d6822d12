/*
 * The proved checker of timed rules over dispatch charts, for C.
 *
 * Link target/staticlib/libdoilystrand.a, which `tools/build doilystrand` writes. Every call takes any bytes, tests them itself and
 * returns; what it promises stands in docs/PROMISES.md, and the formats and the numbers of refusals in README.md.
 *
 * What C has to see to: a pointer is to as many elements as the size after it says (it may be null where that is 0),
 * and marks, scratch and output overlap nothing else that is lent.
 */
#ifndef DOILYSTRAND_H
#define DOILYSTRAND_H

#include <stdbool.h>
#include <stddef.h>
#include <stdint.h>

#ifdef __cplusplus
extern "C" {
#endif

/* The most states and arrows of a chart, and nodes of a rule. */
#define DOILYSTRAND_MAX_STATES 256
#define DOILYSTRAND_MAX_ARROWS 2048
#define DOILYSTRAND_MAX_NODES 64

/* Bytes of the longest chart, rule and map. */
#define DOILYSTRAND_MAX_CHART 16905
#define DOILYSTRAND_MAX_RULE 519
#define DOILYSTRAND_MAX_MAP 519

/* Bytes of marks and numbers of scratch that are enough for every check; 1024 numbers if no bound of the rule is exact. */
#define DOILYSTRAND_MAX_MARKS 16384
#define DOILYSTRAND_MAX_SCRATCH 65536

/* Bytes of the longest shown run, 257 positions of 6, and numbers of scratch that are enough for every one. */
#define DOILYSTRAND_MAX_RUN 1542
#define DOILYSTRAND_MAX_RUN_SCRATCH 65792

/* The greatest bound that is counted to, and numbers of scratch that are enough for every count. */
#define DOILYSTRAND_MAX_COUNT_BOUND 255
#define DOILYSTRAND_MAX_COUNT_SCRATCH 65536

/* Bytes of the longest text that is read, and of the longest that a rule has: 31 untils of five digits, 32 true, a not. */
#define DOILYSTRAND_MAX_TEXT 4096
#define DOILYSTRAND_MAX_RULE_TEXT 532

/* The most of an arrow whose slot has no end. */
#define DOILYSTRAND_NO_END 65535

/* Which paper was wrong, the third entry of an outcome. */
enum {
    DOILYSTRAND_NONE_WRONG = 0,
    DOILYSTRAND_CHART_OR_DETAIL = 1,
    DOILYSTRAND_OVERVIEW = 2,
    DOILYSTRAND_RULE = 3,
    DOILYSTRAND_MAP = 4,
    DOILYSTRAND_BUFFER = 5
};

/* Number, place and entry of a refusal; all 0 on success. */
typedef struct doilystrand_outcome {
    uint32_t number;
    uint32_t place;
    uint32_t entry;
} doilystrand_outcome;

/* The words of an outcome, in UTF-8, each filled up with zeros, one at least. */
typedef struct doilystrand_words {
    char sentence[128];
    char paper[16];
    char counts[16];
} doilystrand_words;

/* What a call with one output answers: a refusal, or success, and how many bytes it wrote; 0 on a refusal. */
typedef struct doilystrand_written {
    doilystrand_outcome outcome;
    size_t written;
} doilystrand_written;

/* A rule's kind. */
enum {
    DOILYSTRAND_NEITHER = 0,
    DOILYSTRAND_ALL_RUNS = 1,
    DOILYSTRAND_SOME_RUN = 2,
    DOILYSTRAND_BOTH = 3
};

/* A rule's refusal, or success, and its kind; neither on a refusal. */
typedef struct doilystrand_kind_answer {
    doilystrand_outcome outcome;
    uint32_t kind;
} doilystrand_kind_answer;

/* Where a part of a table begins, and how many bytes it has. */
typedef struct doilystrand_place {
    size_t start;
    size_t size;
} doilystrand_place;

/* What a chart reader hands out: found is 1 with an arrow's words, 0 with zeros if it is finished. */
typedef struct doilystrand_arrow_words {
    uint32_t found;
    size_t start;
    size_t end;
    uint32_t fewest;
    uint32_t most;
} doilystrand_arrow_words;

/*
 * Marks every node of the rule at every state of the chart: byte t * n + s of marks is 1 if node t holds at state s,
 * else 0. It wants k * n bytes of marks and 4n numbers of scratch, or 256n if a bound of the rule is exact (kind 3); k and
 * n are bytes 5 to 6 of rule and chart. After acceptance and after refusal 19 the first so many numbers are 0; everything
 * else is left as lent.
 */
doilystrand_outcome doilystrand_check(const uint8_t *chart, size_t chart_size,
                                      const uint8_t *rule, size_t rule_size,
                                      uint8_t *marks, size_t marks_size,
                                      uint32_t *scratch, size_t scratch_size);

/*
 * Marks as check does, by another way: it counts the minutes left one by one, 0 to the bound. It wants 256n numbers of
 * scratch, for a rule without bounds too. A bound above 255 is refused with 63 and its node, before 17 to 19 are looked
 * at. After acceptance and after refusal 19 the first 256n numbers are 0; everything else is left as lent.
 */
doilystrand_outcome doilystrand_count(const uint8_t *chart, size_t chart_size,
                                      const uint8_t *rule, size_t rule_size,
                                      uint8_t *marks, size_t marks_size,
                                      uint32_t *scratch, size_t scratch_size);

/*
 * Does as check does, then shows a run that is the reason why an E-until node holds at the state, or why an A-until node
 * bounded by "at most" doesn't. The run is written to output, 6 bytes a position: the state (2) and the minutes that the
 * arrow taken from there takes (4), which are 0 at the last position. It has the fewest steps there are, at most 256;
 * which of several runs appears is free. It wants 257n numbers of scratch, and 6 bytes of output for each position.
 * Refused with 60 to 62 the marks are written all the same. The first 257n numbers of scratch are 0 after acceptance and
 * after 62, as many as check's after 19, 60 and 61; everything else is left as lent, in output all that is past the run.
 */
doilystrand_written doilystrand_show(const uint8_t *chart, size_t chart_size,
                                     const uint8_t *rule, size_t rule_size,
                                     uint8_t *marks, size_t marks_size,
                                     uint32_t *scratch, size_t scratch_size,
                                     size_t node, size_t state,
                                     uint8_t *output, size_t output_size);

/* Whether a rule is of the all-runs kind, the some-run kind, both or neither. */
doilystrand_kind_answer doilystrand_kind_of_rule(const uint8_t *rule, size_t rule_size);

/*
 * Reads a rule typed as text, such as A(true U<=14 L2), and writes its bytes to the front of output: operands before
 * their node, left first, 7 + 8k bytes for k nodes; DOILYSTRAND_MAX_RULE are always enough. The text is lent as it is,
 * without an end of line or of string. Refused, in this order, with 65 above DOILYSTRAND_MAX_TEXT bytes; with 64 where
 * it is no text of the grammar, the place being the first byte that no formula could go on from, or the text's size if
 * it only stops early; with 65 above 64 nodes; with 66 if output is short. Output is left as lent past the rule, and
 * wholly on a refusal.
 */
doilystrand_written doilystrand_read_rule(const uint8_t *text, size_t text_size,
                                          uint8_t *output, size_t output_size);

/*
 * Writes a rule back as the one text of its tree, whatever the order of its nodes, to the front of output; no 0 ends it.
 * DOILYSTRAND_MAX_RULE_TEXT bytes of output are always enough. Refused with the rule's own 10 to 16, then with 66 if
 * output is shorter than the text. Output is left as lent past the text, and wholly on a refusal.
 */
doilystrand_written doilystrand_write_rule(const uint8_t *rule, size_t rule_size,
                                           uint8_t *output, size_t output_size);

/* Whether the detail chart is one under the overview chart, by the map. 1 to 9 and 19 of the overview carry its entry. */
doilystrand_outcome doilystrand_map_check(const uint8_t *detail, size_t detail_size,
                                          const uint8_t *overview, size_t overview_size,
                                          const uint8_t *map, size_t map_size);

/*
 * Where row t lies in the overview's marks table (choice false) or the detail's (choice true), n marks a row; start and
 * size are 0 if the row doesn't lie wholly in it.
 */
doilystrand_place doilystrand_row(size_t overview_size, size_t detail_size, bool choice, size_t n, size_t t);

/*
 * What a chart reader of these bytes at this number hands out: arrow number of a chart that passes checks 1 to 9;
 * finished past the last one, and at once over any other bytes.
 */
doilystrand_arrow_words doilystrand_arrow(const uint8_t *chart, size_t chart_size, size_t number);

/*
 * What an outcome says in words: the papers' own sentence ("state without an outgoing arrow"), which paper was wrong
 * ("chart or detail"), and what the place counts ("state"), empty where the papers name no place. Of success, and of a
 * number that no call answers, the sentence is empty.
 */
doilystrand_words doilystrand_words_of(doilystrand_outcome outcome);

#ifdef __cplusplus
}
#endif

#endif
