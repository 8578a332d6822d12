/* check [FOLDER]: at which states of the folder's desk.cht the rule of its desk.rul holds. */
#include "doilystrand.h"

#include <stdio.h>
#include <stdlib.h>

static size_t read_file(const char *folder, const char *name, uint8_t *bytes, size_t room) {
    char path[4096];
    int length = snprintf(path, sizeof path, "%s/%s", folder, name);
    FILE *file = length < (int)sizeof path ? fopen(path, "rb") : NULL;
    size_t size = file != NULL ? fread(bytes, 1, room, file) : 0;
    if (file == NULL || ferror(file)) {
        fprintf(stderr, "%s/%s can't be read\n", folder, name);
        exit(1);
    }
    fclose(file);
    return size;
}

int main(int count, char **words) {
    /* One byte more than the longest, so that a longer file is refused and not cut. */
    static uint8_t chart[DOILYSTRAND_MAX_CHART + 1], rule[DOILYSTRAND_MAX_RULE + 1];
    static uint8_t marks[DOILYSTRAND_MAX_MARKS];
    static uint32_t scratch[DOILYSTRAND_MAX_SCRATCH];
    const char *folder = count > 1 ? words[1] : "examples/short";
    size_t chart_size = read_file(folder, "desk.cht", chart, sizeof chart);
    size_t rule_size = read_file(folder, "desk.rul", rule, sizeof rule);

    doilystrand_outcome o = doilystrand_check(chart, chart_size, rule, rule_size, marks, DOILYSTRAND_MAX_MARKS,
                                              scratch, DOILYSTRAND_MAX_SCRATCH);
    if (o.number != 0) {
        doilystrand_words w = doilystrand_words_of(o);
        fprintf(stderr, "refused %u at %u %u: %s (%s", (unsigned)o.number, (unsigned)o.place, (unsigned)o.entry,
                w.sentence, w.paper);
        if (w.counts[0] != 0)
            fprintf(stderr, ", %s %u", w.counts, (unsigned)o.place);
        fprintf(stderr, ")\n");
        return 1;
    }
    /* How many states and nodes there are stands in bytes 5 and 6. The rule itself is its last node. */
    size_t states = chart[5] * 256u + chart[6], last = rule[5] * 256u + rule[6] - 1;
    for (size_t s = 0; s < states; s++)
        printf("state %zu: %s\n", s, marks[last * states + s] == 1 ? "holds" : "does not hold");
    return 0;
}
