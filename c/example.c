/* A management agent in small: it takes a filter in, checks it once, and then runs it over instances. */
#include <stdio.h>
#include <string.h>

#include "fql.h"
#include "sample.h"

static const uint8_t *bytes_of(const char *text) {
    return (const uint8_t *)text;
}

/* Takes a filter in, or shows its author what is wrong with it. */
static int accept(const char *filter, const buffer *table) {
    size_t length = strlen(filter);
    fql_refusal refusal = fql_check(bytes_of(filter), length, table->bytes, table->length);
    if (refusal.number == 0) {
        printf("accepted: %s\n", filter);
        return 1;
    }
    printf("refused %d at %d: %s\n", (int)refusal.number, (int)refusal.place, filter);
    fql_part part =
        fql_fault_text(bytes_of(filter), length, table->bytes, table->length, refusal.number, refusal.place);
    if (part.source == FQL_OF_QUERY) {
        printf("  from here on: \"%.*s\"\n", (int)part.length, filter + part.start);
    }
    return 0;
}

/* Asks about one instance. For a filter that was accepted, only an instance that doesn't conform is refused. */
static void ask(const char *filter, const buffer *table, const buffer *instance) {
    fql_answer answer = fql_evaluate(bytes_of(filter), strlen(filter), table->bytes, table->length,
                                     instance->bytes, instance->length);
    if (answer.number != 0) {
        printf("  failed %d at %d\n", (int)answer.number, (int)answer.place);
        return;
    }
    printf("  %s, steps: %d\n", answer.included ? "included" : "excluded", (int)answer.steps);
}

/* Marks all instances of a run in one call. There has to be a mark for each; more do no harm. */
static void mark(const char *filter, const buffer *table, const buffer *run) {
    uint8_t marks[8] = {0};
    fql_totals totals = fql_mark(bytes_of(filter), strlen(filter), table->bytes, table->length,
                                 run->bytes, run->length, marks, sizeof marks);
    if (totals.number != 0) {
        printf("  refused %d at %d\n", (int)totals.number, (int)totals.place);
        return;
    }
    uint64_t instances = totals.included + totals.excluded + totals.failed;
    for (uint64_t n = 0; n < instances; n++) {
        const char *word = marks[n] == FQL_INCLUDED ? "included" : marks[n] == FQL_EXCLUDED ? "excluded" : "failed";
        printf("  instance %d: %s\n", (int)n + 1, word);
    }
    printf("  %d included, %d excluded, %d failed\n", (int)totals.included, (int)totals.excluded, (int)totals.failed);
}

/* Tells at which instances enough of the last are included: two of the last three, so that one alone is not enough. */
static void watch(const char *filter, const buffer *table, const buffer *run) {
    uint8_t marks[8] = {0};
    fql_watched watched = fql_watch(bytes_of(filter), strlen(filter), table->bytes, table->length,
                                    run->bytes, run->length, 3, 2, marks, sizeof marks);
    if (watched.number != 0) {
        printf("  refused %d at %d\n", (int)watched.number, (int)watched.place);
        return;
    }
    for (uint64_t n = 0; n < watched.ones + watched.zeros; n++) {
        if (marks[n] == 1) printf("  instance %d: at least two of the last three included\n", (int)n + 1);
    }
    printf("  %d ones, %d zeros\n", (int)watched.ones, (int)watched.zeros);
}

/* Makes one filter of two, for somebody who wants what both include. A text of 4,096 bytes is the longest. */
static void conjoin(const char *first, const char *second, const buffer *table, const buffer *instance) {
    uint8_t text[4096 + 1];
    fql_conjoined joined = fql_conjoin(bytes_of(first), strlen(first), bytes_of(second), strlen(second),
                                       table->bytes, table->length, text, sizeof text - 1);
    if (joined.number != 0) {
        const char *of[] = {"both", "the first", "the second"};
        printf("refused %d at %d, for %s\n", (int)joined.number, (int)joined.place, of[joined.query]);
        return;
    }
    text[joined.length] = 0;
    printf("in one: %s\n", (const char *)text);
    ask((const char *)text, table, instance);
}

int main(void) {
    buffer table = sample_table(), instance = sample_instance(1), run = sample_run();
    const char *filters[] = {
        "Temp > 0 AND On = TRUE OR R = .5",
        "Name NOT LIKE 'FAN_.*'",
        "On = TRUE",
        "On = TRUE AND Tmp = 1",
    };
    for (size_t n = 0; n < sizeof filters / sizeof filters[0]; n++) {
        if (accept(filters[n], &table)) {
            ask(filters[n], &table, &instance);
            mark(filters[n], &table, &run);
            watch(filters[n], &table, &run);
        }
    }
    for (size_t n = 1; n < sizeof filters / sizeof filters[0]; n++) {
        conjoin(filters[0], filters[n], &table, &instance);
    }
    return 0;
}
