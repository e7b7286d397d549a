/* The six functions as a C program calls them. */
#include <stdio.h>
#include <stdlib.h>
#include <string.h>

#include "fql.h"
#include "sample.h"

static int checked, wrong;

/* Not assert.h's, which NDEBUG takes out. */
static void expect(int holds, const char *what, int line) {
    checked++;
    if (!holds) {
        wrong++;
        printf("c/test.c:%d: wrong: %s\n", line, what);
    }
}

#define EXPECT(holds) expect((holds), #holds, __LINE__)

static fql_refusal check(const char *query, const buffer *table) {
    return fql_check((const uint8_t *)query, strlen(query), table->bytes, table->length);
}

static fql_answer evaluate(const char *query, const buffer *table, const buffer *instance) {
    return fql_evaluate((const uint8_t *)query, strlen(query), table->bytes, table->length,
                        instance->bytes, instance->length);
}

static fql_totals mark(const char *query, const buffer *table, const buffer *run, uint8_t *marks, size_t marks_length) {
    return fql_mark((const uint8_t *)query, strlen(query), table->bytes, table->length,
                    run->bytes, run->length, marks, marks_length);
}

/* The length of marks is that of those lent; bytes behind it are the test's own. */
static fql_watched watch(const char *query, const buffer *table, const buffer *run, uint64_t window, uint64_t need,
                         buffer *marks) {
    return fql_watch((const uint8_t *)query, strlen(query), table->bytes, table->length,
                     run->bytes, run->length, window, need, marks->bytes, marks->length);
}

static int is_refusal(fql_refusal found, uint64_t number, uint64_t place) {
    return found.number == number && found.place == place;
}

static int is_answer(fql_answer found, uint64_t included, uint64_t steps) {
    return found.number == 0 && found.place == 0 && found.included == included && found.steps == steps;
}

static int is_failure(fql_answer found, uint64_t number, uint64_t place) {
    return found.number == number && found.place == place && found.included == 0 && found.steps == 0;
}

static int is_part(fql_part found, uint64_t source, uint64_t start, uint64_t length) {
    return found.source == source && found.start == start && found.length == length;
}

static void sample_answers(void) {
    buffer table = sample_table(), instance = sample_instance(1), off = sample_instance(0);
    EXPECT(table.length == 48);
    EXPECT(instance.length == 95);
    EXPECT(is_refusal(check("On = TRUE", &table), 0, 0));
    EXPECT(is_answer(evaluate("On = TRUE", &table, &instance), 1, 1));
    EXPECT(is_answer(evaluate("On = TRUE", &table, &off), 0, 1));
    EXPECT(is_answer(evaluate("Dev = {3,14}", &table, &instance), 1, 3));
    EXPECT(is_answer(evaluate("Dev = {14,3}", &table, &instance), 0, 2));
    EXPECT(is_answer(evaluate("ANY Dev = 14", &table, &instance), 1, 3));
    EXPECT(is_answer(evaluate("NOT EVERY Dev = 3", &table, &instance), 1, 3));
    EXPECT(is_answer(evaluate("Dev[2] = NULL", &table, &instance), 1, 1));
    EXPECT(is_answer(evaluate("Name NOT LIKE 'FAN_.*'", &table, &instance), 0, 6));
    EXPECT(is_answer(evaluate("Temp > 0 AND On = TRUE OR R = .5", &table, &instance), 1, 2));
    EXPECT(is_answer(evaluate("Temp < 18446744073709551615", &table, &instance), 1, 1));
    EXPECT(is_answer(evaluate("Since = '20051003122233.000000+060'", &table, &instance), 1, 1));
}

static void refusals_of_queries(void) {
    buffer table = sample_table(), instance = sample_instance(1);
    char many[65 * 13] = "";
    for (int n = 0; n < 65; n++) strcat(many, n == 0 ? "On = TRUE" : " OR On = TRUE");
    static uint8_t blanks[4097];
    memset(blanks, ' ', sizeof blanks);
    const struct {
        const char *query;
        uint64_t number, place;
    } refused[] = {
        {"", FQL_GRAMMAR, 0},
        {"On = TRUE AND", FQL_GRAMMAR, 13},
        {"Dev ANY 3", FQL_GRAMMAR, 4},
        {"On = '\xff'", FQL_ENCODING, 6},
        {many, FQL_COUNT, 64 * 13},
        {"On = TRUE OR Zed = 1", FQL_UNKNOWN_NAME, 13},
        {"Dev = 3", FQL_SHAPE, 0},
        {"R = 5", FQL_KIND, 0},
        {"Temp < 18446744073709551616", FQL_RANGE, 7},
        {"Name LIKE '('", FQL_PATTERN, 10},
        {"Since = 'x'", FQL_DATETIME, 8},
    };
    for (size_t n = 0; n < sizeof refused / sizeof refused[0]; n++) {
        EXPECT(is_refusal(check(refused[n].query, &table), refused[n].number, refused[n].place));
        EXPECT(is_failure(evaluate(refused[n].query, &table, &instance), refused[n].number, refused[n].place));
    }
    EXPECT(is_refusal(fql_check(blanks, 4096, table.bytes, table.length), FQL_GRAMMAR, 4096));
    EXPECT(is_refusal(fql_check(blanks, 4097, table.bytes, table.length), FQL_QUERY_LENGTH, 0));
}

static void refusals_of_tables_and_instances(void) {
    buffer table = sample_table(), twice = table, cut = table, empty = {{0}, 0}, instance = sample_instance(1);
    put_text(&twice, FQL_TYPE_STRING, "TEMP");
    cut.length -= 1;
    EXPECT(is_refusal(check("On = TRUE", &twice), FQL_NAME_TWICE, 48));
    EXPECT(is_refusal(check("On = TRUE", &cut), FQL_TABLE, 43));
    EXPECT(is_refusal(check("On = TRUE", &empty), FQL_TABLE, 0));
    EXPECT(is_failure(evaluate("On = TRUE", &cut, &instance), FQL_TABLE, 43));
    EXPECT(is_failure(evaluate("On = TRUE", &table, &empty), FQL_INSTANCE, 0));
    instance.length -= 1;
    EXPECT(is_failure(evaluate("On = TRUE", &table, &instance), FQL_INSTANCE, 83));
    /* NULL for each property, then subclass records of no body, and three bytes that are no record. */
    static uint8_t zeros[65536];
    const uint8_t *query = (const uint8_t *)"On = TRUE";
    EXPECT(is_failure(fql_evaluate(query, 9, table.bytes, table.length, zeros, 65535), FQL_INSTANCE, 65532));
    EXPECT(is_failure(fql_evaluate(query, 9, table.bytes, table.length, zeros, 65536), FQL_INSTANCE_LENGTH, 0));
}

/* A class with one property X, whose record starts at 5. */
static buffer table_of(unsigned kind) {
    buffer table = {{0}, 0};
    put_text(&table, FQL_RECORD_CLASS, "P");
    put_text(&table, kind, "X");
    return table;
}

/* Some moment of a minute: before the next minute, equal to itself at another offset, and undecided beside a moment or
   a second of its own. */
static void unknown_digits(void) {
    buffer table = table_of(FQL_TYPE_DATETIME), instance = {{0}, 0}, other = {{0}, 0};
    put_text(&instance, FQL_TYPE_DATETIME, "200510031122**.******+000");
    const struct {
        const char *right;
        int less, equal;
    } compared[] = {
        {"'20051003112300.000000+000'", 1, 0},
        {"'200510031222**.******+060'", 0, 1},
        {"'20051003112200.000000+000'", 0, 0},
        {"'20051003112259.******+000'", 0, 0},
        {"'00000001******.******:000'", 0, 0},
    };
    for (size_t n = 0; n < sizeof compared / sizeof compared[0]; n++) {
        const char *operators[] = {"<", "<=", "=", ">=", ">", "<>"};
        int less = compared[n].less, equal = compared[n].equal;
        const int holds[] = {less, less || equal, equal, equal, 0, !equal};
        for (size_t k = 0; k < 6; k++) {
            char query[64];
            snprintf(query, sizeof query, "X %s %s", operators[k], compared[n].right);
            EXPECT(is_answer(evaluate(query, &table, &instance), (uint64_t)holds[k], 1));
        }
    }
    put_text(&other, FQL_TYPE_DATETIME, "200510031122**.******+00*");
    EXPECT(is_refusal(check("X = '200510031122**.******+00*'", &table), FQL_DATETIME, 4));
    EXPECT(is_failure(evaluate("X = '200510031122**.******+00*'", &table, &instance), FQL_DATETIME, 4));
    EXPECT(is_failure(evaluate("X <> NULL", &table, &other), FQL_INSTANCE, 0));
}

static const unsigned integer_types[] = {FQL_TYPE_UINT8, FQL_TYPE_UINT16, FQL_TYPE_UINT32, FQL_TYPE_UINT64,
                                         FQL_TYPE_SINT8, FQL_TYPE_SINT16, FQL_TYPE_SINT32, FQL_TYPE_SINT64};

static fql_answer evaluate_integer(const char *query, unsigned type, uint64_t value) {
    buffer table = table_of(type), instance = {{0}, 0};
    put_integer(&instance, type, value);
    return evaluate(query, &table, &instance);
}

static void kinds_of_integers(void) {
    buffer null = {{0}, 0};
    put_record(&null, FQL_RECORD_NULL, "", 0);
    for (size_t n = 0; n < sizeof integer_types / sizeof integer_types[0]; n++) {
        buffer scalar = table_of(integer_types[n]), array = table_of(FQL_TYPE_ARRAY | integer_types[n]);
        EXPECT(is_refusal(check("X = 1", &scalar), 0, 0));
        EXPECT(is_refusal(check("ANY X = 1", &array), 0, 0));
        EXPECT(is_refusal(check("X = .5", &scalar), FQL_KIND, 0));
        EXPECT(is_answer(evaluate("X = NULL", &scalar, &null), 1, 1));
    }
    const unsigned none[] = {2, 3, 0x0102, 0x0103, 0x0010, 0x0013, 0x0019, 0x0020, 0x0023, 0x0031, 0x0218};
    for (size_t n = 0; n < sizeof none / sizeof none[0]; n++) {
        buffer table = table_of(none[n]);
        EXPECT(is_refusal(check("X = 1", &table), FQL_TABLE, 5));
    }
}

static void values_of_integers(void) {
    buffer bytes = table_of(FQL_TYPE_UINT8);
    EXPECT(is_refusal(check("X = 300", &bytes), 0, 0));
    EXPECT(is_answer(evaluate_integer("X = -1", FQL_TYPE_SINT8, 0xFF), 1, 1));
    EXPECT(is_answer(evaluate_integer("X = 255", FQL_TYPE_SINT8, 0xFF), 0, 1));
    EXPECT(is_answer(evaluate_integer("X = 255", FQL_TYPE_UINT8, 0xFF), 1, 1));
    EXPECT(is_answer(evaluate_integer("X = -1", FQL_TYPE_UINT8, 0xFF), 0, 1));
    EXPECT(is_answer(evaluate_integer("X = 300", FQL_TYPE_UINT8, 300 & 0xFF), 0, 1));
    EXPECT(is_answer(evaluate_integer("X = -32768", FQL_TYPE_SINT16, 0x8000), 1, 1));
    EXPECT(is_answer(evaluate_integer("X = 258", FQL_TYPE_UINT16, 0x0102), 1, 1));
    EXPECT(is_answer(evaluate_integer("X = -2147483648", FQL_TYPE_SINT32, 0x80000000), 1, 1));
    EXPECT(is_answer(evaluate_integer("X = 4294967295", FQL_TYPE_UINT32, 0xFFFFFFFF), 1, 1));
    EXPECT(is_answer(evaluate_integer("X = -9223372036854775808", FQL_TYPE_SINT64, UINT64_C(1) << 63), 1, 1));
    EXPECT(is_answer(evaluate_integer("X = 18446744073709551615", FQL_TYPE_UINT64, UINT64_MAX), 1, 1));
}

/* All integers are of one row, and meet as whole numbers whatever their widths. */
static void integers_of_two_types(void) {
    buffer table = table_of(FQL_TYPE_SINT8), instance = {{0}, 0};
    put_text(&table, FQL_TYPE_UINT64, "Y");
    put_integer(&instance, FQL_TYPE_SINT8, (uint64_t)-1);
    put_integer(&instance, FQL_TYPE_UINT64, UINT64_MAX);
    EXPECT(is_answer(evaluate("X = Y", &table, &instance), 0, 1));
    EXPECT(is_answer(evaluate("X < Y", &table, &instance), 1, 1));
}

/* The second of two records has a body of each length; as an element, one of another length lets the array fail. */
static void integers_of_another_length(void) {
    for (size_t n = 0; n < sizeof integer_types / sizeof integer_types[0]; n++) {
        unsigned type = integer_types[n];
        size_t width = type & 0x0F;
        buffer table = table_of(type), arrays = table_of(FQL_TYPE_ARRAY | type);
        put_text(&table, type, "Y");
        for (size_t length = 0; length <= 9; length++) {
            buffer instance = {{0}, 0}, array = {{0}, 0};
            put_integer(&instance, type, 1);
            put_record(&instance, type, "\1\0\0\0\0\0\0\0\0", length);
            put_record(&array, FQL_TYPE_ARRAY | type, instance.bytes, instance.length);
            fql_answer scalar = evaluate("X = Y", &table, &instance), every = evaluate("EVERY X = 1", &arrays, &array);
            EXPECT(length == width ? is_answer(scalar, 1, 1) : is_failure(scalar, FQL_INSTANCE, 4 + width));
            EXPECT(length == width ? is_answer(every, 1, 3) : is_failure(every, FQL_INSTANCE, 0));
        }
    }
}

static int is_totals(fql_totals found, uint64_t included, uint64_t excluded, uint64_t failed) {
    int counted = found.included == included && found.excluded == excluded && found.failed == failed;
    return counted && found.number == 0 && found.place == 0;
}

/* Marks on the heap, so that a write past them is seen by a memory checker. */
static void marks_of_a_run(void) {
    buffer table = sample_table(), run = sample_run(), none = {{0}, 0};
    uint8_t *exact = malloc(3), more[5] = {7, 7, 7, 7, 7}, untouched[2] = {8, 9};
    EXPECT(exact != NULL);
    EXPECT(is_totals(mark("On = TRUE", &table, &run, exact, 3), 1, 1, 1));
    EXPECT(exact[0] == FQL_INCLUDED && exact[1] == FQL_EXCLUDED && exact[2] == FQL_FAILED);
    EXPECT(is_totals(mark("R = .5", &table, &run, exact, 3), 2, 0, 1));
    EXPECT(exact[0] == FQL_INCLUDED && exact[1] == FQL_INCLUDED && exact[2] == FQL_FAILED);
    free(exact);
    EXPECT(is_totals(mark("On = TRUE", &table, &run, more, 5), 1, 1, 1));
    EXPECT(memcmp(more, (uint8_t[]){1, 0, 255, 7, 7}, 5) == 0);
    EXPECT(is_totals(mark("On = TRUE", &table, &none, untouched, 2), 0, 0, 0));
    EXPECT(is_totals(mark("On = TRUE", &table, &none, untouched, 0), 0, 0, 0));
    EXPECT(untouched[0] == 8 && untouched[1] == 9);
}

static int is_unmarked(fql_totals found, uint64_t number, uint64_t place, const uint8_t *marks, size_t length) {
    int same = found.number == number && found.place == place;
    same = same && found.included == 0 && found.excluded == 0 && found.failed == 0;
    for (size_t n = 0; n < length; n++) same = same && marks[n] == 7;
    return same;
}

static void marks_of_a_refused_call(void) {
    buffer table = sample_table(), run = sample_run(), broken = run, other = run, empty = {{0}, 0};
    uint8_t marks[4] = {7, 7, 7, 7};
    broken.length -= 1;
    put_record(&other, FQL_RECORD_INSTANCE + 1, "", 0);
    EXPECT(run.length == 202);
    EXPECT(is_unmarked(mark("On = TRUE AND", &table, &run, marks, 4), FQL_GRAMMAR, 13, marks, 4));
    EXPECT(is_unmarked(mark("On = TRUE", &empty, &run, marks, 4), FQL_TABLE, 0, marks, 4));
    EXPECT(is_unmarked(mark("On = TRUE", &table, &broken, marks, 4), FQL_RUN, 198, marks, 4));
    EXPECT(is_unmarked(mark("On = TRUE", &table, &other, marks, 4), FQL_RUN, 202, marks, 4));
    EXPECT(is_unmarked(mark("On = TRUE", &table, &other, marks, 0), FQL_RUN, 202, marks, 4));
    EXPECT(is_unmarked(mark("On = TRUE", &table, &run, marks, 2), FQL_MARKS_LENGTH, 0, marks, 4));
    EXPECT(is_unmarked(mark("On = TRUE", &table, &run, marks, 0), FQL_MARKS_LENGTH, 0, marks, 4));
}

static int is_watched(fql_watched found, uint64_t ones, uint64_t zeros) {
    return found.number == 0 && found.place == 0 && found.ones == ones && found.zeros == zeros;
}

/* So many marks of 7, and more of them behind those. */
static buffer sevens(size_t length) {
    buffer marks = {{0}, length};
    memset(marks.bytes, 7, sizeof marks.bytes);
    return marks;
}

/* Each mark is 1, 0 or, where it is left alone, 7; all behind them are left alone. */
static int are_marks(const buffer *marks, const char *expected) {
    int same = 1;
    for (size_t n = 0; n < sizeof marks->bytes; n++) {
        same = same && marks->bytes[n] == (n < strlen(expected) ? expected[n] - '0' : 7);
    }
    return same;
}

/* The plain marks of the sample's run are 1, 0 and 255; of the longer run 1, 0, 1, 1, 255 and 0. */
static void watched_runs(void) {
    buffer table = sample_table(), run = sample_run(), longer = {{0}, 0}, none = {{0}, 0};
    buffer on = sample_instance(1), off = sample_instance(0);
    for (const char *plain = "1011x0"; *plain != 0; plain++) {
        const buffer *body = *plain == '1' ? &on : *plain == '0' ? &off : &none;
        put_record(&longer, FQL_RECORD_INSTANCE, body->bytes, body->length);
    }
    const struct {
        const buffer *run;
        uint64_t window, need, ones, zeros;
        const char *marks;
    } watched[] = {
        {&run, 1, 1, 1, 2, "100"},
        {&run, 2, 1, 2, 1, "110"},
        {&run, 3, 1, 3, 0, "111"},
        {&run, 3, 2, 0, 3, "000"},
        {&run, 64, 1, 3, 0, "111"},
        {&run, 64, 64, 0, 3, "000"},
        {&longer, 1, 1, 3, 3, "101100"},
        {&longer, 2, 2, 1, 5, "000100"},
        {&longer, 3, 2, 3, 3, "001110"},
        {&longer, 4, 3, 1, 5, "000100"},
        {&longer, 64, 3, 3, 3, "000111"},
        {&none, 64, 64, 0, 0, ""},
    };
    for (size_t n = 0; n < sizeof watched / sizeof watched[0]; n++) {
        for (size_t more = 0; more <= 2; more++) {
            buffer marks = sevens(strlen(watched[n].marks) + more);
            fql_watched found = watch("On = TRUE", &table, watched[n].run, watched[n].window, watched[n].need, &marks);
            EXPECT(is_watched(found, watched[n].ones, watched[n].zeros));
            EXPECT(are_marks(&marks, watched[n].marks));
        }
    }
}

/* The first of 100 instances is included. Marks on the heap, so that a write past them is seen by a memory checker. */
static void watched_until_the_window_has_passed(void) {
    buffer table = table_of(FQL_TYPE_BOOLEAN), run = {{0}, 0}, on = {{0}, 0}, off = {{0}, 0};
    put_record(&on, FQL_TYPE_BOOLEAN, "\1", 1);
    put_record(&off, FQL_TYPE_BOOLEAN, "\0", 1);
    for (int n = 0; n < 100; n++) put_record(&run, FQL_RECORD_INSTANCE, n == 0 ? on.bytes : off.bytes, on.length);
    uint8_t *marks = malloc(100);
    EXPECT(marks != NULL);
    for (uint64_t window = 1; window <= 64; window++) {
        fql_watched found = fql_watch((const uint8_t *)"X = TRUE", 8, table.bytes, table.length,
                                      run.bytes, run.length, window, 1, marks, 100);
        EXPECT(is_watched(found, window, 100 - window));
        int same = 1;
        for (uint64_t n = 0; n < 100; n++) same = same && marks[n] == (n < window);
        EXPECT(same);
    }
    free(marks);
}

static int is_unwatched(fql_watched found, uint64_t number, uint64_t place, const buffer *marks) {
    int same = found.number == number && found.place == place && found.ones == 0 && found.zeros == 0;
    return same && are_marks(marks, "");
}

/* Each window and need out of range is refused first; with those in range the call is refused as mark is. */
static void watches_of_a_refused_call(void) {
    buffer table = sample_table(), run = sample_run(), broken = run, empty = {{0}, 0};
    broken.length -= 1;
    const struct {
        const char *query;
        const buffer *table, *run;
        size_t marks;
        uint64_t number, place;
    } calls[] = {
        {"On = TRUE", &table, &run, 4, 0, 0},
        {"On = TRUE", &empty, &run, 4, FQL_TABLE, 0},
        {"On = TRUE AND", &table, &run, 4, FQL_GRAMMAR, 13},
        {"On = TRUE", &table, &broken, 4, FQL_RUN, 198},
        {"On = TRUE", &table, &run, 2, FQL_MARKS_LENGTH, 0},
        {"On = TRUE", &table, &run, 0, FQL_MARKS_LENGTH, 0},
    };
    const uint64_t out_of_range[][2] = {
        {0, 0}, {0, 1}, {0, 5}, {65, 1}, {65, 65}, {UINT64_MAX, 1}, {(UINT64_C(1) << 32) | 3, 2},
        {1, 0}, {64, 0}, {1, 2}, {3, 4}, {64, 65}, {64, UINT64_MAX}, {64, (UINT64_C(1) << 32) | 2},
    };
    for (size_t n = 0; n < sizeof calls / sizeof calls[0]; n++) {
        for (size_t k = 0; k < sizeof out_of_range / sizeof out_of_range[0]; k++) {
            buffer marks = sevens(calls[n].marks);
            uint64_t window = out_of_range[k][0], need = out_of_range[k][1];
            fql_watched found = watch(calls[n].query, calls[n].table, calls[n].run, window, need, &marks);
            EXPECT(is_unwatched(found, FQL_WINDOW, 0, &marks));
        }
        if (calls[n].number == 0) continue;
        buffer marks = sevens(calls[n].marks);
        fql_watched found = watch(calls[n].query, calls[n].table, calls[n].run, 3, 2, &marks);
        EXPECT(is_unwatched(found, calls[n].number, calls[n].place, &marks));
    }
}

/* The length of text is that of the buffer lent; bytes behind it are the test's own. */
static fql_conjoined conjoin(const char *first, const char *second, const buffer *table, buffer *text) {
    return fql_conjoin((const uint8_t *)first, strlen(first), (const uint8_t *)second, strlen(second),
                       table->bytes, table->length, text->bytes, text->length);
}

static int is_conjoined(fql_conjoined found, uint64_t length) {
    return found.number == 0 && found.place == 0 && found.query == 0 && found.length == length;
}

/* The buffer starts with the text, and all behind it is left alone. */
static int is_text(const buffer *found, const char *expected) {
    size_t length = strlen(expected);
    int same = memcmp(found->bytes, expected, length) == 0;
    for (size_t n = length; n < sizeof found->bytes; n++) same = same && found->bytes[n] == 7;
    return same;
}

static void conjoined_queries(void) {
    buffer table = sample_table();
    const struct {
        const char *first, *second, *text;
    } joined[] = {
        {"On = TRUE", "Temp < 0", "(On = TRUE) AND (Temp < 0)"},
        {"(On = TRUE)", "\t( Temp  < 0\r\n)\n", "(On = TRUE) AND (Temp  < 0)"},
        {"On=TRUE OR R=.5", "Temp<0", "(On=TRUE OR R=.5) AND (Temp<0)"},
        {"(On=TRUE)or(R=.5)", "Temp<0", "(On=TRUE) AND (Temp<0) OR (R=.5) AND (Temp<0)"},
        {"(R=1.)AND(R=2.)", "(Temp=3)OR(Temp=4)AND(Temp=5)",
         "(R=1.) AND (R=2.) AND (Temp=3) OR (R=1.) AND (R=2.) AND (Temp=4) AND (Temp=5)"},
        {"Name = ') OR ('", "(Name = '(') OR (Name = '\\'')",
         "(Name = ') OR (') AND (Name = '(') OR (Name = ') OR (') AND (Name = '\\'')"},
    };
    for (size_t n = 0; n < sizeof joined / sizeof joined[0]; n++) {
        size_t length = strlen(joined[n].text);
        for (size_t more = 0; more <= 2; more++) {
            buffer text = sevens(length + more);
            EXPECT(is_conjoined(conjoin(joined[n].first, joined[n].second, &table, &text), length));
            EXPECT(is_text(&text, joined[n].text));
        }
        EXPECT(is_refusal(check(joined[n].text, &table), 0, 0));
        for (int on = 0; on <= 1; on++) {
            buffer instance = sample_instance(on);
            uint64_t both = evaluate(joined[n].first, &table, &instance).included &
                            evaluate(joined[n].second, &table, &instance).included;
            EXPECT(evaluate(joined[n].text, &table, &instance).included == both);
        }
    }
}

static int is_unjoined(fql_conjoined found, uint64_t query, uint64_t number, uint64_t place) {
    return found.number == number && found.place == place && found.query == query && found.length == 0;
}

/* So many comparisons, joined by OR to one group. */
static void repeat(char *out, int comparisons) {
    *out = 0;
    for (int n = 0; n < comparisons; n++) strcat(out, n == 0 ? "R=.5" : " OR R=.5");
}

/* The first is checked, then the second, and then come 43 and 44. */
static void conjoins_of_a_refused_call(void) {
    buffer table = sample_table(), empty = {{0}, 0};
    char many[65 * 8];
    repeat(many, 64);
    const struct {
        const char *first, *second;
        const buffer *table;
        size_t length;
        uint64_t query, number, place;
    } refused[] = {
        {"On = TRUE AND", "On = TRUE", &table, 100, 1, FQL_GRAMMAR, 13},
        {"On = TRUE", "On = TRUE AND", &table, 100, 2, FQL_GRAMMAR, 13},
        {"Since = 'x'", "On = TRUE AND", &table, 100, 1, FQL_DATETIME, 8},
        {"On = TRUE", "(On = TRUE) OR (Zed = 1)", &table, 0, 2, FQL_UNKNOWN_NAME, 16},
        {"On = TRUE", "On = TRUE", &empty, 100, 1, FQL_TABLE, 0},
        {"On = TRUE AND", "", &empty, 0, 1, FQL_TABLE, 0},
        {many, "On = TRUE AND", &table, 1024, 2, FQL_GRAMMAR, 13},
        {many, "On = TRUE", &table, 1024, 0, FQL_CONJUNCTION_SIZE, 0},
        {"On = TRUE", many, &table, 0, 0, FQL_CONJUNCTION_SIZE, 0},
        {"On = TRUE", "Temp < 0", &table, 25, 0, FQL_CONJUNCTION_BUFFER, 0},
        {"On = TRUE", "Temp < 0", &table, 0, 0, FQL_CONJUNCTION_BUFFER, 0},
    };
    for (size_t n = 0; n < sizeof refused / sizeof refused[0]; n++) {
        buffer text = sevens(refused[n].length);
        fql_conjoined found = conjoin(refused[n].first, refused[n].second, refused[n].table, &text);
        EXPECT(is_unjoined(found, refused[n].query, refused[n].number, refused[n].place));
        EXPECT(is_text(&text, ""));
    }
    repeat(many, 63);
    buffer text = sevens(sizeof text.bytes);
    EXPECT(is_conjoined(conjoin(many, "R=.5", &table, &text), strlen(many) + 4 + 9));
}

/* A query of so many bytes beside one of 9. Its text is on the heap, so that a write past it is seen by a memory
   checker. */
static void conjoined_to_the_longest_text(void) {
    buffer table = sample_table();
    static uint8_t query[4079];
    memset(query, ' ', sizeof query);
    memcpy(query, "On", 2);
    for (size_t length = 4077; length <= 4079; length++) {
        memcpy(query + length - 6, "= TRUE", 6);
        for (size_t less = 0; less <= 1; less++) {
            size_t room = length + 9 + 9 - less;
            uint8_t *text = malloc(room);
            EXPECT(text != NULL);
            fql_conjoined found = fql_conjoin(query, length, (const uint8_t *)"On = TRUE", 9, table.bytes, table.length,
                                              text, room);
            if (length == 4079) EXPECT(is_unjoined(found, 0, FQL_CONJUNCTION_SIZE, 0));
            else if (less) EXPECT(is_unjoined(found, 0, FQL_CONJUNCTION_BUFFER, 0));
            else EXPECT(is_conjoined(found, room) && memcmp(text + 1, query, length) == 0);
            free(text);
        }
        memset(query + length - 6, ' ', 6);
    }
}

static void parts_at_faults(void) {
    buffer table = sample_table();
    const uint8_t *query = (const uint8_t *)"On = TRUE AND";
    for (uint64_t number = 0; number <= 44; number++) {
        int of_table = number == 2 || number == 3, of_either = number >= 1 && number <= 25;
        uint64_t source = of_table ? FQL_OF_TABLE : of_either ? FQL_OF_QUERY : FQL_NOTHING;
        uint64_t length = source == FQL_OF_TABLE ? 48 : source == FQL_OF_QUERY ? 13 : 0;
        for (uint64_t place = 0; place <= length; place++) {
            uint64_t start = source == FQL_NOTHING ? 0 : place;
            EXPECT(is_part(fql_fault_text(query, 13, table.bytes, 48, number, place), source, start, length - start));
        }
        EXPECT(is_part(fql_fault_text(query, 13, table.bytes, 48, number, length + 1), FQL_NOTHING, 0, 0));
        EXPECT(is_part(fql_fault_text(query, 13, table.bytes, 48, number, UINT64_MAX), FQL_NOTHING, 0, 0));
    }
    EXPECT(is_part(fql_fault_text(query, 13, table.bytes, 48, UINT64_MAX, 0), FQL_NOTHING, 0, 0));
    EXPECT(is_part(fql_fault_text(query, 13, table.bytes, 48, (UINT64_C(1) << 32) | 2, 0), FQL_NOTHING, 0, 0));
}

/* A slice of length 0 is never read. Its pointer is to a block's end, so that a memory checker would see a read. */
static void empty_slices(void) {
    uint8_t *block = malloc(1);
    EXPECT(block != NULL);
    uint8_t *none = block + 1;
    buffer table = sample_table();
    EXPECT(is_refusal(fql_check(none, 0, none, 0), FQL_TABLE, 0));
    EXPECT(is_refusal(fql_check(none, 0, table.bytes, table.length), FQL_GRAMMAR, 0));
    const uint8_t *query = (const uint8_t *)"On = TRUE";
    EXPECT(is_failure(fql_evaluate(query, 9, table.bytes, table.length, none, 0), FQL_INSTANCE, 0));
    EXPECT(is_totals(fql_mark(query, 9, table.bytes, table.length, none, 0, none, 0), 0, 0, 0));
    EXPECT(is_watched(fql_watch(query, 9, table.bytes, table.length, none, 0, 3, 2, none, 0), 0, 0));
    EXPECT(fql_watch(none, 0, none, 0, none, 0, 0, 0, none, 0).number == FQL_WINDOW);
    EXPECT(is_unjoined(fql_conjoin(none, 0, none, 0, none, 0, none, 0), 1, FQL_TABLE, 0));
    EXPECT(is_unjoined(fql_conjoin(none, 0, none, 0, table.bytes, table.length, none, 0), 1, FQL_GRAMMAR, 0));
    EXPECT(is_unjoined(fql_conjoin(query, 9, none, 0, table.bytes, table.length, none, 0), 2, FQL_GRAMMAR, 0));
    fql_conjoined joined = fql_conjoin(query, 9, query, 9, table.bytes, table.length, none, 0);
    EXPECT(is_unjoined(joined, 0, FQL_CONJUNCTION_BUFFER, 0));
    EXPECT(is_part(fql_fault_text(none, 0, none, 0, 11, 0), FQL_OF_QUERY, 0, 0));
    EXPECT(is_part(fql_fault_text(none, 0, none, 0, 2, 0), FQL_OF_TABLE, 0, 0));
    EXPECT(is_part(fql_fault_text(none, 0, none, 0, 2, 1), FQL_NOTHING, 0, 0));
    free(block);
}

int main(void) {
    sample_answers();
    refusals_of_queries();
    refusals_of_tables_and_instances();
    unknown_digits();
    kinds_of_integers();
    values_of_integers();
    integers_of_two_types();
    integers_of_another_length();
    marks_of_a_run();
    marks_of_a_refused_call();
    watched_runs();
    watched_until_the_window_has_passed();
    watches_of_a_refused_call();
    conjoined_queries();
    conjoins_of_a_refused_call();
    conjoined_to_the_longest_text();
    parts_at_faults();
    empty_slices();
    printf("c/test.c: %d of %d hold\n", checked - wrong, checked);
    return wrong == 0 ? 0 : 1;
}
