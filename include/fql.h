/* A proved filter engine for DMTF's Filter Query Language (DSP0212).

   A query is a filter's text. A table says which properties a class has, an instance holds their values, and a run is
   a sequence of instances; these three are made of records: a body length (2 bytes), a kind (2 bytes), the body; least
   byte first.

   Every function takes bytes of any content and length, and numbers of any size, and returns. It allocates nothing,
   keeps nothing, and writes nowhere but into marks or buffer, so it may be called from any thread. Each slice is a
   pointer and a length in bytes. A pointer may not be null, also where its length is 0, and neither marks nor buffer
   may overlap the other bytes of the call; these may overlap one another.

   A call takes less than 16 KiB of stack. Only the groups of a LIKE pattern, at most 8 inside one another, make it call
   deeper. Measured were at most 13,343 bytes below the caller for fql_conjoin, 10,031 for fql_watch, 9,975 for fql_mark,
   9,743 for fql_evaluate, 8,559 for fql_check and 512 for fql_fault_text. docs/PERFORMANCE.md has the time of the slowest
   inputs that are known.

   Link with libfql_export.a, which `rt lib` in crates/fql_export writes into crates/fql_export/out. */
#ifndef FQL_H
#define FQL_H

#include <stddef.h>
#include <stdint.h>

#ifdef __cplusplus
extern "C" {
#endif

/* The kinds of records other than those of properties and values. */
enum fql_record {
    FQL_RECORD_NULL = 0,         /* in an instance or an array, in place of a value; its body is empty */
    FQL_RECORD_CLASS = 0x0200,   /* a table's first record; its body is the class name */
    FQL_RECORD_INSTANCE = 0x0300 /* each record of a run; its body is an instance */
};

/* The types, with the bodies of their values. A table has a record for each property after that of the class: its kind
   is the type, plus FQL_TYPE_ARRAY for an array, and its body is the name. An instance has a record for each property
   in the table's order: of the same kind, with the value as body, or NULL. An array's body is a record for each
   element: of the type without FQL_TYPE_ARRAY, or NULL. The last hex digit of an integer's type is the number of its
   bytes; they are stored least byte first, and signed ones in two's complement. A datetime, in an instance or as a
   literal, is a text: a timestamp, yyyymmddhhmmss.mmmmmm with a sign and three digits of minutes from UTC, or an
   interval, ddddddddhhmmss.mmmmmm:000. `*` stands for a digit that isn't known, from the start of a field or from a
   microsecond digit on up to the last microsecond digit. Such a datetime is less than another if the last moment that
   it can be is before the other's first, and equal to it if both have the same first and last moment; where neither
   holds, nor the reverse, `<>` alone is true. */
enum fql_type {
    FQL_TYPE_BOOLEAN = 1,     /* one byte, 0 or 1 */
    FQL_TYPE_UINT8 = 0x0011,  /* unsigned integers of 1, 2, 4 and 8 bytes */
    FQL_TYPE_UINT16 = 0x0012,
    FQL_TYPE_UINT32 = 0x0014,
    FQL_TYPE_UINT64 = 0x0018,
    FQL_TYPE_SINT8 = 0x0021,  /* signed integers of 1, 2, 4 and 8 bytes */
    FQL_TYPE_SINT16 = 0x0022,
    FQL_TYPE_SINT32 = 0x0024,
    FQL_TYPE_SINT64 = 0x0028,
    FQL_TYPE_REAL32 = 4,      /* 4 bytes, IEEE 754, least byte first */
    FQL_TYPE_REAL64 = 5,      /* 8 bytes, likewise */
    FQL_TYPE_STRING = 6,      /* UTF-8 */
    FQL_TYPE_CHAR16 = 7,      /* 2 bytes, least byte first: a character up to U+FFFF, no surrogate */
    FQL_TYPE_OCTETS = 8,      /* any bytes */
    FQL_TYPE_DATETIME = 9,    /* 25 bytes: a timestamp or an interval, see above */
    FQL_TYPE_REFERENCE = 10,  /* UTF-8 */
    FQL_TYPE_ARRAY = 0x0100   /* what an array adds to the type of its elements */
};

/* The numbers of refusals, in the order in which the causes are tried. Number 0 means that nothing is refused. */
enum fql_cause {
    FQL_WINDOW = 42,            /* fql_watch's window is not from 1 to 64, or its need not from 1 to the window */
    FQL_TABLE = 2,              /* the table is longer than 8,192 bytes, or a record is malformed or has a bad name */
    FQL_NAME_TWICE = 3,         /* the table has a property name twice */
    FQL_QUERY_LENGTH = 1,       /* the query is longer than 4,096 bytes */
    FQL_ENCODING = 10,          /* the query is not UTF-8 */
    FQL_GRAMMAR = 11,           /* something is no token, or no query can have this token here */
    FQL_COUNT = 12,             /* a 65th comparison, or a 33rd element of an array literal */
    FQL_UNKNOWN_NAME = 20,      /* a path names no property of the table */
    FQL_SHAPE = 22,             /* a scalar stands where the comparison's form needs an array, or the reverse */
    FQL_KIND = 21,              /* the sides are of different rows of types, or the row doesn't have the operator */
    FQL_RANGE = 23,             /* a literal or an index is out of range */
    FQL_PATTERN = 24,           /* a pattern is malformed or too large */
    FQL_DATETIME = 25,          /* a datetime literal is malformed */
    FQL_INSTANCE_LENGTH = 30,   /* the instance is longer than 65,535 bytes */
    FQL_INSTANCE = 31,          /* the instance doesn't conform to the table */
    FQL_RUN = 40,               /* the run doesn't divide into records of kind 0x0300 */
    FQL_MARKS_LENGTH = 41,      /* there are fewer marks than instances in the run */
    FQL_CONJUNCTION_SIZE = 43,  /* fql_conjoin's text would have more than 64 comparisons or 4,096 bytes */
    FQL_CONJUNCTION_BUFFER = 44 /* fql_conjoin's buffer is shorter than the text */
};

/* The marks that fql_mark writes. Those of fql_watch are 1 and 0. */
enum fql_mark_byte {
    FQL_EXCLUDED = 0,
    FQL_INCLUDED = 1,
    FQL_FAILED = 255 /* the instance doesn't conform to the table */
};

/* The sources of a fault's text. */
enum fql_source {
    FQL_NOTHING = 0,
    FQL_OF_QUERY = 1,
    FQL_OF_TABLE = 2
};

/* A refusal: its number, or 0, and its place, a byte offset into the table (2, 3), the query (1, 10 to 25), the
   instance (31) or the run (40). The place is 0 where a whole, a number (42) or a length (43, 44) is at fault, and the
   length of a text or of records where something is missing at their end. */
typedef struct fql_refusal {
    uint64_t number;
    uint64_t place;
} fql_refusal;

/* Where number is 0, included is 1 or 0, and steps is what the evaluation took; otherwise both are 0. */
typedef struct fql_answer {
    uint64_t number;
    uint64_t place;
    uint64_t included;
    uint64_t steps;
} fql_answer;

/* Where number is 0, how many instances of the run are included, are excluded and failed; otherwise all three are 0. */
typedef struct fql_totals {
    uint64_t number;
    uint64_t place;
    uint64_t included;
    uint64_t excluded;
    uint64_t failed;
} fql_totals;

/* Where number is 0, how many instances of the run are marked 1, and how many 0; otherwise both are 0. */
typedef struct fql_watched {
    uint64_t number;
    uint64_t place;
    uint64_t ones;
    uint64_t zeros;
} fql_watched;

/* Where number is 0, the length of the text in the buffer, and query is 0. Otherwise length is 0, and query says whose
   check has refused: 1 for the first, also where the table is at fault, 2 for the second, and 0 where both are accepted
   (43, 44). The place of 1 and of 10 to 25 is one in that query. */
typedef struct fql_conjoined {
    uint64_t number;
    uint64_t place;
    uint64_t query;
    uint64_t length;
} fql_conjoined;

/* A part of the query or of the table: which of them, from which byte on, and how many bytes. All are 0 where there is
   none. */
typedef struct fql_part {
    uint64_t source;
    uint64_t start;
    uint64_t length;
} fql_part;

/* Whether the query can be evaluated on the instances of the table's class. A query that is accepted is answered on
   every instance that conforms to the table; one that is refused fails on each of them with the same number and
   place. */
fql_refusal fql_check(const uint8_t *query, size_t query_length, const uint8_t *table, size_t table_length);

/* Whether the query includes an instance, and in how many steps. Only the properties that the query names count, in
   any of its comparisons: instances that conform to the table and hold the same records for these have the same
   answer. */
fql_answer fql_evaluate(const uint8_t *query, size_t query_length, const uint8_t *table, size_t table_length,
                        const uint8_t *instance, size_t instance_length);

/* Writes one mark for each instance of the run. Marks beyond the run's instances keep their values, and a refused call
   leaves all as they were. */
fql_totals fql_mark(const uint8_t *query, size_t query_length, const uint8_t *table, size_t table_length,
                    const uint8_t *run, size_t run_length, uint8_t *marks, size_t marks_length);

/* Whether enough of the last instances are included: writes 1 for an instance of the run if at least need of the last
   window instances, up to and with it, are included, else 0. Before so many have passed, those that there are count, so
   the marks are 0 until need of them are included. An instance that fql_mark would mark FQL_FAILED takes its place
   among the last and counts as not included; its own mark is 1 or 0 like any other. The window is from 1 to 64, and the
   need from 1 to the window; all else is refused with FQL_WINDOW, whatever the bytes are, and then a call is refused as
   fql_mark refuses it. Marks beyond the run's instances keep their values, and a refused call leaves all as they were.

   A window doesn't reach into an earlier call. To go on over batches, lend the last window - 1 instances again in front
   of the next ones, and ignore the marks that those get there. */
fql_watched fql_watch(const uint8_t *query, size_t query_length, const uint8_t *table, size_t table_length,
                      const uint8_t *run, size_t run_length, uint64_t window, uint64_t need,
                      uint8_t *marks, size_t marks_length);

/* Writes one query that includes exactly the instances that both queries include, and that fql_check accepts against
   the same table. Its text goes into the buffer, without a NUL behind it, and its length is returned; a buffer of 4,096
   bytes is never too short. Bytes beyond the text keep their values, and a refused call leaves all as they were.

   A query is terms joined by OR, of groups joined by AND; one without brackets is a single group, whatever it joins
   inside. Each term of the first is written with each of the second, in order: its groups and then the other's, each as
   it stands between its brackets but without whitespace at its ends. So `Temp > 90` and `(Name = 'a') OR (Name = 'b')`
   make `(Temp > 90) AND (Name = 'a') OR (Temp > 90) AND (Name = 'b')`.

   The queries are checked, the first before the second. If both are accepted, a text of more than 64 comparisons or
   4,096 bytes is refused with FQL_CONJUNCTION_SIZE, and then one that is longer than the buffer with
   FQL_CONJUNCTION_BUFFER. */
fql_conjoined fql_conjoin(const uint8_t *first, size_t first_length, const uint8_t *second, size_t second_length,
                          const uint8_t *table, size_t table_length, uint8_t *buffer, size_t buffer_length);

/* The part that a refusal is about, from its place on: of the table for 2 and 3, of the query for the other numbers
   from 1 to 25; nothing for any other number or for a place past the end. */
fql_part fql_fault_text(const uint8_t *query, size_t query_length, const uint8_t *table, size_t table_length,
                        uint64_t number, uint64_t place);

#ifdef __cplusplus
}
#endif

#endif
