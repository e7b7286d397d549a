/* A class with six properties, and instances of it. */
#ifndef SAMPLE_H
#define SAMPLE_H

#include "fql.h"
#include "record.h"

static inline buffer sample_table(void) {
    buffer table = {{0}, 0};
    put_text(&table, FQL_RECORD_CLASS, "P");
    put_text(&table, FQL_TYPE_BOOLEAN, "On");
    put_text(&table, FQL_TYPE_SINT64, "Temp");
    put_text(&table, FQL_TYPE_ARRAY | FQL_TYPE_UINT64, "Dev");
    put_text(&table, FQL_TYPE_STRING, "Name");
    put_text(&table, FQL_TYPE_DATETIME, "Since");
    put_text(&table, FQL_TYPE_REAL64, "R");
    return table;
}

static inline buffer sample_instance(int on) {
    buffer elements = {{0}, 0}, instance = {{0}, 0};
    put_integer(&elements, FQL_TYPE_UINT64, 3);
    put_integer(&elements, FQL_TYPE_UINT64, 14);
    put_record(&instance, FQL_TYPE_BOOLEAN, (uint8_t[]){on != 0}, 1);
    put_integer(&instance, FQL_TYPE_SINT64, (uint64_t)-5);
    put_record(&instance, FQL_TYPE_ARRAY | FQL_TYPE_UINT64, elements.bytes, elements.length);
    put_text(&instance, FQL_TYPE_STRING, "FAN_2");
    put_text(&instance, FQL_TYPE_DATETIME, "20051003112233.000000+000");
    put_word(&instance, FQL_TYPE_REAL64, 0x3fe0000000000000, 8); /* 0.5 */
    return instance;
}

/* An instance that is on, one that is off, and an empty one, which doesn't conform. */
static inline buffer sample_run(void) {
    buffer run = {{0}, 0}, on = sample_instance(1), off = sample_instance(0);
    put_record(&run, FQL_RECORD_INSTANCE, on.bytes, on.length);
    put_record(&run, FQL_RECORD_INSTANCE, off.bytes, off.length);
    put_record(&run, FQL_RECORD_INSTANCE, "", 0);
    return run;
}

#endif
