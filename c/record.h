/* Records, of which tables, instances and runs are made: a body length and a kind of 2 bytes each, least byte first,
   and the body. */
#ifndef RECORD_H
#define RECORD_H

#include <stddef.h>
#include <stdint.h>
#include <string.h>

/* Bytes that records are put into, one after the other. The buffers here are larger than all that is put into them. */
typedef struct buffer {
    uint8_t bytes[1024];
    size_t length;
} buffer;

static inline void put_record(buffer *out, unsigned kind, const void *body, size_t length) {
    uint8_t head[4] = {(uint8_t)length, (uint8_t)(length >> 8), (uint8_t)kind, (uint8_t)(kind >> 8)};
    memcpy(out->bytes + out->length, head, 4);
    memcpy(out->bytes + out->length + 4, body, length);
    out->length += 4 + length;
}

static inline void put_text(buffer *out, unsigned kind, const char *text) {
    put_record(out, kind, text, strlen(text));
}

/* An integer, or the bits of a real, in so many bytes. */
static inline void put_word(buffer *out, unsigned kind, uint64_t word, size_t width) {
    uint8_t body[8];
    for (size_t n = 0; n < width; n++) body[n] = (uint8_t)(word >> (8 * n));
    put_record(out, kind, body, width);
}

/* The last hex digit of an integer's type is the number of its bytes. A negative value is given as (uint64_t)-5. */
static inline void put_integer(buffer *out, unsigned type, uint64_t value) {
    put_word(out, type, value, type & 0x0F);
}

#endif
