/* Cells that are read, and written again from what was read. */
#include "client.h"

/* The type of the variable that is read, and what is written of it. */
#define REWRITES(name, type, ...)                                                          \
    size_t rewrite_##name(const uint8_t *cell, size_t len, uint8_t *out, size_t room)      \
    {                                                                                      \
        type v = {0};                                                                      \
        uint32_t fault = pgc_##name##_read(cell, len, &v);                                 \
        return fault ? PGC_NO_CELL : pgc_##name##_write(__VA_ARGS__, out, room);           \
    }

REWRITES(bool, bool, v)
REWRITES(char, int8_t, v)
REWRITES(int2, int16_t, v)
REWRITES(int4, int32_t, v)
REWRITES(int8, int64_t, v)
REWRITES(oid, uint32_t, v)
REWRITES(lsn, uint64_t, v)
REWRITES(text, struct pgc_span, cell + v.offset, v.len)
REWRITES(ltree, struct pgc_span, cell + v.offset, v.len)
REWRITES(bytea, struct pgc_span, cell + v.offset, v.len)
REWRITES(varbit, struct pgc_bits, v.bit_len, cell + v.bytes.offset, v.bytes.len)
REWRITES(uuid, struct pgc_uuid, &v)
REWRITES(macaddr, struct pgc_macaddr, &v)
REWRITES(inet, struct pgc_inet, &v)
REWRITES(cidr, struct pgc_inet, &v)
REWRITES(date, struct pgc_date, v.days)
REWRITES(time, int64_t, v)
REWRITES(timestamp, struct pgc_timestamp, v.microseconds)
REWRITES(interval, struct pgc_interval, v.microseconds, v.days, v.months)

/* Rewrites a value of the type with that OID. */
static size_t rewrite_value(uint32_t oid, const uint8_t *cell, struct pgc_span value, uint8_t *out, size_t room)
{
    rewriter *rewrite = rewriter_of(oid);
    return rewrite ? rewrite(cell + value.offset, value.len, out, room) : PGC_NO_CELL;
}

size_t rewrite_array(const uint8_t *cell, size_t len, uint8_t *out, size_t room)
{
    struct pgc_builder to;
    struct pgc_array array;
    struct pgc_element it;
    uint32_t fault = pgc_array_begin(cell, len, &array);
    pgc_array_open(&to);
    while (!fault && !(fault = pgc_array_next(cell, len, &array.walk, &it))) {
        if (it.is_null) {
            pgc_push_null(&to, out, room);
        } else {
            size_t written = rewrite_value(array.element_oid, cell, it.bytes, out + to.len + 4, room - to.len - 4);
            pgc_push_written(&to, written, out, room);
        }
    }
    return fault == PGC_END ? pgc_array_close(&to, array.element_oid, out, room) : PGC_NO_CELL;
}

size_t rewrite_record(const uint8_t *cell, size_t len, uint8_t *out, size_t room)
{
    struct pgc_builder to;
    struct pgc_walk walk;
    struct pgc_field it;
    uint32_t fault = pgc_record_begin(cell, len, &walk);
    pgc_record_open(&to);
    while (!fault && !(fault = pgc_record_next(cell, len, &walk, &it))) {
        if (it.value.is_null) {
            pgc_push_null_field(&to, it.oid, out, room);
        } else {
            size_t written = rewrite_value(it.oid, cell, it.value.bytes, out + to.len + 8, room - to.len - 8);
            pgc_push_written_field(&to, it.oid, written, out, room);
        }
    }
    return fault == PGC_END ? pgc_record_close(&to, out, room) : PGC_NO_CELL;
}

size_t rewrite_hstore(const uint8_t *cell, size_t len, uint8_t *out, size_t room)
{
    struct pgc_builder to;
    struct pgc_walk walk;
    struct pgc_entry it;
    uint32_t fault = pgc_hstore_begin(cell, len, &walk);
    pgc_hstore_open(&to);
    while (!fault && !(fault = pgc_hstore_next(cell, len, &walk, &it))) {
        const uint8_t *key = cell + it.key.offset;
        if (it.value.is_null) {
            pgc_push_null_entry(&to, key, it.key.len, out, room);
        } else {
            pgc_push_entry(&to, key, it.key.len, cell + it.value.bytes.offset, it.value.bytes.len, out, room);
        }
    }
    return fault == PGC_END ? pgc_hstore_close(&to, out, room) : PGC_NO_CELL;
}
