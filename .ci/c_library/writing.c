/* Rows of values, and of the cells that C writes of them to buffers of all sizes up to more than the cell has. */
#include <stdio.h>
#include <string.h>

#include "support.h"

/* A call writes the cell to a buffer of each size up to more than the cell has. */
#define WRITES(digits, call)                                    \
    do {                                                        \
        uint8_t cell[64];                                       \
        size_t len = bytes_of(digits, cell);                    \
        for (size_t room = 0; room <= len + 2; room++) {        \
            uint8_t *out = buffer(room);                        \
            expect(call == len, #call, digits, room, "length"); \
            expect_written(#call, cell, len, out, room);        \
        }                                                       \
    } while (0)

/* A call writes nothing, since the value has no cell. */
#define REFUSES(call)                                                   \
    do {                                                                \
        for (size_t room = 0; room < 32; room++) {                      \
            uint8_t *out = buffer(room);                                \
            expect(call == PGC_NO_CELL, #call, "no cell", room, "one"); \
            expect_written(#call, NULL, SIZE_MAX, out, room);           \
        }                                                               \
    } while (0)

static void try_plain_writers(void)
{
    static const struct pgc_uuid uuid = {{0, 1, 2, 3, 4, 5, 6, 7, 8, 9, 10, 11, 12, 13, 14, 255}};
    static const struct pgc_macaddr macaddr = {{8, 0, 43, 1, 2, 3}};
    WRITES("00", pgc_bool_write(false, out, room));
    WRITES("01", pgc_bool_write(true, out, room));
    WRITES("80", pgc_char_write(-128, out, room));
    WRITES("61", pgc_char_write('a', out, room));
    WRITES("0102", pgc_int2_write(258, out, room));
    WRITES("fffe", pgc_int2_write(-2, out, room));
    WRITES("00000102", pgc_int4_write(258, out, room));
    WRITES("80000000", pgc_int4_write(INT32_MIN, out, room));
    WRITES("0000000000000102", pgc_int8_write(258, out, room));
    WRITES("fffffffffffffffe", pgc_int8_write(-2, out, room));
    WRITES("ffffffff", pgc_oid_write(UINT32_MAX, out, room));
    WRITES("0000000100000002", pgc_lsn_write(4294967298, out, room));
    WRITES("000102030405060708090a0b0c0d0eff", pgc_uuid_write(&uuid, out, room));
    WRITES("08002b010203", pgc_macaddr_write(&macaddr, out, room));
    WRITES("fffffffe", pgc_date_write(-2, out, room));
    WRITES("7fffffff", pgc_date_write(INT32_MAX, out, room));
    WRITES("000000141dd75fff", pgc_time_write(86399999999, out, room));
    WRITES("fffffffffff85ee0", pgc_timestamp_write(-500000, out, room));
    WRITES("8000000000000000", pgc_timestamp_write(INT64_MIN, out, room));
    WRITES("0000000000000001 00000002 00000003", pgc_interval_write(1, 2, 3, out, room));
    WRITES("ffffffffffffffff fffffffe fffffffd", pgc_interval_write(-1, -2, -3, out, room));
}

static void try_other_writers(void)
{
    static const struct pgc_inet v4 = {PGC_IPV4, 24, {192, 168, 0, 1, 9, 9}};
    static const struct pgc_inet v6 = {PGC_IPV6, 128, {0x20, 1, 0xd, 0xb8, [15] = 1}};
    static const struct pgc_inet other = {4, 24, {192, 168, 0, 1}};
    static const struct pgc_inet long_v4 = {PGC_IPV4, 33, {192, 168, 0, 1}};
    static const struct pgc_inet long_v6 = {PGC_IPV6, 129, {192, 168, 0, 1}};
    WRITES("", pgc_text_write("", 0, out, room));
    WRITES("61c3a962", pgc_text_write("a\xc3\xa9" "b", 4, out, room));
    REFUSES(pgc_text_write("a\xff", 2, out, room));
    REFUSES(pgc_text_write("\xc3", 1, out, room));
    WRITES("01", pgc_ltree_write("", 0, out, room));
    WRITES("01 612e62", pgc_ltree_write("a.b", 3, out, room));
    REFUSES(pgc_ltree_write("a\xff", 2, out, room));
    WRITES("", pgc_bytea_write("", 0, out, room));
    WRITES("00ff10", pgc_bytea_write("\0\xff\x10", 3, out, room));
    WRITES("00000000", pgc_varbit_write(0, "", 0, out, room));
    WRITES("00000008 ff", pgc_varbit_write(8, "\xff", 1, out, room));
    WRITES("00000009 ff80", pgc_varbit_write(9, "\xff\xff", 2, out, room));
    WRITES("0000000f fffe", pgc_varbit_write(15, "\xff\xff", 2, out, room));
    REFUSES(pgc_varbit_write(9, "\xff", 1, out, room));
    REFUSES(pgc_varbit_write(8, "\xff\xff", 2, out, room));
    REFUSES(pgc_varbit_write(SIZE_MAX, "\xff", 1, out, room));
    WRITES("02180004 c0a80001", pgc_inet_write(&v4, out, room));
    WRITES("03800010 20010db8 00000000 00000000 00000001", pgc_inet_write(&v6, out, room));
    REFUSES(pgc_inet_write(&other, out, room));
    REFUSES(pgc_inet_write(&long_v4, out, room));
    REFUSES(pgc_inet_write(&long_v6, out, room));
}

static void try_networks(void)
{
    static const struct pgc_inet all = {PGC_IPV4, 0, {0}};
    static const struct pgc_inet v4 = {PGC_IPV4, 23, {192, 168, 2, 0, 9, 9}};
    static const struct pgc_inet host = {PGC_IPV4, 22, {192, 168, 2, 0}};
    static const struct pgc_inet single = {PGC_IPV4, 32, {192, 168, 0, 1}};
    static const struct pgc_inet v6 = {PGC_IPV6, 33, {0x20, 1, 0xd, 0xb8, 0x80}};
    static const struct pgc_inet host_v6 = {PGC_IPV6, 127, {0x20, 1, 0xd, 0xb8, [15] = 1}};
    static const struct pgc_inet single_v6 = {PGC_IPV6, 128, {0x20, 1, 0xd, 0xb8, [15] = 1}};
    static const struct pgc_inet other = {4, 24, {192, 168, 0, 0}};
    static const struct pgc_inet long_v4 = {PGC_IPV4, 33, {192, 168, 0, 0}};
    static const struct pgc_inet long_v6 = {PGC_IPV6, 129, {0x20}};
    WRITES("02000004 00000000", pgc_cidr_write(&all, out, room));
    WRITES("02170004 c0a80200", pgc_cidr_write(&v4, out, room));
    WRITES("02200004 c0a80001", pgc_cidr_write(&single, out, room));
    WRITES("03210010 20010db8 80000000 00000000 00000000", pgc_cidr_write(&v6, out, room));
    WRITES("03800010 20010db8 00000000 00000000 00000001", pgc_cidr_write(&single_v6, out, room));
    REFUSES(pgc_cidr_write(&host, out, room));
    REFUSES(pgc_cidr_write(&host_v6, out, room));
    REFUSES(pgc_cidr_write(&other, out, room));
    REFUSES(pgc_cidr_write(&long_v4, out, room));
    REFUSES(pgc_cidr_write(&long_v6, out, room));
}

/* Writes an array of an int4 and NULL, part after part, and returns how many bytes it has. */
static size_t write_array(uint8_t *out, size_t room)
{
    static const int32_t head[] = {1, 1, PGC_INT4_OID, 2, 1, 4, 7};
    size_t at = 0;
    for (size_t i = 0; i < sizeof head / sizeof *head; i++) {
        at += pgc_int4_write(head[i], out + at, room - at);
    }
    return at + pgc_null_write(out + at, room - at);
}

static void try_frames(void)
{
    uint8_t array[64];
    size_t len = bytes_of("00000001 00000001 00000017 00000002 00000001 00000004 00000007 ffffffff", array);
    WRITES("ffffffff", pgc_null_write(out, room));
    WRITES("00000000", pgc_frame_write("", 0, out, room));
    WRITES("00000003 616263", pgc_frame_write("abc", 3, out, room));
    uint8_t *out = buffer(len);
    expect(write_array(out, len) == len, "the length of", "an array", len, "another");
    expect_written("an array", array, len, out, len);
}

static void try_fault_text(uint32_t fault, const char *text)
{
    size_t len = strlen(text) + 1;
    for (size_t room = 0; room <= len + 2; room++) {
        uint8_t *out = buffer(room);
        expect(pgc_fault_text(fault, out, room) == len, "the text", text, room, "length");
        expect_written(text, (const uint8_t *)text, len, out, room);
    }
}

static void try_fault_texts(void)
{
    static const char *const texts[] = {
        "no fault",
        "out of memory",
        "a Postgres value was `NULL`",
        "cannot convert between the Rust type and the Postgres type",
        "invalid buffer size",
        "invalid UTF-8",
        "invalid count",
        "invalid key length",
        "array contains too many dimensions",
        "too few elements in array",
        "excess elements in array",
        "value too large to decode",
        "value too large to transmit",
        "unsupported JSONB encoding version",
        "unsupported text version",
        "invalid JSON",
        "JSON number is not a whole number",
        "invalid IP family",
        "invalid netmask",
        "invalid address length",
        "host bits are set",
        "refused by a user-defined type",
        "invalid field count",
        "unexpected field type",
        "unknown fault",
    };
    for (uint32_t fault = 0; fault < sizeof texts / sizeof *texts; fault++) {
        try_fault_text(fault, texts[fault]);
        expect(strlen(texts[fault]) < 64, "the text", texts[fault], 64, "longer");
    }
    try_fault_text(UINT32_MAX, "unknown fault");
}

void try_writers(void)
{
    try_plain_writers();
    try_other_writers();
    try_networks();
    try_frames();
    try_fault_texts();
}
