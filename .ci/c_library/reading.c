/* Rows of cells, and of what C reads of them and of each truncated length. */
#include <stdio.h>
#include <string.h>

#include "support.h"

static void hex(char *text, const uint8_t *bytes, size_t len)
{
    for (size_t i = 0; i < len; i++) {
        sprintf(text + 2 * i, "%02x", bytes[i]);
    }
}

/* What a reader answers: the fault, and the value as a text. A refusal leaves the variable as it was. */
#define SHOW(name, type, ...)                                             \
    static uint32_t show_##name(const uint8_t *cell, size_t len, char *text) \
    {                                                                     \
        type v, before;                                                   \
        memset(&v, 0x5a, sizeof v);                                       \
        memcpy(&before, &v, sizeof v);                                    \
        uint32_t fault = pgc_##name##_read(cell, len, &v);                \
        if (!fault) {                                                     \
            snprintf(text, TEXT, __VA_ARGS__);                            \
        } else if (memcmp(&v, &before, sizeof v)) {                       \
            strcpy(text, "the variable was changed");                     \
        }                                                                 \
        return fault;                                                     \
    }

SHOW(char, int8_t, "%d", v)
SHOW(int2, int16_t, "%d", v)
SHOW(int4, int32_t, "%ld", (long)v)
SHOW(int8, int64_t, "%lld", (long long)v)
SHOW(oid, uint32_t, "%lu", (unsigned long)v)
SHOW(lsn, uint64_t, "%llu", (unsigned long long)v)
SHOW(text, struct pgc_span, "%zu+%zu", v.offset, v.len)
SHOW(ltree, struct pgc_span, "%zu+%zu", v.offset, v.len)
SHOW(bytea, struct pgc_span, "%zu+%zu", v.offset, v.len)
SHOW(varbit, struct pgc_bits, "%zu bits, %zu+%zu", v.bit_len, v.bytes.offset, v.bytes.len)
SHOW(date, struct pgc_date, "%ld %+d", (long)v.days, (int)v.infinity)
SHOW(time, int64_t, "%lld", (long long)v)
SHOW(timestamp, struct pgc_timestamp, "%lld %+d", (long long)v.microseconds, (int)v.infinity)
SHOW(interval, struct pgc_interval, "%lld %ld %ld", (long long)v.microseconds, (long)v.days, (long)v.months)

/* Of those that have bytes of their own. */
#define SHOW_BYTES(name, type, bytes, head, ...)                                       \
    static uint32_t show_##name(const uint8_t *cell, size_t len, char *text)           \
    {                                                                                  \
        type v, before;                                                                \
        memset(&v, 0x5a, sizeof v);                                                    \
        memcpy(&before, &v, sizeof v);                                                 \
        uint32_t fault = pgc_##name##_read(cell, len, &v);                             \
        if (!fault) {                                                                  \
            hex(text + snprintf(text, TEXT, head, __VA_ARGS__), v.bytes, sizeof v.bytes); \
        } else if (memcmp(&v, &before, sizeof v)) {                                    \
            strcpy(text, "the variable was changed");                                  \
        }                                                                              \
        return fault;                                                                  \
    }

SHOW_BYTES(uuid, struct pgc_uuid, bytes, "%s", "")
SHOW_BYTES(macaddr, struct pgc_macaddr, bytes, "%s", "")
SHOW_BYTES(inet, struct pgc_inet, octets, "%d/%d ", v.family, v.netmask)
SHOW_BYTES(cidr, struct pgc_inet, octets, "%d/%d ", v.family, v.netmask)

/* A bool has to be true or false before the call, too. */
static uint32_t show_bool(const uint8_t *cell, size_t len, char *text)
{
    bool from_true = true, from_false = false;
    uint32_t fault = pgc_bool_read(cell, len, &from_true);
    bool same_fault = fault == pgc_bool_read(cell, len, &from_false);
    if (!same_fault || (fault ? !from_true || from_false : from_true != from_false)) {
        strcpy(text, "the variable is wrong");
    } else if (!fault) {
        strcpy(text, from_true ? "true" : "false");
    }
    return fault;
}

/*
 * A cell in hexadecimal, what is read of it, or the fault; and the faults of its truncated lengths, one character each
 * from 0 bytes on, as fault_of has them. With none given all are PGC_SIZE.
 */
static const struct row {
    const char *name;
    uint32_t (*show)(const uint8_t *, size_t, char *);
    const char *cell;
    uint32_t fault;
    const char *text;
    const char *fronts;
} rows[] = {
#define ROW(name, ...) {#name, show_##name, __VA_ARGS__}
    ROW(bool, "00", 0, "false", 0),
    ROW(bool, "01", 0, "true", 0),
    ROW(bool, "ff", 0, "true", 0),
    ROW(bool, "0000", PGC_SIZE, "", "s."),
    ROW(char, "61", 0, "97", 0),
    ROW(char, "ff", 0, "-1", 0),
    ROW(char, "80", 0, "-128", 0),
    ROW(char, "6161", PGC_SIZE, "", "s."),
    ROW(int2, "0102", 0, "258", 0),
    ROW(int2, "8000", 0, "-32768", 0),
    ROW(int2, "7fff", 0, "32767", 0),
    ROW(int2, "010203", PGC_SIZE, "", "ss."),
    ROW(int4, "00000102", 0, "258", 0),
    ROW(int4, "ffffffff", 0, "-1", 0),
    ROW(int4, "80000000", 0, "-2147483648", 0),
    ROW(int4, "7fffffff", 0, "2147483647", 0),
    ROW(int4, "0000000000", PGC_SIZE, "", "ssss."),
    ROW(int8, "0000000000000102", 0, "258", 0),
    ROW(int8, "fffffffffffffffe", 0, "-2", 0),
    ROW(int8, "8000000000000000", 0, "-9223372036854775808", 0),
    ROW(int8, "7fffffffffffffff", 0, "9223372036854775807", 0),
    ROW(int8, "000000000000000000", PGC_SIZE, "", "ssssssss."),
    ROW(oid, "00000102", 0, "258", 0),
    ROW(oid, "ffffffff", 0, "4294967295", 0),
    ROW(oid, "0000000000", PGC_SIZE, "", "ssss."),
    ROW(lsn, "0000000100000002", 0, "4294967298", 0),
    ROW(lsn, "ffffffffffffffff", 0, "18446744073709551615", 0),
    ROW(lsn, "000000000000000000", PGC_SIZE, "", "ssssssss."),
    ROW(text, "", 0, "0+0", ""),
    ROW(text, "616263", 0, "0+3", "..."),
    ROW(text, "61 c3a9 62", 0, "0+4", "..u."),
    ROW(text, "f09f9880", 0, "0+4", ".uuu"),
    ROW(text, "6100", 0, "0+2", ".."),
    ROW(text, "61ff62", PGC_UTF8, "", "..u"),
    ROW(text, "c0af", PGC_UTF8, "", ".u"),
    ROW(text, "eda080", PGC_UTF8, "", ".uu"),
    ROW(ltree, "01", 0, "1+0", "v"),
    ROW(ltree, "01 612e62", 0, "1+3", "v..."),
    ROW(ltree, "01 c3a9", 0, "1+2", "v.u"),
    ROW(ltree, "02 612e62", PGC_TEXT_VERSION, "", "vvvv"),
    ROW(ltree, "00", PGC_TEXT_VERSION, "", "v"),
    ROW(ltree, "01 ff", PGC_UTF8, "", "v."),
    ROW(bytea, "", 0, "0+0", ""),
    ROW(bytea, "00ff10", 0, "0+3", "..."),
    ROW(varbit, "00000000", 0, "0 bits, 4+0", 0),
    ROW(varbit, "00000008 ff", 0, "8 bits, 4+1", 0),
    ROW(varbit, "00000009 ff80", 0, "9 bits, 4+2", 0),
    ROW(varbit, "00000009 ffff", 0, "9 bits, 4+2", 0),
    ROW(varbit, "00000009 ff8000", PGC_SIZE, "", "ssssss."),
    ROW(varbit, "00000000 00", PGC_SIZE, "", "ssss."),
    ROW(varbit, "ffffffff", PGC_COUNT, "", 0),
    ROW(varbit, "80000000 ff", PGC_COUNT, "", "ssssc"),
    ROW(varbit, "7fffffff ff", PGC_SIZE, "", 0),
    ROW(uuid, "00112233 44556677 8899aabb ccddeeff", 0, "00112233445566778899aabbccddeeff", 0),
    ROW(uuid, "00112233 44556677 8899aabb ccddeeff 00", PGC_SIZE, "", "ssssssssssssssss."),
    ROW(macaddr, "08002b010203", 0, "08002b010203", 0),
    ROW(macaddr, "08002b01020304", PGC_SIZE, "", "ssssss."),
    ROW(inet, "02180004 c0a80001", 0, "2/24 c0a80001000000000000000000000000", 0),
    ROW(inet, "02200104 7f000001", 0, "2/32 7f000001000000000000000000000000", 0),
    ROW(inet, "03800010 20010db8 00000000 00000000 00000001", 0, "3/128 20010db8000000000000000000000001", 0),
    ROW(inet, "04180004 c0a80001", PGC_FAMILY, "", "ssssffff"),
    ROW(inet, "02210004 c0a80001", PGC_NETMASK, "", "ssssnnnn"),
    ROW(inet, "03810010 20010db8 00000000 00000000 00000001", PGC_NETMASK, "", "ssssnnnnnnnnnnnnnnnn"),
    ROW(inet, "02180010 c0a80001", PGC_ADDRESS_LENGTH, "", "ssssaaaa"),
    ROW(inet, "02180004 c0a8000100", PGC_SIZE, "", "ssssssss."),
    ROW(inet, "02180104 c0a80001", 0, "2/24 c0a80001000000000000000000000000", 0),
    ROW(cidr, "02180104 c0a80000", 0, "2/24 c0a80000000000000000000000000000", 0),
    ROW(cidr, "02000104 00000000", 0, "2/0 00000000000000000000000000000000", 0),
    ROW(cidr, "03200110 20010db8 00000000 00000000 00000000", 0, "3/32 20010db8000000000000000000000000", 0),
    ROW(cidr, "02180104 c0a80001", PGC_HOST_BITS, "", 0),
    ROW(cidr, "03200110 20010db8 00000000 00000000 00000001", PGC_HOST_BITS, "", 0),
    ROW(cidr, "02210104 c0a80001", PGC_NETMASK, "", "ssssnnnn"),
    ROW(date, "00000000", 0, "0 +0", 0),
    ROW(date, "fffffffe", 0, "-2 +0", 0),
    ROW(date, "7fffffff", 0, "2147483647 +1", 0),
    ROW(date, "7ffffffe", 0, "2147483646 +0", 0),
    ROW(date, "80000000", 0, "-2147483648 -1", 0),
    ROW(date, "80000001", 0, "-2147483647 +0", 0),
    ROW(date, "0000000000", PGC_SIZE, "", "ssss."),
    ROW(time, "000000141dd75fff", 0, "86399999999", 0),
    ROW(time, "ffffffffffffffff", 0, "-1", 0),
    ROW(time, "000000000000000000", PGC_SIZE, "", "ssssssss."),
    ROW(timestamp, "0000000000000001", 0, "1 +0", 0),
    ROW(timestamp, "fffffffffff85ee0", 0, "-500000 +0", 0),
    ROW(timestamp, "7fffffffffffffff", 0, "9223372036854775807 +1", 0),
    ROW(timestamp, "8000000000000000", 0, "-9223372036854775808 -1", 0),
    ROW(timestamp, "8000000000000001", 0, "-9223372036854775807 +0", 0),
    ROW(timestamp, "000000000000000000", PGC_SIZE, "", "ssssssss."),
    ROW(interval, "0000000000000001 00000002 00000003", 0, "1 2 3", 0),
    ROW(interval, "ffffffffffffffff fffffffe fffffffd", 0, "-1 -2 -3", 0),
    ROW(interval, "7fffffffffffffff 7fffffff 7fffffff", 0, "9223372036854775807 2147483647 2147483647", 0),
    ROW(interval, "0000000000000001 00000002 00000003 00", PGC_SIZE, "", "ssssssssssssssss."),
};

static void try_row(const struct row *row)
{
    uint8_t cell[64];
    size_t len = bytes_of(row->cell, cell);
    expect(!row->fronts || strlen(row->fronts) == len, row->name, row->cell, len, "a front for each length");
    for (size_t n = 0; n <= len; n++) {
        char text[TEXT] = "";
        uint32_t fault = row->show(at_end(cell, n), n, text);
        uint32_t expected = n == len ? row->fault : row->fronts ? fault_of(row->fronts[n]) : PGC_SIZE;
        bool holds = fault == expected && (n < len ? !fault || !*text : !strcmp(text, row->text));
        expect(holds, row->name, row->cell, n, text);
        if (fault != expected) {
            printf("fault %u in place of %u\n", (unsigned)fault, (unsigned)expected);
        }
    }
}

void try_readers(void)
{
    for (size_t i = 0; i < sizeof rows / sizeof *rows; i++) {
        try_row(&rows[i]);
    }
}
