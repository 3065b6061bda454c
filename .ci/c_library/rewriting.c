/* Rows of cells, and of the cells that C rewrites them to, in buffers of all sizes up to more than the cell has. */
#include <stdio.h>
#include <stdlib.h>
#include <string.h>

#include "support.h"

/* What a variable holds that a refusal leaves as it was. */
enum { BEFORE = 0x5a5a };

/* An array of two elements: its flags, the OID of their type, the lower bound, and their frames. */
#define ARRAY(flags, oid, lower_bound, frames) "00000001" flags oid "00000002" lower_bound frames

/*
 * The OID of a type, a cell in hexadecimal, what it is rewritten to, or the fault; and the faults of its truncated
 * lengths, one character each from 0 bytes on, as fault_of has them. With none given all are PGC_SIZE. Of a length that
 * is not refused only the cell itself says what is written.
 */
static const struct row {
    uint32_t oid;
    const char *cell;
    uint32_t fault;
    const char *written;
    const char *fronts;
} rows[] = {
    {PGC_BOOL_OID, "00", 0, "00", 0},
    {PGC_BOOL_OID, "01", 0, "01", 0},
    {PGC_BOOL_OID, "02", 0, "01", 0},
    {PGC_BOOL_OID, "ff", 0, "01", 0},
    {PGC_BOOL_OID, "0001", PGC_SIZE, "", "s."},
    {PGC_BYTEA_OID, "", 0, "", ""},
    {PGC_BYTEA_OID, "00ff80", 0, "00ff80", "..."},
    {PGC_CHAR_OID, "ff", 0, "ff", 0},
    {PGC_CHAR_OID, "6161", PGC_SIZE, "", "s."},
    {PGC_NAME_OID, "c3a9", 0, "c3a9", ".u"},
    {PGC_NAME_OID, "c3", PGC_UTF8, "", "."},
    {PGC_INT8_OID, "ff00000000000102", 0, "ff00000000000102", 0},
    {PGC_INT8_OID, "000000000000000000", PGC_SIZE, "", "ssssssss."},
    {PGC_INT2_OID, "8001", 0, "8001", 0},
    {PGC_INT2_OID, "000000", PGC_SIZE, "", "ss."},
    {PGC_INT4_OID, "80000102", 0, "80000102", 0},
    {PGC_INT4_OID, "0000000000", PGC_SIZE, "", "ssss."},
    {PGC_TEXT_OID, "", 0, "", ""},
    {PGC_TEXT_OID, "61 c3a9 62", 0, "61c3a962", "..u."},
    {PGC_TEXT_OID, "6100", 0, "6100", ".."},
    {PGC_TEXT_OID, "61ff62", PGC_UTF8, "", "..u"},
    {PGC_OID_OID, "ffffffff", 0, "ffffffff", 0},
    {PGC_OID_OID, "0000000000", PGC_SIZE, "", "ssss."},
    {PGC_CIDR_OID, "02180104 c0a80000", 0, "02180004c0a80000", 0},
    {PGC_CIDR_OID, "0220ff04 7f000001", 0, "022000047f000001", 0},
    {PGC_CIDR_OID, "03200110 20010db8 00000000 00000000 00000000", 0, "0320001020010db8000000000000000000000000", 0},
    {PGC_CIDR_OID, "02180104 c0a80001", PGC_HOST_BITS, "", 0},
    {PGC_CIDR_OID, "02210104 c0a80001", PGC_NETMASK, "", "ssssnnnn"},
    {PGC_UNKNOWN_OID, "c3a9", 0, "c3a9", ".u"},
    {PGC_UNKNOWN_OID, "ff", PGC_UTF8, "", "."},
    {PGC_MACADDR_OID, "08002b010203", 0, "08002b010203", 0},
    {PGC_MACADDR_OID, "08002b01020304", PGC_SIZE, "", "ssssss."},
    {PGC_INET_OID, "02180104 c0a80001", 0, "02180004c0a80001", 0},
    {PGC_INET_OID, "0220ff04 7f000001", 0, "022000047f000001", 0},
    {PGC_INET_OID, "03800010 20010db8 00000000 00000000 00000001", 0, "0380001020010db8000000000000000000000001", 0},
    {PGC_INET_OID, "04180004 c0a80001", PGC_FAMILY, "", "ssssffff"},
    {PGC_INET_OID, "02210004 c0a80001", PGC_NETMASK, "", "ssssnnnn"},
    {PGC_INET_OID, "02180010 c0a80001", PGC_ADDRESS_LENGTH, "", "ssssaaaa"},
    {PGC_INET_OID, "02180004 c0a8000100", PGC_SIZE, "", "ssssssss."},
    {PGC_BPCHAR_OID, "6120", 0, "6120", ".."},
    {PGC_BPCHAR_OID, "ff", PGC_UTF8, "", "."},
    {PGC_VARCHAR_OID, "f09f9880", 0, "f09f9880", ".uuu"},
    {PGC_VARCHAR_OID, "c0af", PGC_UTF8, "", ".u"},
    {PGC_DATE_OID, "7fffffff", 0, "7fffffff", 0},
    {PGC_DATE_OID, "fffffffe", 0, "fffffffe", 0},
    {PGC_DATE_OID, "0000000000", PGC_SIZE, "", "ssss."},
    {PGC_TIME_OID, "000000141dd76000", 0, "000000141dd76000", 0},
    {PGC_TIME_OID, "000000000000000000", PGC_SIZE, "", "ssssssss."},
    {PGC_TIMESTAMP_OID, "8000000000000000", 0, "8000000000000000", 0},
    {PGC_TIMESTAMP_OID, "000000000000000000", PGC_SIZE, "", "ssssssss."},
    {PGC_TIMESTAMPTZ_OID, "fffffffffff85ee0", 0, "fffffffffff85ee0", 0},
    {PGC_TIMESTAMPTZ_OID, "000000000000000000", PGC_SIZE, "", "ssssssss."},
    {PGC_INTERVAL_OID, "0000000000000001 fffffffe 00000003", 0, "0000000000000001fffffffe00000003", 0},
    {PGC_INTERVAL_OID, "0000000000000001 00000002 00000003 00", PGC_SIZE, "", "ssssssssssssssss."},
    {PGC_BIT_OID, "00000000", 0, "00000000", 0},
    {PGC_BIT_OID, "00000001 ff", 0, "0000000180", 0},
    {PGC_BIT_OID, "00000008 ff", 0, "00000008ff", 0},
    {PGC_BIT_OID, "ffffffff", PGC_COUNT, "", 0},
    {PGC_VARBIT_OID, "00000009 ffff", 0, "00000009ff80", 0},
    {PGC_VARBIT_OID, "0000000f aaab", 0, "0000000faaaa", 0},
    {PGC_VARBIT_OID, "00000009 ff8000", PGC_SIZE, "", "ssssss."},
    {PGC_VARBIT_OID, "80000000 ff", PGC_COUNT, "", "ssssc"},
    {PGC_VARBIT_OID, "7fffffff ff", PGC_SIZE, "", 0},
    {PGC_UUID_OID, "00112233 44556677 8899aabb ccddeeff", 0, "00112233445566778899aabbccddeeff", 0},
    {PGC_UUID_OID, "00112233 44556677 8899aabb ccddeeff 00", PGC_SIZE, "", "ssssssssssssssss."},
    {PGC_PG_LSN_OID, "ffffffff00000002", 0, "ffffffff00000002", 0},
    {PGC_PG_LSN_OID, "000000000000000000", PGC_SIZE, "", "ssssssss."},
    {PGC_JSON_OID, "31", PGC_WRONG_TYPE, "", "w"},
    {PGC_JSON_ARRAY_OID, "00000000 00000000 00000072", PGC_WRONG_TYPE, "", "wwwwwwwwwwww"},
    {PGC_JSONB_OID, "0131", PGC_WRONG_TYPE, "", "ww"},
    {PGC_JSONB_ARRAY_OID, "00000000 00000000 00000eda", PGC_WRONG_TYPE, "", "wwwwwwwwwwww"},
    {PGC_BOOL_ARRAY_OID, ARRAY("00000007", "00000001", "00000005", "00000001 07" "80000000"), 0,
        ARRAY("00000001", "00000010", "00000001", "00000001 01" "ffffffff"), 0},
    {PGC_BOOL_ARRAY_OID, ARRAY("00000001", "00000010", "00000001", "ffffffff" "00000002 0001"), PGC_SIZE, "", 0},
    {PGC_BYTEA_ARRAY_OID, ARRAY("00000007", "00000001", "00000005", "00000002 00ff" "80000000"), 0,
        ARRAY("00000001", "00000011", "00000001", "00000002 00ff" "ffffffff"), 0},
    {PGC_BYTEA_ARRAY_OID, ARRAY("00000001", "00000011", "00000001", "ffffffff" "00000002 00"), PGC_SIZE, "", 0},
    {PGC_CHAR_ARRAY_OID, ARRAY("00000007", "00000001", "00000005", "00000001 80" "80000000"), 0,
        ARRAY("00000001", "00000012", "00000001", "00000001 80" "ffffffff"), 0},
    {PGC_CHAR_ARRAY_OID, ARRAY("00000001", "00000012", "00000001", "ffffffff" "00000000"), PGC_SIZE, "", 0},
    {PGC_NAME_ARRAY_OID, ARRAY("00000007", "00000001", "00000005", "00000002 c3a9" "80000000"), 0,
        ARRAY("00000001", "00000013", "00000001", "00000002 c3a9" "ffffffff"), 0},
    {PGC_NAME_ARRAY_OID, ARRAY("00000001", "00000013", "00000001", "ffffffff" "00000001 c3"), PGC_UTF8, "", 0},
    {PGC_INT8_ARRAY_OID, ARRAY("00000007", "00000001", "00000005", "00000008 ff00000000000102" "80000000"), 0,
        ARRAY("00000001", "00000014", "00000001", "00000008 ff00000000000102" "ffffffff"), 0},
    {PGC_INT8_ARRAY_OID, ARRAY("00000001", "00000014", "00000001", "ffffffff" "00000004 00000000"), PGC_SIZE, "", 0},
    {PGC_INT2_ARRAY_OID, ARRAY("00000007", "00000001", "00000005", "00000002 fffe" "80000000"), 0,
        ARRAY("00000001", "00000015", "00000001", "00000002 fffe" "ffffffff"), 0},
    {PGC_INT2_ARRAY_OID, ARRAY("00000001", "00000015", "00000001", "ffffffff" "00000004 00000000"), PGC_SIZE, "", 0},
    {PGC_INT4_ARRAY_OID, ARRAY("00000007", "00000001", "00000005", "00000004 fffffffe" "80000000"), 0,
        ARRAY("00000001", "00000017", "00000001", "00000004 fffffffe" "ffffffff"), 0},
    {PGC_INT4_ARRAY_OID, ARRAY("00000001", "00000017", "00000001", "ffffffff" "00000003 000000"), PGC_SIZE, "", 0},
    {PGC_TEXT_ARRAY_OID, ARRAY("00000007", "00000001", "00000005", "00000000" "80000000"), 0,
        ARRAY("00000001", "00000019", "00000001", "00000000" "ffffffff"), 0},
    {PGC_TEXT_ARRAY_OID, ARRAY("00000001", "00000019", "00000001", "ffffffff" "00000001 ff"), PGC_UTF8, "", 0},
    {PGC_OID_ARRAY_OID, ARRAY("00000007", "00000001", "00000005", "00000004 fffffffe" "80000000"), 0,
        ARRAY("00000001", "0000001a", "00000001", "00000004 fffffffe" "ffffffff"), 0},
    {PGC_OID_ARRAY_OID, ARRAY("00000001", "0000001a", "00000001", "ffffffff" "00000005 0000000000"), PGC_SIZE, "", 0},
    {PGC_CIDR_ARRAY_OID, ARRAY("00000007", "00000001", "00000005", "00000008 02180104c0a80000" "80000000"), 0,
        ARRAY("00000001", "0000028a", "00000001", "00000008 02180004c0a80000" "ffffffff"), 0},
    {PGC_CIDR_ARRAY_OID, ARRAY("00000001", "0000028a", "00000001",
        "ffffffff" "00000008 02180104c0a80001"), PGC_HOST_BITS, "", 0},
    {PGC_MACADDR_ARRAY_OID, ARRAY("00000007", "00000001", "00000005", "00000006 08002b010203" "80000000"), 0,
        ARRAY("00000001", "0000033d", "00000001", "00000006 08002b010203" "ffffffff"), 0},
    {PGC_MACADDR_ARRAY_OID, ARRAY("00000001", "0000033d", "00000001", "ffffffff" "00000005 08002b0102"), PGC_SIZE,
        "", 0},
    {PGC_INET_ARRAY_OID, ARRAY("00000007", "00000001", "00000005", "00000008 0218ff04c0a80001" "80000000"), 0,
        ARRAY("00000001", "00000365", "00000001", "00000008 02180004c0a80001" "ffffffff"), 0},
    {PGC_INET_ARRAY_OID, ARRAY("00000001", "00000365", "00000001",
        "ffffffff" "00000008 04180004c0a80001"), PGC_FAMILY, "", 0},
    {PGC_BPCHAR_ARRAY_OID, ARRAY("00000007", "00000001", "00000005", "00000002 6120" "80000000"), 0,
        ARRAY("00000001", "00000412", "00000001", "00000002 6120" "ffffffff"), 0},
    {PGC_BPCHAR_ARRAY_OID, ARRAY("00000001", "00000412", "00000001", "ffffffff" "00000001 80"), PGC_UTF8, "", 0},
    {PGC_VARCHAR_ARRAY_OID, ARRAY("00000007", "00000001", "00000005", "00000001 61" "80000000"), 0,
        ARRAY("00000001", "00000413", "00000001", "00000001 61" "ffffffff"), 0},
    {PGC_VARCHAR_ARRAY_OID, ARRAY("00000001", "00000413", "00000001", "ffffffff" "00000002 c0af"), PGC_UTF8, "", 0},
    {PGC_DATE_ARRAY_OID, ARRAY("00000007", "00000001", "00000005", "00000004 7fffffff" "80000000"), 0,
        ARRAY("00000001", "0000043a", "00000001", "00000004 7fffffff" "ffffffff"), 0},
    {PGC_DATE_ARRAY_OID, ARRAY("00000001", "0000043a", "00000001",
        "ffffffff" "00000008 0000000000000000"), PGC_SIZE, "", 0},
    {PGC_TIME_ARRAY_OID, ARRAY("00000007", "00000001", "00000005", "00000008 000000141dd76000" "80000000"), 0,
        ARRAY("00000001", "0000043b", "00000001", "00000008 000000141dd76000" "ffffffff"), 0},
    {PGC_TIME_ARRAY_OID, ARRAY("00000001", "0000043b", "00000001", "ffffffff" "00000004 00000000"), PGC_SIZE, "", 0},
    {PGC_TIMESTAMP_ARRAY_OID, ARRAY("00000007", "00000001", "00000005", "00000008 8000000000000000" "80000000"), 0,
        ARRAY("00000001", "0000045a", "00000001", "00000008 8000000000000000" "ffffffff"), 0},
    {PGC_TIMESTAMP_ARRAY_OID, ARRAY("00000001", "0000045a", "00000001", "ffffffff" "00000000"), PGC_SIZE, "", 0},
    {PGC_TIMESTAMPTZ_ARRAY_OID, ARRAY("00000007", "00000001", "00000005", "00000008 fffffffffff85ee0" "80000000"), 0,
        ARRAY("00000001", "000004a0", "00000001", "00000008 fffffffffff85ee0" "ffffffff"), 0},
    {PGC_TIMESTAMPTZ_ARRAY_OID, ARRAY("00000001", "000004a0", "00000001",
        "ffffffff" "00000007 00000000000000"), PGC_SIZE, "", 0},
    {PGC_INTERVAL_ARRAY_OID, ARRAY("00000007", "00000001", "00000005",
        "00000010 0000000000000001fffffffe00000003" "80000000"), 0,
        ARRAY("00000001", "000004a2", "00000001", "00000010 0000000000000001fffffffe00000003" "ffffffff"), 0},
    {PGC_INTERVAL_ARRAY_OID, ARRAY("00000001", "000004a2", "00000001",
        "ffffffff" "00000008 0000000000000001"), PGC_SIZE, "", 0},
    {PGC_BIT_ARRAY_OID, ARRAY("00000007", "00000001", "00000005", "00000005 00000001ff" "80000000"), 0,
        ARRAY("00000001", "00000618", "00000001", "00000005 0000000180" "ffffffff"), 0},
    {PGC_BIT_ARRAY_OID, ARRAY("00000001", "00000618", "00000001", "ffffffff" "00000004 ffffffff"), PGC_COUNT, "", 0},
    {PGC_VARBIT_ARRAY_OID, ARRAY("00000007", "00000001", "00000005", "00000006 00000009ffff" "80000000"), 0,
        ARRAY("00000001", "0000061a", "00000001", "00000006 00000009ff80" "ffffffff"), 0},
    {PGC_VARBIT_ARRAY_OID, ARRAY("00000001", "0000061a", "00000001", "ffffffff" "00000005 00000009ff"), PGC_SIZE,
        "", 0},
    {PGC_UUID_ARRAY_OID, ARRAY("00000007", "00000001", "00000005",
        "00000010 00112233445566778899aabbccddeeff" "80000000"), 0,
        ARRAY("00000001", "00000b86", "00000001", "00000010 00112233445566778899aabbccddeeff" "ffffffff"), 0},
    {PGC_UUID_ARRAY_OID, ARRAY("00000001", "00000b86", "00000001", "ffffffff" "00000001 00"), PGC_SIZE, "", 0},
    {PGC_PG_LSN_ARRAY_OID, ARRAY("00000007", "00000001", "00000005", "00000008 ffffffff00000002" "80000000"), 0,
        ARRAY("00000001", "00000c94", "00000001", "00000008 ffffffff00000002" "ffffffff"), 0},
    {PGC_PG_LSN_ARRAY_OID, ARRAY("00000001", "00000c94", "00000001", "ffffffff" "00000004 00000000"), PGC_SIZE, "", 0},
    {PGC_INT4_ARRAY_OID, ARRAY("00000001", "00000017", "00000000", "00000004 00000001" "00000004 00000002"), 0,
        ARRAY("00000000", "00000017", "00000001", "00000004 00000001" "00000004 00000002"), 0},
    {PGC_INT4_ARRAY_OID, "00000000 00000000 00000019", 0, "00000001 00000000 00000017 00000000 00000001", 0},
    {PGC_INT4_ARRAY_OID, "00000001 00000001 00000017 00000000 80000000", 0,
        "00000001 00000000 00000017 00000000 00000001", 0},
    {PGC_INT4_ARRAY_OID, "00000001 00000000 00000017 00000000 00000001 00", PGC_SIZE, "", "ssssssssssssssssssss."},
    {PGC_INT4_ARRAY_OID, "00000001 00000000 00000017 00000001 00000001 00000003 00000000", PGC_SIZE, "", 0},
    {PGC_INT4_ARRAY_OID, "00000001 00000000 00000017 00000003 00000001 00000004 00000001", PGC_SIZE, "", 0},
    {PGC_INT4_ARRAY_OID, "00000001 00000000 00000017 7fffffff 00000001", PGC_SIZE, "", 0},
    {PGC_INT4_ARRAY_OID, "00000001 00000000 00000017 ffffffff 00000001", PGC_COUNT, "", 0},
    {PGC_INT4_ARRAY_OID, "ffffffff 00000000 00000017", PGC_COUNT, "", "sssscccccccc"},
    {PGC_INT4_ARRAY_OID, "00000002 00000000 00000017 00000000", PGC_DIMENSIONS, "", "ssssssssssssdddd"},
    {PGC_TEXT_ARRAY_OID, ARRAY("00000000", "00000019", "00000001", "00000001 ff" "00000005"), PGC_UTF8, "",
        "sssssssssssssssssssssssssuuuu"},
    {PGC_INT2_VECTOR_OID, ARRAY("00000001", "00000000", "00000001", "00000002 0001" "00000002 fffe"), 0,
        ARRAY("00000000", "00000015", "00000000", "00000002 0001" "00000002 fffe"), 0},
    {PGC_INT2_VECTOR_OID, "00000000 00000000 00000015", 0, "00000001 00000000 00000015 00000000 00000000", 0},
    {PGC_INT2_VECTOR_OID, ARRAY("00000001", "00000015", "00000000", "00000002 0001" "ffffffff"), PGC_WAS_NULL, "", 0},
    {PGC_INT2_VECTOR_OID, "00000001 00000000 00000015 00000001 00000000 00000001 00", PGC_SIZE, "", 0},
    {PGC_OID_VECTOR_OID, ARRAY("00000007", "00000017", "00000001", "00000004 00000001" "00000004 ffffffff"), 0,
        ARRAY("00000000", "0000001a", "00000000", "00000004 00000001" "00000004 ffffffff"), 0},
    {PGC_OID_VECTOR_OID, ARRAY("00000001", "0000001a", "00000000", "00000004 00000001" "80000000"), PGC_WAS_NULL, "",
        0},
    {PGC_OID_VECTOR_OID, ARRAY("00000000", "0000001a", "00000000", "00000004 00000001" "00000002 0000"), PGC_SIZE, "",
        0},
    {0, "", PGC_WRONG_TYPE, "", ""},
    {24, "61", PGC_WRONG_TYPE, "", "w"},
    {2277, "61", PGC_WRONG_TYPE, "", "w"},
    {UINT32_MAX, "61", PGC_WRONG_TYPE, "", "w"},
};

/* A copy of bytes that ends where its memory does. */
static uint8_t *copy_of(const uint8_t *bytes, size_t len)
{
    uint8_t *copy = malloc(len ? len : 1);
    if (!copy) {
        exit(2);
    }
    return len ? memcpy(copy, bytes, len) : copy;
}

/* A front of the cell gives that fault, and neither the buffer nor the variable is changed. */
static void expect_refused(const struct row *row, const uint8_t *cell, size_t len, uint32_t expected)
{
    size_t written = BEFORE;
    uint8_t *out = buffer(len + 2);
    uint32_t fault = pgc_rewrite(row->oid, cell, len, out, len + 2, &written);
    expect(fault == expected, "the fault", row->cell, len, "another");
    if (fault) {
        expect(written == BEFORE, "the variable", row->cell, len, "changed");
        expect_written(row->cell, NULL, SIZE_MAX, out, len + 2);
    }
}

/* The cell is rewritten to a buffer of each size up to more than the new one has. */
static void expect_rewritten(const struct row *row, const uint8_t *cell, size_t len)
{
    uint8_t expected[64];
    size_t expected_len = bytes_of(row->written, expected);
    for (size_t room = 0; room <= expected_len + 2; room++) {
        size_t written = BEFORE;
        uint8_t *out = buffer(room);
        expect(!pgc_rewrite(row->oid, cell, len, out, room, &written), "a fault", row->cell, room, "one");
        expect(written == expected_len, "the length", row->cell, room, "another");
        expect_written(row->cell, expected, expected_len, out, room);
    }
}

static void try_row(const struct row *row)
{
    uint8_t bytes[64];
    size_t len = bytes_of(row->cell, bytes);
    expect(!row->fronts || strlen(row->fronts) == len, "the row", row->cell, len, "a front for each length");
    for (size_t n = 0; n <= len; n++) {
        uint8_t *cell = copy_of(bytes, n);
        expect_refused(row, cell, n, n == len ? row->fault : row->fronts ? fault_of(row->fronts[n]) : PGC_SIZE);
        if (n == len && !row->fault) {
            expect_rewritten(row, cell, n);
        }
        free(cell);
    }
}

void try_rewriting(void)
{
    for (size_t i = 0; i < sizeof rows / sizeof *rows; i++) {
        try_row(&rows[i]);
    }
}
