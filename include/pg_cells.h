/*
 * pg_cells.h: PostgreSQL's binary cells, for C.
 *
 * A cell is the bytes of one value in PostgreSQL's binary format. In libpq, PQgetvalue and PQgetlength give the cell of
 * a value if the result is in binary format, and PQexecParams takes cells as binary parameters. NULL has no cell: call
 * PQgetisnull first.
 *
 * Every function here is proved to do what its comment says, if the pointers that are passed to it are valid. Link with
 * libpg_cells_c.a. Of the C library it needs memmove only.
 *
 * For all functions:
 *
 * - No function allocates, blocks, or keeps a state between calls, so that each may be called from several threads, and
 *   from a signal handler.
 * - `cell` points to the first of `len` bytes. It may not be NULL, even if `len` is 0. The bytes are only read.
 * - A pointer to a variable may not be NULL, and neither a variable nor a buffer may overlap with the memory of another
 *   argument. The value of a variable before the call is ignored, with two exceptions: a walk and a builder are read
 *   and updated, and a `bool` has to be true or false.
 * - A function that reads sets the variable and returns 0 (PGC_OK); or it returns the number of a fault (PGC_SIZE and
 *   so on), and the variable is unchanged. The fault is that of the first check that the cell fails.
 * - A function that writes returns the length of the cell, in bytes. If `room` is at least this length, the cell is
 *   written to `out`; otherwise nothing is written. So with `room` 0 the cell is only measured. No other byte of the
 *   buffer changes. `out` may not be NULL, even if `room` is 0.
 */
#ifndef PG_CELLS_H
#define PG_CELLS_H

#include <stdbool.h>
#include <stddef.h>
#include <stdint.h>

#ifdef __cplusplus
extern "C" {
#endif

/* The faults. Those without a comment are faults of the library for Rust, which no function here returns. */
enum pgc_fault {
    PGC_OK = 0,
    PGC_MEMORY = 1,
    PGC_WAS_NULL = 2, /* an element of int2vector or oidvector is NULL */
    PGC_WRONG_TYPE = 3, /* cells of the type are not rewritten by pgc_rewrite */
    PGC_SIZE = 4, /* the length of a cell, or of a part of it, is not that of its format */
    PGC_UTF8 = 5, /* a text is not UTF-8 */
    PGC_COUNT = 6, /* a count is negative */
    PGC_KEY_LENGTH = 7, /* the length of an hstore's key is negative */
    PGC_DIMENSIONS = 8, /* an array has more than one dimension */
    PGC_TOO_FEW = 9,
    PGC_EXCESS = 10,
    PGC_DECODE = 11, /* a date or a timestamp is an infinity, or a time is not within a day: it has no parts */
    PGC_TRANSMIT = 12, /* there is no such day or time, or it is out of the range of the type */
    PGC_JSON_VERSION = 13,
    PGC_TEXT_VERSION = 14, /* the version of a cell of ltree, lquery or ltxtquery is not 1 */
    PGC_JSON_TEXT = 15,
    PGC_JSON_NUMBER = 16,
    PGC_FAMILY = 17, /* an address is neither IPv4 nor IPv6 */
    PGC_NETMASK = 18, /* a netmask is longer than its address */
    PGC_ADDRESS_LENGTH = 19, /* the length of an address is not that of its family */
    PGC_HOST_BITS = 20, /* a network has a bit set after its netmask */
    PGC_USER = 21,
    PGC_FIELD_COUNT = 22,
    PGC_FIELD_OID = 23
};

/* What a function that writes returns for a value that has no cell. The buffer is unchanged then. */
#define PGC_NO_CELL SIZE_MAX

/*
 * Writes the text of a fault, with a zero byte at its end, as other functions write cells. The length that is returned
 * counts the zero byte and is at most 64. The text of 0 is "no fault", and that of a number that is not a fault is
 * "unknown fault".
 */
size_t pgc_fault_text(uint32_t fault, void *out, size_t room);

/* The OIDs of PostgreSQL's built-in types, as PQftype returns them. */
#define PGC_BOOL_OID              16
#define PGC_BYTEA_OID             17
#define PGC_CHAR_OID              18
#define PGC_NAME_OID              19
#define PGC_INT8_OID              20
#define PGC_INT2_OID              21
#define PGC_INT2_VECTOR_OID       22
#define PGC_INT4_OID              23
#define PGC_TEXT_OID              25
#define PGC_OID_OID               26
#define PGC_OID_VECTOR_OID        30
#define PGC_JSON_OID              114
#define PGC_JSON_ARRAY_OID        199
#define PGC_CIDR_OID              650
#define PGC_CIDR_ARRAY_OID        651
#define PGC_UNKNOWN_OID           705
#define PGC_MACADDR_OID           829
#define PGC_INET_OID              869
#define PGC_BOOL_ARRAY_OID        1000
#define PGC_BYTEA_ARRAY_OID       1001
#define PGC_CHAR_ARRAY_OID        1002
#define PGC_NAME_ARRAY_OID        1003
#define PGC_INT2_ARRAY_OID        1005
#define PGC_INT4_ARRAY_OID        1007
#define PGC_TEXT_ARRAY_OID        1009
#define PGC_BPCHAR_ARRAY_OID      1014
#define PGC_VARCHAR_ARRAY_OID     1015
#define PGC_INT8_ARRAY_OID        1016
#define PGC_OID_ARRAY_OID         1028
#define PGC_MACADDR_ARRAY_OID     1040
#define PGC_INET_ARRAY_OID        1041
#define PGC_BPCHAR_OID            1042
#define PGC_VARCHAR_OID           1043
#define PGC_DATE_OID              1082
#define PGC_TIME_OID              1083
#define PGC_TIMESTAMP_OID         1114
#define PGC_TIMESTAMP_ARRAY_OID   1115
#define PGC_DATE_ARRAY_OID        1182
#define PGC_TIME_ARRAY_OID        1183
#define PGC_TIMESTAMPTZ_OID       1184
#define PGC_TIMESTAMPTZ_ARRAY_OID 1185
#define PGC_INTERVAL_OID          1186
#define PGC_INTERVAL_ARRAY_OID    1187
#define PGC_BIT_OID               1560
#define PGC_BIT_ARRAY_OID         1561
#define PGC_VARBIT_OID            1562
#define PGC_VARBIT_ARRAY_OID      1563
#define PGC_UUID_OID              2950
#define PGC_UUID_ARRAY_OID        2951
#define PGC_PG_LSN_OID            3220
#define PGC_PG_LSN_ARRAY_OID      3221
#define PGC_JSONB_OID             3802
#define PGC_JSONB_ARRAY_OID       3807

/* A part of a cell: the `len` bytes from `cell + offset` on. */
struct pgc_span {
    size_t offset;
    size_t len;
};

/*
 * A bit string: the number of bits, and the bytes that have them. The first bit is the most significant one of the
 * first byte.
 */
struct pgc_bits {
    size_t bit_len;
    struct pgc_span bytes; /* (bit_len + 7) / 8 bytes */
};

/* A UUID: its bytes in the order of its text. */
struct pgc_uuid {
    uint8_t bytes[16];
};

/* A MAC address: its bytes in the order of its text. */
struct pgc_macaddr {
    uint8_t bytes[6];
};

/* The address families. */
#define PGC_IPV4 2
#define PGC_IPV6 3

/* An address and the length of its netmask. */
struct pgc_inet {
    uint8_t family;     /* PGC_IPV4 or PGC_IPV6 */
    uint8_t netmask;    /* at most 32 for IPv4, and 128 for IPv6 */
    uint8_t octets[16]; /* for IPv4 the first 4, and then zeros; for IPv6 all 16 */
};

/* A date. */
struct pgc_date {
    int32_t days;     /* from 2000-01-01; INT32_MAX or INT32_MIN for an infinity */
    int32_t infinity; /* 1 for infinity, -1 for -infinity, and 0 for any other date */
};

/* A timestamp, with or without a time zone. With a time zone it is in UTC. */
struct pgc_timestamp {
    int64_t microseconds; /* from 2000-01-01 00:00:00; INT64_MAX or INT64_MIN for an infinity */
    int32_t infinity;     /* 1 for infinity, -1 for -infinity, and 0 for any other timestamp */
};

/*
 * An interval: three parts, each with its sign. They are separate since a month has no fixed number of days, and a day
 * no fixed number of hours.
 */
struct pgc_interval {
    int64_t microseconds;
    int32_t days;
    int32_t months;
};

/*
 * Reads bool (boolrecv): 1 byte, where 0 is false and any other byte is true. Any other length is refused with
 * PGC_SIZE. `value` has to be true or false before the call, too.
 */
uint32_t pgc_bool_read(const void *cell, size_t len, bool *value);

/* Writes bool (boolsend): 1 byte, 0 or 1. */
size_t pgc_bool_write(bool value, void *out, size_t room);

/* Reads "char" (charrecv): 1 byte, in two's complement. Any other length is refused with PGC_SIZE. */
uint32_t pgc_char_read(const void *cell, size_t len, int8_t *value);

/* Writes "char" (charsend): 1 byte, in two's complement. */
size_t pgc_char_write(int8_t value, void *out, size_t room);

/* Reads int2 (int2recv): 2 bytes, big-endian, in two's complement. Any other length is refused with PGC_SIZE. */
uint32_t pgc_int2_read(const void *cell, size_t len, int16_t *value);

/* Writes int2 (int2send): 2 bytes, big-endian, in two's complement. */
size_t pgc_int2_write(int16_t value, void *out, size_t room);

/* Reads int4 (int4recv): 4 bytes, big-endian, in two's complement. Any other length is refused with PGC_SIZE. */
uint32_t pgc_int4_read(const void *cell, size_t len, int32_t *value);

/* Writes int4 (int4send): 4 bytes, big-endian, in two's complement. */
size_t pgc_int4_write(int32_t value, void *out, size_t room);

/* Reads int8 (int8recv): 8 bytes, big-endian, in two's complement. Any other length is refused with PGC_SIZE. */
uint32_t pgc_int8_read(const void *cell, size_t len, int64_t *value);

/* Writes int8 (int8send): 8 bytes, big-endian, in two's complement. */
size_t pgc_int8_write(int64_t value, void *out, size_t room);

/* Reads oid (oidrecv): 4 bytes, unsigned, big-endian. Any other length is refused with PGC_SIZE. */
uint32_t pgc_oid_read(const void *cell, size_t len, uint32_t *value);

/* Writes oid (oidsend): 4 bytes, unsigned, big-endian. */
size_t pgc_oid_write(uint32_t oid, void *out, size_t room);

/* Reads pg_lsn (pg_lsn_recv): 8 bytes, unsigned, big-endian. Any other length is refused with PGC_SIZE. */
uint32_t pgc_lsn_read(const void *cell, size_t len, uint64_t *value);

/* Writes pg_lsn (pg_lsn_send): 8 bytes, unsigned, big-endian. */
size_t pgc_lsn_write(uint64_t lsn, void *out, size_t room);

/*
 * Reads a text: text, varchar, bpchar, name, unknown or citext (textrecv and its like). The text is the whole cell, and
 * no zero byte follows it. A cell that is not UTF-8 is refused with PGC_UTF8. A text may contain zero bytes, though the
 * server sends none.
 */
uint32_t pgc_text_read(const void *cell, size_t len, struct pgc_span *text);

/*
 * Writes a text (textsend and its like): the `len` bytes from `text` on. `text` may not be NULL, even if `len` is 0.
 * Bytes that are not UTF-8 have no cell.
 */
size_t pgc_text_write(const void *text, size_t len, void *out, size_t room);

/*
 * Reads ltree, lquery and ltxtquery (ltree_recv, lquery_recv, ltxtq_recv): the version 1 in a byte, and then the text.
 * Any other first byte, or none, is refused with PGC_TEXT_VERSION, and a text that is not UTF-8 with PGC_UTF8.
 */
uint32_t pgc_ltree_read(const void *cell, size_t len, struct pgc_span *text);

/*
 * Writes ltree, lquery and ltxtquery (ltree_send, lquery_send, ltxtq_send): the version 1 in a byte, and then the text,
 * which has to be as for pgc_text_write.
 */
size_t pgc_ltree_write(const void *text, size_t len, void *out, size_t room);

/* Reads bytea (bytearecv): all bytes of the cell. No cell is refused. */
uint32_t pgc_bytea_read(const void *cell, size_t len, struct pgc_span *bytes);

/* Writes bytea (byteasend): the `len` bytes from `bytes` on. `bytes` may not be NULL, even if `len` is 0. */
size_t pgc_bytea_write(const void *bytes, size_t len, void *out, size_t room);

/*
 * Reads bit and varbit (bit_recv, varbit_recv): the number of bits in 4 bytes, big-endian, and the bytes of the bits. A
 * truncated number is refused with PGC_SIZE, a negative one with PGC_COUNT, and a number of bytes that is not what the
 * bits take with PGC_SIZE. The padding bits of the last byte are not checked: they may be 1.
 */
uint32_t pgc_varbit_read(const void *cell, size_t len, struct pgc_bits *bits);

/*
 * Writes bit and varbit (bit_send, varbit_send): the first `bit_len` bits of `bytes`. The first bit is the most
 * significant one of the first byte, and the padding bits of the last byte are written as 0. There is no cell if `len`
 * is not (bit_len + 7) / 8, or if there are more than 2,147,483,647 bits. `bytes` may not be NULL, even if `len` is 0.
 */
size_t pgc_varbit_write(size_t bit_len, const void *bytes, size_t len, void *out, size_t room);

/* Reads uuid (uuid_recv): 16 bytes. Any other length is refused with PGC_SIZE. */
uint32_t pgc_uuid_read(const void *cell, size_t len, struct pgc_uuid *uuid);

/* Writes uuid (uuid_send): 16 bytes. `uuid` may not be NULL. */
size_t pgc_uuid_write(const struct pgc_uuid *uuid, void *out, size_t room);

/* Reads macaddr (macaddr_recv): 6 bytes. Any other length is refused with PGC_SIZE. */
uint32_t pgc_macaddr_read(const void *cell, size_t len, struct pgc_macaddr *macaddr);

/* Writes macaddr (macaddr_send): 6 bytes. `macaddr` may not be NULL. */
size_t pgc_macaddr_write(const struct pgc_macaddr *macaddr, void *out, size_t room);

/*
 * Reads inet (inet_recv): in a byte each the family (2 or 3), the length of the netmask, a flag, which is ignored, and
 * the number of octets; and then the octets. Fewer than 4 bytes are refused with PGC_SIZE; then any other family with
 * PGC_FAMILY, a netmask that is longer than the address with PGC_NETMASK, a number of octets that is not that of the
 * family with PGC_ADDRESS_LENGTH, and any other length of the octets with PGC_SIZE.
 */
uint32_t pgc_inet_read(const void *cell, size_t len, struct pgc_inet *inet);

/*
 * Reads cidr (cidr_recv), as pgc_inet_read reads inet. After its checks, an address of which a bit after the netmask is
 * 1 is refused with PGC_HOST_BITS.
 */
uint32_t pgc_cidr_read(const void *cell, size_t len, struct pgc_inet *cidr);

/*
 * Writes inet (inet_send): the family, the length of the netmask, the flag 0, the number of octets, and the octets.
 * There is no cell if the family is neither PGC_IPV4 nor PGC_IPV6, or if the netmask is longer than the address. For
 * IPv4, the octets after the first 4 are ignored. `inet` may not be NULL.
 */
size_t pgc_inet_write(const struct pgc_inet *inet, void *out, size_t room);

/*
 * Writes cidr (cidr_send), as pgc_inet_write writes inet. There is no cell if pgc_inet_write has none, or if a bit of
 * the address after the netmask is 1. The flag is 0, though cidr_send sends 1: cidr_recv ignores it. `cidr` may not be
 * NULL.
 */
size_t pgc_cidr_write(const struct pgc_inet *cidr, void *out, size_t room);

/*
 * Reads date (date_recv): the days from 2000-01-01 in 4 bytes, big-endian, in two's complement. Any other length is
 * refused with PGC_SIZE.
 */
uint32_t pgc_date_read(const void *cell, size_t len, struct pgc_date *date);

/* Writes date (date_send): the days from 2000-01-01, in 4 bytes. INT32_MAX is infinity, and INT32_MIN -infinity. */
size_t pgc_date_write(int32_t days, void *out, size_t room);

/*
 * Reads time (time_recv): the microseconds from midnight in 8 bytes, big-endian, in two's complement. Any other length
 * is refused with PGC_SIZE. Every number is read, even if it is not within a day.
 */
uint32_t pgc_time_read(const void *cell, size_t len, int64_t *microseconds);

/* Writes time (time_send): the microseconds from midnight, in 8 bytes. The server accepts 0 to 86,400,000,000. */
size_t pgc_time_write(int64_t microseconds, void *out, size_t room);

/*
 * Reads timestamp and timestamptz (timestamp_recv, timestamptz_recv): the microseconds from 2000-01-01 00:00:00 in 8
 * bytes, big-endian, in two's complement. Any other length is refused with PGC_SIZE.
 */
uint32_t pgc_timestamp_read(const void *cell, size_t len, struct pgc_timestamp *timestamp);

/*
 * Writes timestamp and timestamptz (timestamp_send, timestamptz_send): the microseconds from 2000-01-01 00:00:00, in 8
 * bytes. INT64_MAX is infinity, and INT64_MIN -infinity.
 */
size_t pgc_timestamp_write(int64_t microseconds, void *out, size_t room);

/*
 * A day of the proleptic Gregorian calendar. The year 0 is the one before year 1: PostgreSQL writes it as 1 BC. The
 * year before it is -1.
 */
struct pgc_date_parts {
    int64_t year;
    uint32_t month; /* 1 to 12 */
    uint32_t day;   /* 1 to 31 */
};

/* A time of day. */
struct pgc_time_parts {
    uint32_t hour; /* 0 to 23, or 24 for 24:00:00 */
    uint32_t minute;
    uint32_t second;
    uint32_t microsecond;
};

/* A day and a time of day. For a timestamp with a time zone they are in UTC. */
struct pgc_timestamp_parts {
    struct pgc_date_parts date;
    struct pgc_time_parts time; /* before 24:00:00, at which the next day begins */
};

/*
 * Splits a date, as days from 2000-01-01, into the year, the month and the day. INT32_MAX and INT32_MIN are the
 * infinities, which have no parts: they are refused with PGC_DECODE, and `parts` is unchanged.
 */
uint32_t pgc_date_parts(int32_t days, struct pgc_date_parts *parts);

/*
 * Splits a time, as microseconds from midnight, into its parts. 86,400,000,000 is 24:00:00. A number less than 0 or
 * greater than this is refused with PGC_DECODE, and `parts` is unchanged.
 */
uint32_t pgc_time_parts(int64_t microseconds, struct pgc_time_parts *parts);

/*
 * Splits a timestamp, as microseconds from 2000-01-01 00:00:00, into its parts. INT64_MAX and INT64_MIN are the
 * infinities, which have no parts: they are refused with PGC_DECODE, and `parts` is unchanged.
 */
uint32_t pgc_timestamp_parts(int64_t microseconds, struct pgc_timestamp_parts *parts);

/*
 * Makes the date of a day: sets `days` to its days from 2000-01-01, and returns 0. If there is no such day, or the
 * number is not between INT32_MIN and INT32_MAX, which are the infinities, the result is PGC_TRANSMIT, and `days` is
 * unchanged. The server accepts dates from 4714-11-24 BC to 5874897-12-31. `parts` may not be NULL.
 */
uint32_t pgc_date_of_parts(const struct pgc_date_parts *parts, int32_t *days);

/*
 * Makes a time: sets `microseconds` to its microseconds from midnight, and returns 0. If there is no such time, for
 * example with the second 60 or after 24:00:00, the result is PGC_TRANSMIT, and `microseconds` is unchanged. `parts`
 * may not be NULL.
 */
uint32_t pgc_time_of_parts(const struct pgc_time_parts *parts, int64_t *microseconds);

/*
 * Makes a timestamp: sets `microseconds` to its microseconds from 2000-01-01 00:00:00, and returns 0. If there is no
 * such day or time, or the time is 24:00:00, or the number is not between INT64_MIN and INT64_MAX, which are the
 * infinities, the result is PGC_TRANSMIT, and `microseconds` is unchanged. The server accepts timestamps from
 * 4714-11-24 BC to the end of the year 294276. `parts` may not be NULL.
 */
uint32_t pgc_timestamp_of_parts(const struct pgc_timestamp_parts *parts, int64_t *microseconds);

/*
 * Reads interval (interval_recv): the microseconds in 8 bytes, then the days and the months in 4 each, big-endian, in
 * two's complement. Any other length is refused with PGC_SIZE. In PostgreSQL 17 and later, an interval is infinity if
 * its three parts are the greatest numbers of their widths, and -infinity if they are the least.
 */
uint32_t pgc_interval_read(const void *cell, size_t len, struct pgc_interval *interval);

/* Writes interval (interval_send): its parts, in 8, 4 and 4 bytes. */
size_t pgc_interval_write(int64_t microseconds, int32_t days, int32_t months, void *out, size_t room);

/*
 * Writes the frame of a cell, as arrays, records, hstores, rows and lists of parameters have it: the length in 4 bytes,
 * big-endian, and the `len` bytes from `cell` on, which may not overlap with the buffer. A cell of more than
 * 2,147,483,647 bytes has no frame: the result is PGC_NO_CELL. To build arrays, records, hstores and lists of
 * parameters, see pgc_builder.
 */
size_t pgc_frame_write(const void *cell, size_t len, void *out, size_t room);

/* Writes the frame of NULL: the length -1 in 4 bytes. */
size_t pgc_null_write(void *out, size_t room);

/* A walk: a position among the elements of a cell, which are read one after another. */
struct pgc_walk {
    size_t left;   /* the number of elements that are left, as the cell states it */
    size_t offset; /* the offset of the next one in the cell */
};

/* An element: a part of the cell, or NULL. */
struct pgc_element {
    uint32_t is_null; /* 1 if it is NULL, and otherwise 0 */
    struct pgc_span bytes;
};

/* What the functions of a walk return if there are no more elements. */
#define PGC_END UINT32_MAX

/* An array whose header was read. */
struct pgc_array {
    struct pgc_walk walk; /* at its first element */
    uint32_t element_oid; /* the OID of the elements' type, as the cell states it */
};

/*
 * Reads the header of an array (array_recv): in 4 bytes each, big-endian, the number of dimensions, the flags, the OID
 * of the elements' type, and for each dimension its length and its lower bound. `array->walk` is then at the first
 * element.
 *
 * A truncated number of dimensions is refused with PGC_SIZE, a negative one with PGC_COUNT, truncated flags or a
 * truncated OID with PGC_SIZE, more than 1 dimension with PGC_DIMENSIONS, a truncated dimension with PGC_SIZE, and a
 * negative length with PGC_COUNT. The flags, the OID and the lower bound are not checked. Nor is `array->walk.left`
 * compared with the length of the cell: do not allocate for that many elements before they are read.
 */
uint32_t pgc_array_begin(const void *cell, size_t len, struct pgc_array *array);

/*
 * Reads the next element of an array, at `walk`, from the same cell as pgc_array_begin: its length in 4 bytes,
 * big-endian, and that many bytes. Any negative length is NULL. `element` is set, `walk` advances to the next element,
 * and the result is 0. If the length or the bytes are truncated, or if bytes follow the last element, the result is
 * PGC_SIZE, and `element` is unchanged. After a fault, and after the last element, every call returns PGC_END.
 *
 * The element's bytes are a cell of the elements' type, at `cell + element->bytes.offset`. To return to a position
 * later, copy `walk`.
 */
uint32_t pgc_array_next(const void *cell, size_t len, struct pgc_walk *walk, struct pgc_element *element);

/* An entry of an hstore: its key, and its value, which may be NULL. */
struct pgc_entry {
    struct pgc_span key;
    struct pgc_element value;
};

/*
 * Reads the number of entries of an hstore (hstore_recv): 4 bytes, big-endian. `walk` is then at the first entry. A
 * truncated number is refused with PGC_SIZE, and a negative one with PGC_COUNT. hstore is the type of an extension, so
 * that its OID differs between databases.
 */
uint32_t pgc_hstore_begin(const void *cell, size_t len, struct pgc_walk *walk);

/*
 * Reads the next entry of an hstore, as pgc_array_next reads an element: the length of the key and the key, and then
 * the length of the value and the value. Any negative length of the value is NULL. A truncated part is refused with
 * PGC_SIZE, a negative length of the key with PGC_KEY_LENGTH, and a text that is not UTF-8 with PGC_UTF8. If several
 * entries have the same key, the server keeps one of them and does not guarantee which; the library for Rust keeps the
 * last.
 */
uint32_t pgc_hstore_next(const void *cell, size_t len, struct pgc_walk *walk, struct pgc_entry *entry);

/* A field of a record: the OID of its type, and its value, which may be NULL. */
struct pgc_field {
    uint32_t oid;
    struct pgc_element value;
};

/*
 * Reads the number of fields of a record (record_recv), of a composite type or of type record: 4 bytes, big-endian.
 * `walk` is then at the first field. A truncated number is refused with PGC_SIZE, and a negative one with PGC_COUNT.
 */
uint32_t pgc_record_begin(const void *cell, size_t len, struct pgc_walk *walk);

/*
 * Reads the next field of a record, as pgc_array_next reads an element: the OID of its type in 4 bytes, big-endian, and
 * its value as an element. A truncated part is refused with PGC_SIZE. The caller has to check that the fields are those
 * of the type.
 */
uint32_t pgc_record_next(const void *cell, size_t len, struct pgc_walk *walk, struct pgc_field *field);

/*
 * Reads the number of columns of a row: 2 bytes, big-endian. The row is the body of a DataRow message, or a row in the
 * file format of binary COPY. `walk` is then at the first column, and pgc_array_next reads each column, from the same
 * `body`. A truncated number is refused with PGC_SIZE, and a negative one, like that of the trailer of a COPY file,
 * with PGC_COUNT.
 */
uint32_t pgc_row_begin(const void *body, size_t len, struct pgc_walk *walk);

/*
 * A builder: the state of a cell that is built from items. It is an array, a record, an hstore, or the parameters of a
 * Bind message. The cell begins at `out`, in a buffer of `room` bytes. All functions, from the first push to the close,
 * are called with the same buffer:
 *
 *     struct pgc_builder builder;
 *     pgc_array_open(&builder);
 *     pgc_push(&builder, cell, len, out, room);
 *     pgc_push_null(&builder, out, room);
 *     size_t array_len = pgc_array_close(&builder, PGC_INT4_OID, out, room);
 *
 * For all functions that push:
 *
 * - They return the length of the item, in bytes. If the sum of `builder->len` and this length is at most `room`, the
 *   item is written to `out + builder->len`, and the builder counts it; otherwise the buffer and the builder are
 *   unchanged. No other byte of the buffer changes.
 * - They return PGC_NO_CELL, and the buffer and the builder are unchanged, if a cell has more than 2,147,483,647 bytes,
 *   or if the builder has 2,147,483,647 items.
 * - What is pushed may not overlap with the buffer, except for pgc_push_written and pgc_push_written_field.
 *
 * For all functions that close: they return the length of the cell, in bytes. If it is at most `room`, the header is
 * written to `out`, and the first bytes of the buffer are the cell; otherwise nothing is written. If the builder has
 * less room than the header takes, they return PGC_NO_CELL. A close leaves the builder unchanged: more items may be
 * pushed, and it may be closed again.
 *
 * A builder is plain data. To remove items, assign a copy of the builder that was made before them. To continue in a
 * larger buffer, copy the first `builder->len` bytes to it, and push again the item that did not fit. To build a cell
 * within another one, open a second builder, give it `out + builder->len + 4` and the room that is left there, and pass
 * the length that its close returns to pgc_push_written.
 */
struct pgc_builder {
    size_t len;        /* the length of the cell so far, in bytes, with the room for its header */
    size_t count;      /* the number of items */
    uint32_t has_null; /* 1 if an item is NULL, and otherwise 0 */
};

/* Begins an array of one dimension (array_send): 20 bytes are left for its header. */
void pgc_array_open(struct pgc_builder *builder);

/* Begins a list of parameters (Bind message): 2 bytes are left for their number. */
void pgc_params_open(struct pgc_builder *builder);

/* Begins a record (record_send): 4 bytes are left for the number of its fields. */
void pgc_record_open(struct pgc_builder *builder);

/* Begins an hstore (hstore_send): 4 bytes are left for the number of its entries. */
void pgc_hstore_open(struct pgc_builder *builder);

/*
 * Pushes an element of an array, or a parameter: the frame of the `len` bytes from `cell` on, as pgc_frame_write writes
 * it. `cell` may not be NULL, even if `len` is 0.
 */
size_t pgc_push(struct pgc_builder *builder, const void *cell, size_t len, void *out, size_t room);

/* Pushes an element or a parameter that is NULL: its frame, of 4 bytes. */
size_t pgc_push_null(struct pgc_builder *builder, void *out, size_t room);

/*
 * Pushes an element or a parameter whose cell is already written. Its `len` bytes are at `out + builder->len + 4`,
 * where any function may have written them, and its length is written before them. The result counts both.
 */
size_t pgc_push_written(struct pgc_builder *builder, size_t len, void *out, size_t room);

/* Pushes a field of a record: the OID of its type in 4 bytes, and then its frame as pgc_push. */
size_t pgc_push_field(struct pgc_builder *builder, uint32_t oid, const void *cell, size_t len, void *out, size_t room);

/* Pushes a field that is NULL: the OID of its type in 4 bytes, and then its frame as pgc_push_null. */
size_t pgc_push_null_field(struct pgc_builder *builder, uint32_t oid, void *out, size_t room);

/*
 * Pushes a field whose cell is already written, as pgc_push_written. Its `len` bytes are at `out + builder->len + 8`.
 */
size_t pgc_push_written_field(struct pgc_builder *builder, uint32_t oid, size_t len, void *out, size_t room);

/*
 * Pushes an entry of an hstore: the frames of its key and its value. Neither pointer may be NULL, even if its length is
 * 0. If one of the texts is not UTF-8, the result is PGC_NO_CELL. Keys are not compared: if several entries have the
 * same key, the server keeps one of them.
 */
size_t pgc_push_entry(struct pgc_builder *builder, const void *key, size_t key_len, const void *value, size_t value_len,
                      void *out, size_t room);

/* Pushes an entry whose value is NULL: the frame of its key, and the frame of NULL. */
size_t pgc_push_null_entry(struct pgc_builder *builder, const void *key, size_t key_len, void *out, size_t room);

/*
 * Closes an array. Its header has 4 bytes each, big-endian: the number of dimensions, which is 1, the flags, which are
 * 1 if an element is NULL and otherwise 0, the OID of the elements' type, the number of elements, and the lower bound
 * 1. There is no cell of more than 2,147,483,647 elements.
 */
size_t pgc_array_close(const struct pgc_builder *builder, uint32_t element_oid, void *out, size_t room);

/*
 * Closes a list of parameters: their number in 2 bytes, big-endian, which precedes the frames in a Bind message. If
 * there are more than 65,535, the result is PGC_NO_CELL.
 */
size_t pgc_params_close(const struct pgc_builder *builder, void *out, size_t room);

/*
 * Closes a record: the number of its fields in 4 bytes, big-endian. There is no cell of more than 2,147,483,647 fields.
 */
size_t pgc_record_close(const struct pgc_builder *builder, void *out, size_t room);

/*
 * Closes an hstore: the number of its entries in 4 bytes, big-endian. There is no cell of more than 2,147,483,647
 * entries.
 */
size_t pgc_hstore_close(const struct pgc_builder *builder, void *out, size_t room);

/*
 * Rewrites a cell of the built-in type with that OID: reads its value, and writes the cell of that value. If the cell
 * passes every check, the result is 0, and `written` is set to the length of the new cell, in bytes. If `room` is at
 * least this length, the new cell is written to `out`, and no other byte of the buffer changes. If the cell fails a
 * check, the result is the fault of the first one, and the buffer and `written` are unchanged. So with `room` 0 the
 * cell is only checked, and the new cell measured. All cells of one value are rewritten to the same bytes:
 *
 * - bool is read as by pgc_bool_read, and written as 0 or 1.
 * - bit and varbit are read as by pgc_varbit_read, and the padding bits of the last byte are written as 0.
 * - inet and cidr are read as by pgc_inet_read and pgc_cidr_read. The flag is written as 0, as by every function here,
 *   though the server's cidr_send sends 1.
 * - "char", int2, int4, int8, oid, pg_lsn, date, time, timestamp, timestamptz, interval, uuid and macaddr are read as
 *   by the functions that read them, and written unchanged. So are text, varchar, bpchar, name and unknown, which are
 *   read as by pgc_text_read, and bytea. Every number is accepted, even if the server refuses it.
 * - An array of these types, except unknown, is read as by pgc_array_begin and pgc_array_next: first the header is
 *   checked; then each element in order, the frame before the cell in it; and then that no bytes follow. It is written
 *   with one dimension, even if it has no elements: in 4 bytes each the number 1, the flags, which are 1 if an element
 *   is NULL and otherwise 0, the OID of the elements' type, their number and the lower bound 1, and then the frames of
 *   the rewritten elements. The flags, the OID and the lower bound of the cell are ignored.
 * - int2vector and oidvector are arrays of int2 and oid with the lower bound 0. An element that is NULL is refused with
 *   PGC_WAS_NULL.
 *
 * Any other OID is refused with PGC_WRONG_TYPE, whatever the cell is: also those of json, jsonb and their arrays, since
 * no JSON is parsed here, and those of user-defined types. The elements of an array are read twice, or once if the new
 * cell does not fit in the buffer.
 */
uint32_t pgc_rewrite(uint32_t oid, const void *cell, size_t len, void *out, size_t room, size_t *written);

#ifdef __cplusplus
}
#endif

#endif
