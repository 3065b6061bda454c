/* What is read of cells, as texts that SQL can make of the values too. */
#include <arpa/inet.h>
#include <stdio.h>
#include <string.h>

#include "client.h"

/* The type of the variable that is read, and the text of it. */
#define SHOWS(name, type, ...)                                      \
    void show_##name(const uint8_t *cell, size_t len, char *text)   \
    {                                                               \
        type v = {0};                                               \
        if (!pgc_##name##_read(cell, len, &v)) {                    \
            __VA_ARGS__;                                            \
        }                                                           \
    }

static void digits(char *text, const uint8_t *bytes, size_t len)
{
    *text = 0;
    for (size_t i = 0; i < len; i++) {
        sprintf(text + 2 * i, "%02x", bytes[i]);
    }
}

static void copy(char *text, const uint8_t *bytes, size_t len)
{
    memcpy(text, bytes, len);
    text[len] = 0;
}

static void bits(char *text, const uint8_t *bytes, size_t bit_len)
{
    for (size_t i = 0; i < bit_len; i++) {
        text[i] = bytes[i / 8] << i % 8 & 0x80 ? '1' : '0';
    }
    text[bit_len] = 0;
}

static void address(char *text, const struct pgc_inet *inet)
{
    inet_ntop(inet->family == PGC_IPV4 ? AF_INET : AF_INET6, inet->octets, text, INET6_ADDRSTRLEN);
    sprintf(text + strlen(text), "/%d", inet->netmask);
}

/* The number of days or microseconds, or the infinity. */
static void number_or(char *text, long long number, int32_t infinity)
{
    if (infinity) {
        strcpy(text, infinity > 0 ? "infinity" : "-infinity");
    } else {
        sprintf(text, "%lld", number);
    }
}

SHOWS(bool, bool, strcpy(text, v ? "true" : "false"))
SHOWS(char, int8_t, sprintf(text, "%d", v))
SHOWS(int2, int16_t, sprintf(text, "%d", v))
SHOWS(int4, int32_t, sprintf(text, "%ld", (long)v))
SHOWS(int8, int64_t, sprintf(text, "%lld", (long long)v))
SHOWS(oid, uint32_t, sprintf(text, "%lu", (unsigned long)v))
SHOWS(lsn, uint64_t, sprintf(text, "%llu", (unsigned long long)v))
SHOWS(text, struct pgc_span, copy(text, cell + v.offset, v.len))
SHOWS(ltree, struct pgc_span, copy(text, cell + v.offset, v.len))
SHOWS(bytea, struct pgc_span, digits(text, cell + v.offset, v.len))
SHOWS(varbit, struct pgc_bits, bits(text, cell + v.bytes.offset, v.bit_len))
SHOWS(uuid, struct pgc_uuid, digits(text, v.bytes, sizeof v.bytes))
SHOWS(macaddr, struct pgc_macaddr, digits(text, v.bytes, sizeof v.bytes))
SHOWS(inet, struct pgc_inet, address(text, &v))
SHOWS(cidr, struct pgc_inet, address(text, &v))
SHOWS(date, struct pgc_date, number_or(text, v.days, v.infinity))
SHOWS(time, int64_t, sprintf(text, "%lld", (long long)v))
SHOWS(timestamp, struct pgc_timestamp, number_or(text, v.microseconds, v.infinity))
SHOWS(interval, struct pgc_interval,
    sprintf(text, "%lld %ld %ld", (long long)v.microseconds, (long)v.days, (long)v.months))

/* The number of elements. */
void show_array(const uint8_t *cell, size_t len, char *text)
{
    struct pgc_array array;
    struct pgc_element element;
    size_t count = 0;
    if (!pgc_array_begin(cell, len, &array)) {
        while (!pgc_array_next(cell, len, &array.walk, &element)) {
            count++;
        }
        sprintf(text, "%zu", count);
    }
}

/* The keys. */
void show_hstore(const uint8_t *cell, size_t len, char *text)
{
    struct pgc_walk walk;
    struct pgc_entry entry;
    if (!pgc_hstore_begin(cell, len, &walk)) {
        *text = 0;
        while (!pgc_hstore_next(cell, len, &walk, &entry)) {
            copy(text, cell + entry.key.offset, entry.key.len);
            text = strcat(text, ",") + entry.key.len + 1;
        }
    }
}

/* The types of the fields. */
void show_record(const uint8_t *cell, size_t len, char *text)
{
    struct pgc_walk walk;
    struct pgc_field field;
    if (!pgc_record_begin(cell, len, &walk)) {
        *text = 0;
        while (!pgc_record_next(cell, len, &walk, &field)) {
            text += sprintf(text, "%lu,", (unsigned long)field.oid);
        }
    }
}
