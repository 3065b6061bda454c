/* Rows of lists of items, and of the cells that C builds of them in buffers of all sizes. */
#include <stdio.h>
#include <stdlib.h>
#include <string.h>

#include "support.h"

enum { MOST = 128 };

/* How an item is pushed. */
enum how { CELL, WRITTEN, NONE, FIELD, WRITTEN_FIELD, NULL_FIELD, ENTRY, NULL_ENTRY };

/* An item: its cell or key and its value in hexadecimal, and what stands in the buffer for it. */
struct item {
    enum how how;
    uint32_t oid;
    const char *cell, *value, *bytes;
};

/* What has items: its head is of `width` bytes, and `cell` is what is built of all of them. */
struct list {
    const char *name;
    void (*open)(struct pgc_builder *);
    size_t (*close)(const struct pgc_builder *, void *, size_t);
    size_t width;
    const char *cell;
    struct item items[4];
    size_t count;
};

static size_t close_int4_array(const struct pgc_builder *builder, void *out, size_t room)
{
    return pgc_array_close(builder, PGC_INT4_OID, out, room);
}

static const struct list lists[] = {
    {"no array", pgc_array_open, close_int4_array, 20, "00000001 00000000 00000017 00000000 00000001", {{0}}, 0},
    {"an array", pgc_array_open, close_int4_array, 20,
     "00000001 00000001 00000017 00000003 00000001 00000004 00000007 ffffffff 00000004 fffffffe",
     {{CELL, 0, "00000007", 0, "00000004 00000007"},
      {NONE, 0, 0, 0, "ffffffff"},
      {WRITTEN, 0, "fffffffe", 0, "00000004 fffffffe"}}, 3},
    {"an array without NULL", pgc_array_open, close_int4_array, 20,
     "00000001 00000000 00000017 00000002 00000001 00000000 00000001 61",
     {{WRITTEN, 0, "", 0, "00000000"}, {CELL, 0, "61", 0, "00000001 61"}}, 2},
    {"no parameters", pgc_params_open, pgc_params_close, 2, "0000", {{0}}, 0},
    {"parameters", pgc_params_open, pgc_params_close, 2, "0003 00000002 6162 ffffffff 00000000",
     {{CELL, 0, "6162", 0, "00000002 6162"}, {NONE, 0, 0, 0, "ffffffff"}, {CELL, 0, "", 0, "00000000"}}, 3},
    {"no record", pgc_record_open, pgc_record_close, 4, "00000000", {{0}}, 0},
    {"a record", pgc_record_open, pgc_record_close, 4,
     "00000003 00000019 00000003 6e7574 ffffffff 00000004 00000007 00000014 ffffffff",
     {{FIELD, 25, "6e7574", 0, "00000019 00000003 6e7574"},
      {WRITTEN_FIELD, UINT32_MAX, "00000007", 0, "ffffffff 00000004 00000007"},
      {NULL_FIELD, 20, 0, 0, "00000014 ffffffff"}}, 3},
    {"no hstore", pgc_hstore_open, pgc_hstore_close, 4, "00000000", {{0}}, 0},
    {"an hstore", pgc_hstore_open, pgc_hstore_close, 4,
     "00000003 00000002 c3a9 00000003 616263 00000001 62 ffffffff 00000000 00000000",
     {{ENTRY, 0, "c3a9", "616263", "00000002 c3a9 00000003 616263"},
      {NULL_ENTRY, 0, "62", 0, "00000001 62 ffffffff"},
      {ENTRY, 0, "", "", "00000000 00000000"}}, 3},
};

/* Pushes an item. Its cell lies where no byte after it may be read. */
static size_t push(const struct item *item, struct pgc_builder *builder, uint8_t *out, size_t room)
{
    uint8_t bytes[MOST];
    size_t len = item->cell ? bytes_of(item->cell, bytes) : 0;
    uint8_t *cell = memcpy(malloc(len + !len), bytes, len);
    size_t value_len = item->value ? bytes_of(item->value, bytes) : 0;
    uint8_t *value = memcpy(malloc(value_len + !value_len), bytes, value_len);
    size_t place = builder->len + (item->how == WRITTEN ? 4 : 8), pushed = 0;
    if ((item->how == WRITTEN || item->how == WRITTEN_FIELD) && place + len <= room) {
        memcpy(out + place, cell, len);
    }
    switch (item->how) {
    case CELL: pushed = pgc_push(builder, cell, len, out, room); break;
    case WRITTEN: pushed = pgc_push_written(builder, len, out, room); break;
    case NONE: pushed = pgc_push_null(builder, out, room); break;
    case FIELD: pushed = pgc_push_field(builder, item->oid, cell, len, out, room); break;
    case WRITTEN_FIELD: pushed = pgc_push_written_field(builder, item->oid, len, out, room); break;
    case NULL_FIELD: pushed = pgc_push_null_field(builder, item->oid, out, room); break;
    case ENTRY: pushed = pgc_push_entry(builder, cell, len, value, value_len, out, room); break;
    case NULL_ENTRY: pushed = pgc_push_null_entry(builder, cell, len, out, room); break;
    }
    free(cell);
    free(value);
    return pushed;
}

static bool is_null(const struct item *item)
{
    return item->how == NONE || item->how == NULL_FIELD || item->how == NULL_ENTRY;
}

static bool is_same(struct pgc_builder a, struct pgc_builder b)
{
    return a.len == b.len && a.count == b.count && a.has_null == b.has_null;
}

/* Builds a list in a buffer of that size; what does not fit is left out. */
static void try_list(const struct list *list, size_t room)
{
    uint8_t expected[MOST], cell[MOST];
    struct pgc_builder builder;
    memset(expected, 0x5a, sizeof expected);
    memset(&builder, 0x5a, sizeof builder);
    uint8_t *out = buffer(room);
    list->open(&builder);
    bool is_opened = builder.len == list->width && !builder.count && !builder.has_null;
    expect(is_opened, list->name, "an opened builder", room, "another");
    size_t len = list->width, count = 0;
    uint32_t has_null = 0;
    for (size_t i = 0; i < list->count; i++) {
        const struct item *item = &list->items[i];
        uint8_t bytes[MOST];
        size_t item_len = bytes_of(item->bytes, bytes);
        expect(push(item, &builder, out, room) == item_len, list->name, item->bytes, room, "another length");
        if (len + item_len <= room) {
            memcpy(expected + len, bytes, item_len);
            len += item_len;
            count++;
            has_null |= is_null(item);
        }
        bool goes_on = builder.len == len && builder.count == count && builder.has_null == has_null;
        expect(goes_on, list->name, item->bytes, room, "another builder");
        expect_written(list->name, expected, room, out, room);
    }
    struct pgc_builder before = builder;
    expect(list->close(&builder, out, room) == len, list->name, "its length", room, "another");
    expect(is_same(builder, before), list->name, "a closed builder", room, "another");
    if (count == list->count && len <= room) {
        expect(bytes_of(list->cell, cell) == len, list->name, list->cell, room, "a row of another length");
        memcpy(expected, cell, len);
        expect_written(list->name, expected, room, out, room);
    }
}

/* A builder that tells of any number of items, NULL or not. */
static struct pgc_builder told(size_t len, size_t count, uint32_t has_null)
{
    return (struct pgc_builder){.len = len, .count = count, .has_null = has_null};
}

/* What is closed of a builder: the head, or nothing where `digits` is NULL. */
static void try_close(const char *name, size_t (*close)(const struct pgc_builder *, void *, size_t),
                      struct pgc_builder builder, size_t answer, const char *digits)
{
    uint8_t expected[MOST];
    memset(expected, 0x5a, sizeof expected);
    uint8_t *out = buffer(32);
    if (digits) {
        bytes_of(digits, expected);
    }
    expect(close(&builder, out, 32) == answer, name, digits ? digits : "no head", builder.count, "another answer");
    expect_written(name, expected, 32, out, 32);
}

static void try_counts(void)
{
    static const char most[] = "00000001 00000001 00000017 7fffffff 00000001";
    try_close("an array", close_int4_array, told(20, INT32_MAX, 7), 20, most);
    try_close("an array", close_int4_array, told(20, (size_t)INT32_MAX + 1, 0), PGC_NO_CELL, NULL);
    try_close("an array", close_int4_array, told(19, 0, 0), PGC_NO_CELL, NULL);
    try_close("an array", close_int4_array, told(33, 1, 0), 33, NULL);
    try_close("an array", close_int4_array, told(SIZE_MAX - 1, 1, 0), SIZE_MAX - 1, NULL);
    try_close("parameters", pgc_params_close, told(2, 65535, 0), 2, "ffff");
    try_close("parameters", pgc_params_close, told(2, 65536, 0), PGC_NO_CELL, NULL);
    try_close("parameters", pgc_params_close, told(1, 0, 0), PGC_NO_CELL, NULL);
    try_close("a record", pgc_record_close, told(32, 258, 0), 32, "00000102");
    try_close("a record", pgc_record_close, told(4, (size_t)INT32_MAX + 1, 0), PGC_NO_CELL, NULL);
    try_close("a record", pgc_record_close, told(3, 0, 0), PGC_NO_CELL, NULL);
    try_close("an hstore", pgc_hstore_close, told(4, INT32_MAX, 1), 4, "7fffffff");
    try_close("an hstore", pgc_hstore_close, told(4, SIZE_MAX, 1), PGC_NO_CELL, NULL);
    try_close("an hstore", pgc_hstore_close, told(0, 0, 0), PGC_NO_CELL, NULL);
}

/* A push that changes neither the buffer nor the builder. */
#define LEAVES(builder_is, answer, call)                                        \
    do {                                                                        \
        struct pgc_builder before = builder_is, builder = before;               \
        uint8_t *out = buffer(24);                                              \
        expect((call) == (answer), #call, "an answer", 24, "another");          \
        expect(is_same(builder, before), #call, "a builder", 24, "another");    \
        expect_written(#call, NULL, SIZE_MAX, out, 24);                         \
    } while (0)

static void try_refusals(void)
{
    const size_t past = (size_t)INT32_MAX + 1;
    LEAVES(told(4, INT32_MAX, 0), PGC_NO_CELL, pgc_push(&builder, "a", 1, out, 24));
    LEAVES(told(4, INT32_MAX, 0), PGC_NO_CELL, pgc_push_null(&builder, out, 24));
    LEAVES(told(4, INT32_MAX, 0), PGC_NO_CELL, pgc_push_written(&builder, 1, out, 24));
    LEAVES(told(4, SIZE_MAX, 0), PGC_NO_CELL, pgc_push_field(&builder, 25, "a", 1, out, 24));
    LEAVES(told(4, SIZE_MAX, 0), PGC_NO_CELL, pgc_push_entry(&builder, "a", 1, "a", 1, out, 24));
    LEAVES(told(4, 0, 0), PGC_NO_CELL, pgc_push_written(&builder, past, out, 24));
    LEAVES(told(4, 0, 0), PGC_NO_CELL, pgc_push_written(&builder, SIZE_MAX, out, 24));
    LEAVES(told(4, 0, 0), PGC_NO_CELL, pgc_push_written_field(&builder, 25, past, out, 24));
    LEAVES(told(4, 0, 0), past + 3, pgc_push_written(&builder, INT32_MAX, out, 24));
    LEAVES(told(4, 0, 0), PGC_NO_CELL, pgc_push_entry(&builder, "\xff", 1, "a", 1, out, 24));
    LEAVES(told(4, 0, 0), PGC_NO_CELL, pgc_push_entry(&builder, "a", 1, "\xc3", 1, out, 24));
    LEAVES(told(4, 0, 0), PGC_NO_CELL, pgc_push_null_entry(&builder, "\x80", 1, out, 24));
    LEAVES(told(25, 0, 0), 5, pgc_push(&builder, "a", 1, out, 24));
    LEAVES(told(SIZE_MAX, 0, 0), 5, pgc_push(&builder, "a", 1, out, 24));
    LEAVES(told(SIZE_MAX - 3, 0, 0), 4, pgc_push_null(&builder, out, 24));
    LEAVES(told(20, 0, 0), 5, pgc_push_written(&builder, 1, out, 24));
}

/* An array of two records, of which each is built where it stands, after one that is taken back. */
static void try_nested(void)
{
    static const char digits[] =
        "00000001 00000000 000008c9 00000002 00000001"
        "00000010 00000001 00000017 00000004 00000005 00000010 00000001 00000017 00000004 00000006";
    uint8_t cell[MOST];
    size_t len = bytes_of(digits, cell);
    uint8_t *out = buffer(len);
    struct pgc_builder array, record, before;
    pgc_array_open(&array);
    for (int32_t i = 4; i <= 6; i++) {
        uint8_t *place = out + array.len + 4;
        size_t room = len - array.len - 4;
        pgc_record_open(&record);
        size_t field_len = pgc_int4_write(i, place + record.len + 8, room - record.len - 8);
        pgc_push_written_field(&record, PGC_INT4_OID, field_len, place, room);
        before = array;
        pgc_push_written(&array, pgc_record_close(&record, place, room), out, len);
        array = i == 4 ? before : array;
    }
    expect(pgc_array_close(&array, 2249, out, len) == len, "the length", "an array of records", len, "another");
    expect_written("an array of records", cell, len, out, len);
}

void try_builders(void)
{
    for (size_t i = 0; i < sizeof lists / sizeof *lists; i++) {
        uint8_t cell[MOST];
        size_t len = bytes_of(lists[i].cell, cell);
        for (size_t room = 0; room <= len + 3; room++) {
            try_list(&lists[i], room);
        }
    }
    try_counts();
    try_refusals();
    try_nested();
}
