/* Rows of cells that have elements, and of the elements that C walks over. */
#include <stdio.h>
#include <string.h>

#include "support.h"

static int show_element(char *text, const struct pgc_element *element)
{
    if (element->is_null) {
        return sprintf(text, " N");
    }
    return sprintf(text, " %zu+%zu", element->bytes.offset, element->bytes.len);
}

/*
 * Walks over an array, and tells the OID and its elements in turn: `N` of NULL, else their place and length; then a
 * fault.
 */
static void walk_array(const uint8_t *cell, size_t len, char *text)
{
    struct pgc_array array, before;
    struct pgc_element element;
    memset(&array, 0x5a, sizeof array);
    memcpy(&before, &array, sizeof array);
    uint32_t fault = pgc_array_begin(cell, len, &array);
    if (fault) {
        sprintf(text, "head fault %u%s", (unsigned)fault, memcmp(&array, &before, sizeof array) ? ", stored" : "");
        return;
    }
    text += sprintf(text, "%lu %zu:", (unsigned long)array.element_oid, array.walk.left);
    while (!(fault = pgc_array_next(cell, len, &array.walk, &element))) {
        text += show_element(text, &element);
    }
    if (fault != PGC_END) {
        sprintf(text, " fault %u", (unsigned)fault);
    }
    for (int i = 0; i < 2; i++) {
        if (pgc_array_next(cell, len, &array.walk, &element) != PGC_END) {
            strcpy(text, " goes on after its end");
        }
    }
}

/* What a walk over a cell tells; over each truncated length of it a fault of the head, or of an element. */
static const struct walk_row {
    const char *cell;
    const char *text;
} array_rows[] = {
    {"00000000 00000000 00000017", "23 0:"},
    {"00000001 00000000 00000017 00000000 00000001", "23 0:"},
    {"00000001 00000000 00000017 00000002 00000001 00000004 00000001 00000004 00000002", "23 2: 24+4 32+4"},
    {"00000001 00000001 00000017 00000003 00000001 ffffffff 00000004 00000007 ffffffff", "23 3: N 28+4 N"},
    {"00000001 00000000 00000019 00000003 00000005 00000000 00000003 616263 00000001 64", "25 3: 24+0 28+3 35+1"},
    {"00000001 00000001 00000017 00000001 00000001 80000000", "23 1: N"},
    {"00000000 00000000 ffffffff", "4294967295 0:"},
    {"00000001 01020304 05060708 00000000 090a0b0c", "84281096 0:"},
    {"00000002 00000000 00000017 00000001 00000001 00000001 00000001", "head fault 8"},
    {"ffffffff 00000000 00000017", "head fault 6"},
    {"00000001 00000000 00000017 ffffffff 00000001", "head fault 6"},
    {"00000001 00000000 00000017 00000001 00000001 00000004 00000001 00", "23 1: 24+4 fault 4"},
    {"00000000 00000000 00000017 00", "23 0: fault 4"},
    {"00000001 00000000 00000017 7fffffff 00000001", "23 2147483647: fault 4"},
    {"00000001 00000000 00000017 00000001 00000001 7fffffff 00", "23 1: fault 4"},
};

static void try_elements(const struct walk_row *row, void (*walk)(const uint8_t *, size_t, char *))
{
    uint8_t cell[64];
    size_t len = bytes_of(row->cell, cell);
    for (size_t n = 0; n <= len; n++) {
        char text[TEXT];
        walk(at_end(cell, n), n, text);
        // (where bytes trail, the cell without them is whole)
        bool is_right = n < len ? strstr(text, "fault") || strstr(row->text, "fault") : !strcmp(text, row->text);
        expect(is_right, "the elements", row->cell, n, text);
    }
}

static void try_arrays(void)
{
    for (size_t i = 0; i < sizeof array_rows / sizeof *array_rows; i++) {
        try_elements(&array_rows[i], walk_array);
    }
}

/* A place that is beyond the cell is its end. */
static void try_other_places(void)
{
    uint8_t cell[32];
    size_t len = bytes_of("00000001 00000000 00000017 00000001 00000001 00000004 00000001", cell);
    static const size_t offsets[] = {25, 27, 28, 29, 1000, SIZE_MAX};
    for (size_t i = 0; i < sizeof offsets / sizeof *offsets; i++) {
        struct pgc_walk walk = {1, offsets[i]};
        struct pgc_element element;
        const uint8_t *bytes = at_end(cell, len);
        expect(pgc_array_next(bytes, len, &walk, &element) == PGC_SIZE, "a place", "an array", offsets[i], "taken");
        expect(pgc_array_next(bytes, len, &walk, &element) == PGC_END, "a place", "an array", offsets[i], "left");
    }
}

/* Walks over an hstore, and tells its entries in turn, as walk_array tells elements. */
static void walk_hstore(const uint8_t *cell, size_t len, char *text)
{
    struct pgc_walk walk;
    struct pgc_entry entry;
    memset(&walk, 0x5a, sizeof walk);
    uint32_t fault = pgc_hstore_begin(cell, len, &walk);
    if (fault) {
        sprintf(text, "head fault %u", (unsigned)fault);
        return;
    }
    text += sprintf(text, "%zu:", walk.left);
    while (!(fault = pgc_hstore_next(cell, len, &walk, &entry))) {
        text += sprintf(text, " %zu+%zu =>", entry.key.offset, entry.key.len);
        text += show_element(text, &entry.value);
    }
    if (fault != PGC_END) {
        sprintf(text, " fault %u", (unsigned)fault);
    }
    if (pgc_hstore_next(cell, len, &walk, &entry) != PGC_END) {
        strcpy(text, " goes on after its end");
    }
}

static const struct walk_row hstore_rows[] = {
    {"00000000", "0:"},
    {"00000001 00000001 61 00000001 62", "1: 8+1 => 13+1"},
    {"00000002 00000001 61 ffffffff 00000000 00000002 c3a9", "2: 8+1 => N 17+0 => 21+2"},
    {"ffffffff", "head fault 6"},
    {"00000001 ffffffff 00000001 62", "1: fault 7"},
    {"00000001 00000001 ff 00000001 62", "1: fault 5"},
    {"00000001 00000001 61 00000001 ff", "1: fault 5"},
    {"00000001 00000001 61 00000001 62 00", "1: 8+1 => 13+1 fault 4"},
    {"00000000 00", "0: fault 4"},
    {"7fffffff", "2147483647: fault 4"},
};

static void try_hstores(void)
{
    for (size_t i = 0; i < sizeof hstore_rows / sizeof *hstore_rows; i++) {
        try_elements(&hstore_rows[i], walk_hstore);
    }
}

/* Walks over a record, and tells its fields in turn, as walk_array tells elements. */
static void walk_record(const uint8_t *cell, size_t len, char *text)
{
    struct pgc_walk walk;
    struct pgc_field field;
    memset(&walk, 0x5a, sizeof walk);
    uint32_t fault = pgc_record_begin(cell, len, &walk);
    if (fault) {
        sprintf(text, "head fault %u", (unsigned)fault);
        return;
    }
    text += sprintf(text, "%zu:", walk.left);
    while (!(fault = pgc_record_next(cell, len, &walk, &field))) {
        text += sprintf(text, " %u", (unsigned)field.oid);
        text += show_element(text, &field.value);
    }
    if (fault != PGC_END) {
        sprintf(text, " fault %u", (unsigned)fault);
    }
    if (pgc_record_next(cell, len, &walk, &field) != PGC_END) {
        strcpy(text, " goes on after its end");
    }
}

/* Walks over the body of a row. */
static void walk_row(const uint8_t *body, size_t len, char *text)
{
    struct pgc_walk walk;
    struct pgc_element column;
    uint32_t fault = pgc_row_begin(body, len, &walk);
    if (fault) {
        sprintf(text, "head fault %u", (unsigned)fault);
        return;
    }
    text += sprintf(text, "%zu:", walk.left);
    while (!(fault = pgc_array_next(body, len, &walk, &column))) {
        text += show_element(text, &column);
    }
    if (fault != PGC_END) {
        sprintf(text, " fault %u", (unsigned)fault);
    }
}

static const struct walk_row record_rows[] = {
    {"00000000", "0:"},
    {"00000003 00000019 00000003 6e7574 00000017 00000004 00000007 00000014 ffffffff", "3: 25 12+3 23 23+4 20 N"},
    {"00000001 ffffffff 00000000", "1: 4294967295 12+0"},
    {"ffffffff", "head fault 6"},
    {"00000001 00000017 00000004 00000007 00", "1: 23 12+4 fault 4"},
    {"00000000 00", "0: fault 4"},
    {"7fffffff 00000017 7fffffff", "2147483647: fault 4"},
};

static const struct walk_row row_rows[] = {
    {"0000", "0:"},
    {"0002 00000004 00000007 ffffffff", "2: 6+4 N"},
    {"0001 00000000", "1: 6+0"},
    {"ffff", "head fault 6"},
    {"0001 00000001 61 00", "1: 6+1 fault 4"},
    {"7fff", "32767: fault 4"},
};

static void try_records_and_rows(void)
{
    for (size_t i = 0; i < sizeof record_rows / sizeof *record_rows; i++) {
        try_elements(&record_rows[i], walk_record);
    }
    for (size_t i = 0; i < sizeof row_rows / sizeof *row_rows; i++) {
        try_elements(&row_rows[i], walk_row);
    }
}

void try_walks(void)
{
    try_arrays();
    try_hstores();
    try_records_and_rows();
    try_other_places();
}
