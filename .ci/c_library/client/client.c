/*
 * A client over libpq, by pg_cells.h: of each type it asks a server for values in the binary format, reads each cell,
 * compares that with what SQL says of the value, writes the value again, by the functions of its type and by
 * pgc_rewrite, and binds that as a parameter, of which the server says whether it is the same value.
 *
 * The environment says which server, as libpq has it. Nothing of what is made there stays.
 */
#include <libpq-fe.h>
#include <stdarg.h>
#include <stdio.h>
#include <stdlib.h>
#include <string.h>

#include "client.h"

/* The most bytes of a query; and of a rewritten cell, beside twice those of the cell. */
enum { QUERY = 2048, ROOM = 32 };

static const char *const makes[] = {
    "BEGIN",
    "CREATE EXTENSION IF NOT EXISTS hstore",
    "CREATE EXTENSION IF NOT EXISTS citext",
    "CREATE EXTENSION IF NOT EXISTS ltree",
    "CREATE TYPE item AS (name text, supplier_id int4, price int8, parts int4[], since date)",
};

/* Parameters in the binary format. */
struct parameters {
    int count;
    const char *cells[2]; /* NULL of a NULL */
    int lengths[2];
};

static PGconn *connection;
static unsigned answers, wrong;

static void expect(bool holds, const char *what, const char *type, int row)
{
    answers++;
    if (!holds) {
        wrong++;
        printf("client: %s of %s, row %d\n", what, type, row);
    }
}

/* Runs a query whose result is in the binary format, and ends the program where the server refuses it. */
static PGresult *run(const char *query, const struct parameters *given)
{
    static const int binary[] = {1, 1};
    PGresult *result =
        PQexecParams(connection, query, given->count, NULL, given->cells, given->lengths, binary, 1);
    ExecStatusType status = PQresultStatus(result);
    if (status != PGRES_COMMAND_OK && status != PGRES_TUPLES_OK) {
        fprintf(stderr, "client: %s: %s", query, PQerrorMessage(connection));
        exit(1);
    }
    return result;
}

static PGresult *ask(const char *query)
{
    return run(query, &(struct parameters){0});
}

/* Makes a text of a query, or any other. */
static void format(char *text, const char *pattern, ...)
{
    va_list words;
    va_start(words, pattern);
    int len = vsnprintf(text, QUERY, pattern, words);
    va_end(words);
    if (len >= QUERY) {
        fprintf(stderr, "client: a query of %d bytes\n", len);
        exit(1);
    }
}

static const uint8_t *cell_of(const PGresult *result, int row, int column)
{
    return (const uint8_t *)PQgetvalue(result, row, column);
}

static size_t length_of(const PGresult *result, int row, int column)
{
    return (size_t)PQgetlength(result, row, column);
}

/* Returns whether the server takes a cell, or NULL, for the value of that row. */
static bool is_same(const struct type *type, int row, const uint8_t *cell, size_t len)
{
    uint8_t place[8];
    pgc_int8_write(row, place, sizeof place);
    struct parameters given = {2, {(const char *)cell, (const char *)place}, {(int)len, sizeof place}};
    char query[QUERY], equal[QUERY] = "";
    if (!(type->flags & BY_TEXT)) {
        format(equal, "$1::%s IS NOT DISTINCT FROM v AND", type->name);
    }
    format(query, "SELECT %s $1::%s::text IS NOT DISTINCT FROM v::text"
           " FROM (SELECT x::%s AS v FROM (VALUES %s) t (x) OFFSET $2 LIMIT 1) u",
           equal, type->name, type->name, type->values);
    PGresult *result = run(query, &given);
    bool same = false;
    bool is_read = PQntuples(result) == 1 && !pgc_bool_read(cell_of(result, 0, 0), length_of(result, 0, 0), &same);
    PQclear(result);
    return is_read && same;
}

/* Rewrites a cell, by the functions of its type or by pgc_rewrite. */
static size_t rewrite(const struct type *type, bool by_oid, const uint8_t *cell, size_t len, uint8_t *out, size_t room)
{
    size_t written = 0;
    if (!by_oid) {
        return type->rewrite(cell, len, out, room);
    }
    return pgc_rewrite(type->oid, cell, len, out, room, &written) ? PGC_NO_CELL : written;
}

static uint8_t *allocate(size_t len)
{
    uint8_t *bytes = malloc(len ? len : 1);
    if (!bytes) {
        abort();
    }
    return bytes;
}

/*
 * Tries a cell: it is rewritten, and bound. What is written is to be the cell or, where it cannot be, what the functions
 * of its type write where there is more room.
 */
static void try_cell(const struct type *type, bool by_oid, int row, const uint8_t *cell, size_t len)
{
    size_t room = ROOM + 2 * len;
    uint8_t *expected = allocate(room);
    size_t written = rewrite(type, !type->rewrite, cell, len, expected, room);
    expect(written <= room, "the length", type->name, row);
    if (written <= room) {
        uint8_t *out = allocate(written);
        expect(rewrite(type, by_oid, cell, len, out, written) == written, "the answer", type->name, row);
        if (!(type->flags & OTHER_BYTES)) {
            expect(written == len, "the length", type->name, row);
            memcpy(expected, cell, len);
        }
        expect(!memcmp(out, expected, written), "the cell", type->name, row);
        expect(type->flags & UNBOUND || is_same(type, row, out, written), "the parameter", type->name, row);
        free(out);
    }
    free(expected);
}

/* Compares what is read of a cell with what the server says of the value. */
static void try_shown(const struct type *type, int row, const PGresult *result)
{
    size_t len = length_of(result, row, 0);
    char *text = malloc(SHOWN + 8 * len);
    if (!text) {
        abort();
    }
    strcpy(text, "refused");
    type->show(cell_of(result, row, 0), len, text);
    bool has_length = strlen(text) == length_of(result, row, 1);
    expect(has_length && !memcmp(text, cell_of(result, row, 1), strlen(text)), text, type->name, row);
    free(text);
}

/* Tries a value that is not NULL. */
static void try_value(const struct type *type, int row, const PGresult *result)
{
    const uint8_t *cell = cell_of(result, row, 0);
    size_t len = length_of(result, row, 0), written;
    if (type->rewrite) {
        try_cell(type, false, row, cell, len);
    }
    if (type->flags & BUILT_IN) {
        try_cell(type, true, row, cell, len);
    } else {
        uint8_t out;
        bool is_refused = pgc_rewrite(type->oid, cell, len, &out, 0, &written) == PGC_WRONG_TYPE;
        expect(is_refused, "the refusal", type->name, row);
    }
    if (type->shown) {
        try_shown(type, row, result);
    }
}

/* Tries all values of a type. */
static void try_type(const struct type *type)
{
    char query[QUERY];
    format(query, "SELECT v, %s FROM (SELECT x::%s AS v FROM (VALUES %s) t (x)) u",
           type->shown ? type->shown : "NULL", type->name, type->values);
    PGresult *result = ask(query);
    expect(PQntuples(result) > 0 && PQftype(result, 0) == type->oid, "the OID", type->name, 0);
    for (int row = 0; row < PQntuples(result); row++) {
        if (!PQgetisnull(result, row, 0)) {
            try_value(type, row, result);
        } else if (!(type->flags & UNBOUND)) {
            expect(is_same(type, row, NULL, 0), "NULL", type->name, row);
        }
    }
    PQclear(result);
}

/* Tries arrays: of all values of a type, of NULL alone, and of none, of which the server sends no dimension. */
static void try_arrays(const struct type *element)
{
    char name[QUERY], values[QUERY];
    format(name, "%s[]", element->name);
    format(values, "((SELECT array_agg(x::%s) FROM (VALUES %s) t (x))), ('{NULL}')", element->name, element->values);
    struct type array = *element;
    array.name = name;
    array.oid = element->array_oid;
    array.rewrite = rewrite_array;
    array.show = show_array;
    array.shown = COUNT_OF_ARRAY;
    array.values = values;
    try_type(&array);
    array.values = "('{}')";
    array.flags |= OTHER_BYTES;
    try_type(&array);
}

/* Returns the OID of the type with a name. */
static uint32_t oid_of(const char *name)
{
    char query[QUERY];
    uint32_t oid = 0;
    format(query, "SELECT '%s'::regtype::oid", name);
    PGresult *result = ask(query);
    expect(!pgc_oid_read(cell_of(result, 0, 0), length_of(result, 0, 0), &oid), "the OID", name, 0);
    PQclear(result);
    return oid;
}

/* Asks for the OIDs that pg_cells.h does not have. */
static void ask_oids(struct type *type)
{
    char name[QUERY];
    format(name, "%s[]", type->name);
    if (type->oid) {
        type->flags |= BUILT_IN;
    } else {
        type->oid = oid_of(type->name);
    }
    if (!type->array_oid && !(type->flags & NO_ARRAYS)) {
        type->array_oid = oid_of(name);
    }
}

int main(void)
{
    connection = PQconnectdb("");
    if (PQstatus(connection) != CONNECTION_OK) {
        fprintf(stderr, "client: %s", PQerrorMessage(connection));
        return 1;
    }
    for (size_t i = 0; i < sizeof makes / sizeof *makes; i++) {
        PQclear(ask(makes[i]));
    }
    for (size_t i = 0; i < type_count; i++) {
        ask_oids(&types[i]);
    }
    for (size_t i = 0; i < type_count; i++) {
        try_type(&types[i]);
        if (!(types[i].flags & NO_ARRAYS)) {
            try_arrays(&types[i]);
        }
    }
    PQfinish(connection);
    printf("client: %u answers of a server, %u of them wrong\n", answers, wrong);
    return wrong != 0;
}
