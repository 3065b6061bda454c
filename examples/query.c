/*
 * Binds an int4 and an int4[] as parameters, and prints the int4 and the int4[] of each row of the result, with libpq,
 * whose environment variables name the server.
 */
#include <libpq-fe.h>
#include <stdio.h>
#include <stdlib.h>

#include "pg_cells.h"

static const char *const text = "SELECT n, $2::int4[] || n * n FROM generate_series(1, $1::int4) n";

static PGresult *ask(PGconn *connection, int32_t number)
{
    struct pgc_builder builder;
    uint8_t array[32];
    uint8_t cell[4];
    size_t len = pgc_int4_write(number, cell, sizeof cell);
    pgc_array_open(&builder);
    pgc_push(&builder, cell, len, array, sizeof array);
    pgc_push_null(&builder, array, sizeof array);
    size_t array_len = pgc_array_close(&builder, PGC_INT4_OID, array, sizeof array);
    const char *values[] = {(const char *)cell, (const char *)array};
    return PQexecParams(connection, text, 2, NULL, values, (int[]){(int)len, (int)array_len}, (int[]){1, 1}, 1);
}

static uint32_t read_number(const PGresult *result, int row, int column, int32_t *number)
{
    if (PQgetisnull(result, row, column)) {
        return PGC_WAS_NULL;
    }
    return pgc_int4_read(PQgetvalue(result, row, column), (size_t)PQgetlength(result, row, column), number);
}

static uint32_t print_array(const char *cell, size_t len)
{
    struct pgc_array array;
    struct pgc_element element;
    int32_t number;
    uint32_t fault = pgc_array_begin(cell, len, &array);
    while (!fault && !(fault = pgc_array_next(cell, len, &array.walk, &element))) {
        if (element.is_null) {
            printf(" NULL");
        } else if (!(fault = pgc_int4_read(cell + element.bytes.offset, element.bytes.len, &number))) {
            printf(" %d", (int)number);
        }
    }
    return fault == PGC_END ? PGC_OK : fault;
}

/* Ends the program if there is a fault. */
static void expect_none(uint32_t fault)
{
    char said[64];
    if (fault) {
        pgc_fault_text(fault, said, sizeof said);
        fprintf(stderr, "query: %s\n", said);
        exit(1);
    }
}

int main(void)
{
    PGconn *connection = PQconnectdb("");
    PGresult *result = ask(connection, 3);
    int32_t number;
    if (PQresultStatus(result) != PGRES_TUPLES_OK) {
        fprintf(stderr, "query: %s", PQerrorMessage(connection));
        return 1;
    }
    if (PQftype(result, 0) != PGC_INT4_OID || PQftype(result, 1) != PGC_INT4_ARRAY_OID) {
        fprintf(stderr, "query: other types\n");
        return 1;
    }
    for (int row = 0; row < PQntuples(result); row++) {
        expect_none(read_number(result, row, 0, &number));
        printf("%d:", (int)number);
        expect_none(print_array(PQgetvalue(result, row, 1), (size_t)PQgetlength(result, row, 1)));
        printf("\n");
    }
    PQclear(result);
    PQfinish(connection);
    return 0;
}
