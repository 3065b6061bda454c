/* A client over libpq that does what crates/client_rows does: it selects the rows of the table source, whose columns it
   converts from the binary format by hand, and inserts them into the table target. */
#include <endian.h>
#include <libpq-fe.h>
#include <stdbool.h>
#include <stdint.h>
#include <stdio.h>
#include <stdlib.h>
#include <string.h>

enum { COLUMNS = 15, BATCH = 500 };

static const char *const INSERT =
    "INSERT INTO target VALUES ($1, $2, $3, $4, $5, $6, $7, $8, $9, $10, $11, $12, $13, $14, $15)";

/* Bytes of the result; their address is null for NULL. */
struct bytes {
    const char *at;
    int len;
};

struct address {
    uint8_t family, netmask, len, bytes[16];
};

struct row {
    int64_t id;
    int32_t count;
    int16_t rank;
    bool is_open;
    uint64_t share;
    struct bytes name, note, data;
    int64_t at, local;
    int32_t day;
    uint8_t key[16];
    struct address address;
    int32_t *sizes;
    int sizes_len;
    struct bytes *tags;
    int tags_len;
};

static void fail(const char *why)
{
    fprintf(stderr, "%s\n", why);
    exit(1);
}

static void *heap(size_t size)
{
    void *at = malloc(size ? size : 1);
    if (!at)
        fail("out of memory");
    return at;
}

static uint16_t u16(const char *at)
{
    uint16_t n;
    memcpy(&n, at, 2);
    return be16toh(n);
}

static uint32_t u32(const char *at)
{
    uint32_t n;
    memcpy(&n, at, 4);
    return be32toh(n);
}

static uint64_t u64(const char *at)
{
    uint64_t n;
    memcpy(&n, at, 8);
    return be64toh(n);
}

/* The cell of a column, whose length is tested if one is wanted. */
static const char *cell(const PGresult *result, int row, int column, int wanted, int *len)
{
    if (PQgetisnull(result, row, column))
        fail("NULL");
    *len = PQgetlength(result, row, column);
    if (wanted && *len != wanted)
        fail("another length");
    return PQgetvalue(result, row, column);
}

static struct address address_of(const char *at, int len)
{
    struct address it = {at[0], at[1], at[3], {0}};
    if (len != 4 + it.len || (it.len != 4 && it.len != 16))
        fail("no address");
    memcpy(it.bytes, at + 4, it.len);
    return it;
}

/* The number of elements of an array of one dimension whose element type has this OID. */
static int elements_of(const char *at, int len, uint32_t oid)
{
    if (len < 12 || u32(at + 8) != oid)
        fail("no array");
    if (u32(at) == 0)
        return 0;
    if (u32(at) != 1 || len < 20)
        fail("another array");
    return u32(at + 12);
}

static void read_sizes(const char *at, int len, struct row *row)
{
    const char *end = at + len;
    row->sizes_len = elements_of(at, len, 23);
    row->sizes = heap(row->sizes_len * sizeof *row->sizes);
    at += 20;
    for (int place = 0; place < row->sizes_len; place++, at += 8) {
        if (end - at < 8 || u32(at) != 4)
            fail("another element");
        row->sizes[place] = u32(at + 4);
    }
}

static void read_tags(const char *at, int len, struct row *row)
{
    const char *end = at + len;
    row->tags_len = elements_of(at, len, 25);
    row->tags = heap(row->tags_len * sizeof *row->tags);
    at += 20;
    for (int place = 0; place < row->tags_len; place++) {
        int size = end - at < 4 ? -1 : (int32_t)u32(at);
        if (size < 0 || end - at - 4 < size)
            fail("another element");
        row->tags[place] = (struct bytes){at + 4, size};
        at += 4 + size;
    }
}

static void read_row(const PGresult *result, int place, struct row *row)
{
    int len;
    const char *at;
    row->id = u64(cell(result, place, 0, 8, &len));
    row->count = u32(cell(result, place, 1, 4, &len));
    row->rank = u16(cell(result, place, 2, 2, &len));
    row->is_open = *cell(result, place, 3, 1, &len);
    row->share = u64(cell(result, place, 4, 8, &len));
    row->name.at = cell(result, place, 5, 0, &row->name.len);
    row->note = (struct bytes){NULL, 0};
    if (!PQgetisnull(result, place, 6))
        row->note.at = cell(result, place, 6, 0, &row->note.len);
    row->data.at = cell(result, place, 7, 0, &row->data.len);
    row->at = u64(cell(result, place, 8, 8, &len));
    row->local = u64(cell(result, place, 9, 8, &len));
    row->day = u32(cell(result, place, 10, 4, &len));
    memcpy(row->key, cell(result, place, 11, 16, &len), 16);
    at = cell(result, place, 12, 0, &len);
    row->address = address_of(at, len);
    at = cell(result, place, 13, 0, &len);
    read_sizes(at, len, row);
    at = cell(result, place, 14, 0, &len);
    read_tags(at, len, row);
}

static void drop_row(struct row *row)
{
    free(row->sizes);
    free(row->tags);
}

static uint64_t sum_of(const struct row *row)
{
    uint64_t sum = row->id + row->count + row->rank + row->share + row->name.len + row->note.len + row->data.len;
    for (int place = 0; place < row->sizes_len; place++)
        sum += row->sizes[place];
    for (int place = 0; place < row->tags_len; place++)
        sum += row->tags[place].len;
    return sum;
}

/* A buffer for the cells of a row. */
struct buffer {
    char *at;
    size_t len, room;
};

static char *more(struct buffer *out, size_t size)
{
    if (out->room - out->len < size) {
        out->room = 2 * (out->len + size);
        out->at = realloc(out->at, out->room);
        if (!out->at)
            fail("out of memory");
    }
    out->len += size;
    return out->at + out->len - size;
}

static void put(struct buffer *out, const void *at, size_t size) { memcpy(more(out, size), at, size); }
static void put16(struct buffer *out, uint16_t n) { n = htobe16(n); put(out, &n, 2); }
static void put32(struct buffer *out, uint32_t n) { n = htobe32(n); put(out, &n, 4); }
static void put64(struct buffer *out, uint64_t n) { n = htobe64(n); put(out, &n, 8); }

static void put_head(struct buffer *out, uint32_t oid, int len)
{
    put32(out, len ? 1 : 0);
    put32(out, 0);
    put32(out, oid);
    if (len) {
        put32(out, len);
        put32(out, 1);
    }
}

static void put_address(struct buffer *out, const struct address *it)
{
    char head[4] = {it->family, it->netmask, 0, it->len};
    put(out, head, 4);
    put(out, it->bytes, it->len);
}

static void put_arrays(struct buffer *out, const struct row *row, size_t *ends)
{
    put_head(out, 23, row->sizes_len);
    for (int place = 0; place < row->sizes_len; place++) {
        put32(out, 4);
        put32(out, row->sizes[place]);
    }
    ends[13] = out->len;
    put_head(out, 25, row->tags_len);
    for (int place = 0; place < row->tags_len; place++) {
        put32(out, row->tags[place].len);
        put(out, row->tags[place].at, row->tags[place].len);
    }
    ends[14] = out->len;
}

static void put_row(struct buffer *out, const struct row *row, size_t *ends)
{
    char is_open = row->is_open;
    put64(out, row->id), ends[0] = out->len;
    put32(out, row->count), ends[1] = out->len;
    put16(out, row->rank), ends[2] = out->len;
    put(out, &is_open, 1), ends[3] = out->len;
    put64(out, row->share), ends[4] = out->len;
    put(out, row->name.at, row->name.len), ends[5] = out->len;
    if (row->note.at)
        put(out, row->note.at, row->note.len);
    ends[6] = out->len;
    put(out, row->data.at, row->data.len), ends[7] = out->len;
    put64(out, row->at), ends[8] = out->len;
    put64(out, row->local), ends[9] = out->len;
    put32(out, row->day), ends[10] = out->len;
    put(out, row->key, 16), ends[11] = out->len;
    put_address(out, &row->address), ends[12] = out->len;
    put_arrays(out, row, ends);
}

static void bind_row(PGconn *conn, struct buffer *out, const struct row *row)
{
    static const int formats[COLUMNS] = {1, 1, 1, 1, 1, 1, 1, 1, 1, 1, 1, 1, 1, 1, 1};
    const char *values[COLUMNS];
    int lengths[COLUMNS];
    size_t ends[COLUMNS], start = 0;
    out->len = 0;
    put_row(out, row, ends);
    for (int place = 0; place < COLUMNS; start = ends[place++]) {
        values[place] = out->at + start;
        lengths[place] = ends[place] - start;
    }
    if (!row->note.at)
        values[6] = NULL;
    if (!PQsendQueryPrepared(conn, "insert", COLUMNS, values, lengths, formats, 1))
        fail(PQerrorMessage(conn));
}

/* Takes the answers to so many rows, and to the Sync behind them. */
static void take_answers(PGconn *conn, int rows)
{
    for (int place = 0; place <= rows; place++) {
        PGresult *result = PQgetResult(conn);
        ExecStatusType status = PQresultStatus(result);
        if (status != (place < rows ? PGRES_COMMAND_OK : PGRES_PIPELINE_SYNC))
            fail(PQerrorMessage(conn));
        PQclear(result);
        if (place < rows && PQgetResult(conn))
            fail("more than one result");
    }
}

static void insert(PGconn *conn, const struct row *rows, int len)
{
    struct buffer out = {NULL, 0, 0};
    PQclear(PQprepare(conn, "insert", INSERT, 0, NULL));
    if (!PQenterPipelineMode(conn))
        fail(PQerrorMessage(conn));
    for (int start = 0; start < len; start += BATCH) {
        int count = len - start < BATCH ? len - start : BATCH;
        for (int place = 0; place < count; place++)
            bind_row(conn, &out, rows + start + place);
        if (!PQpipelineSync(conn))
            fail(PQerrorMessage(conn));
        take_answers(conn, count);
    }
}

int main(int argc, char **argv)
{
    if (argc != 4)
        fail("usage: rows USER DATABASE select|insert");
    const char *keys[] = {"user", "dbname", NULL}, *values[] = {argv[1], argv[2], NULL};
    PGconn *conn = PQconnectdbParams(keys, values, 0);
    PGresult *result = PQexecParams(conn, "TABLE source", 0, NULL, NULL, NULL, NULL, 1);
    if (PQresultStatus(result) != PGRES_TUPLES_OK || PQnfields(result) != COLUMNS)
        fail(PQerrorMessage(conn));
    int len = PQntuples(result);
    bool inserts = strcmp(argv[3], "insert") == 0;
    struct row *rows = heap((inserts ? len : 1) * sizeof *rows);
    uint64_t sum = 0;
    for (int place = 0; place < len; place++) {
        struct row *row = rows + (inserts ? place : 0);
        read_row(result, place, row);
        sum = sum * 31 + sum_of(row);
        if (!inserts)
            drop_row(row);
    }
    fprintf(stderr, "%d %016lx\n", len, sum);
    if (inserts)
        insert(conn, rows, len);
    PQclear(result);
    PQfinish(conn);
    return 0;
}
