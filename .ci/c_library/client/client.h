/* What the files of the client share. */
#ifndef CLIENT_H
#define CLIENT_H

#include "pg_cells.h"

/*
 * Reads a cell and writes its value again, where `room` is enough: what it answers is how many bytes the new cell has,
 * or PGC_NO_CELL where the cell is refused.
 */
typedef size_t rewriter(const uint8_t *cell, size_t len, uint8_t *out, size_t room);

/*
 * Writes the text of what is read of a cell, with a zero at its end, to a buffer of SHOWN bytes and eight times the
 * cell's, or nothing where the cell is refused.
 */
typedef void shower(const uint8_t *cell, size_t len, char *text);
enum { SHOWN = 256 };

/* What is known of a type beside its name. */
enum {
    BY_TEXT = 1,     /* it has no equality: values are compared by their texts alone */
    UNBOUND = 2,     /* the server takes no parameter of it, or what is written is another value of it */
    NO_ARRAYS = 4,   /* there are no arrays of it, or their elements are arrays */
    OTHER_BYTES = 8, /* the server takes what is written, and sends another cell of the value */
    BUILT_IN = 16    /* pgc_rewrite rewrites its cells; this is set where pg_cells.h has its OID */
};

/* A type, and values of it. */
struct type {
    const char *name;       /* as SQL spells it */
    uint32_t oid;           /* that of pg_cells.h; 0 where it has none, until the server is asked */
    uint32_t array_oid;     /* that of the type's arrays, likewise */
    rewriter *rewrite;      /* NULL where pgc_rewrite alone is tried */
    shower *show;
    const char *shown;      /* what SQL has for the text that show writes, of the value v, or NULL */
    unsigned flags;
    const char *values;     /* the rows of VALUES, from which SQL casts to the type */
};

/* What SQL has for the text that show_array writes. */
#define COUNT_OF_ARRAY "cardinality(v)::text"

extern struct type types[];
extern const size_t type_count;

/* The function for values of the type with this OID, arrays too, or NULL. */
rewriter *rewriter_of(uint32_t oid);

/* Those of single values, one for each pair of functions in pg_cells.h. */
rewriter rewrite_bool, rewrite_char, rewrite_int2, rewrite_int4, rewrite_int8, rewrite_oid, rewrite_lsn, rewrite_text,
    rewrite_ltree, rewrite_bytea, rewrite_varbit, rewrite_uuid, rewrite_macaddr, rewrite_inet, rewrite_cidr,
    rewrite_date, rewrite_time, rewrite_timestamp, rewrite_interval;

shower show_bool, show_char, show_int2, show_int4, show_int8, show_oid, show_lsn, show_text, show_ltree, show_bytea,
    show_varbit, show_uuid, show_macaddr, show_inet, show_cidr, show_date, show_time, show_timestamp, show_interval;

/* Those of values with parts, of which rewriter_of says how each is rewritten. */
rewriter rewrite_array, rewrite_record, rewrite_hstore;

/* Of these the number of elements, the types of the fields, and the keys are shown. */
shower show_array, show_record, show_hstore;

#endif
