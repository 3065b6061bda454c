/*
 * The types, and values of each: at every border, empty, long, and NULL. Of unknown there are none, since no query has
 * a column of it.
 */
#include "client.h"

/* What an entry of the table has of each built-in type, and of each pair of functions. */
#define OIDS(name) PGC_##name##_OID, PGC_##name##_ARRAY_OID
#define CELL(name) rewrite_##name, show_##name

/* What SQL makes of a value. */
#define AS_SENT "format('%s', v)"
#define ADDRESS "host(v) || '/' || masklen(v)"
#define DAYS "CASE WHEN isfinite(v) THEN (v - date '2000-01-01')::text ELSE v::text END"
#define MICROSECONDS "CASE WHEN isfinite(v) THEN " \
    "(extract(epoch FROM v::timestamp - timestamp '2000-01-01') * 1000000)::int8::text ELSE v::text END"
#define PARTS \
    "((extract(hour FROM v) * 60 + extract(minute FROM v)) * 60000000 + extract(microseconds FROM v))::int8 " \
    "|| ' ' || extract(day FROM v) || ' ' || extract(year FROM v) * 12 + extract(month FROM v)"
#define VECTOR "cardinality(string_to_array(v::text, ' '))::text"
#define KEYS "(SELECT string_agg(key || ',', '' ORDER BY place) FROM unnest(akeys(v)) WITH ORDINALITY u (key, place))"

/* Values. */
#define TEXTS "('a'), (''), (NULL), ('é😀 \\ \" ,{}'), (repeat('aé', 50000))"
#define TIMESTAMPS "('2000-01-01'), ('1999-12-31 23:59:59.999999'), ('infinity'), ('-infinity'), (NULL), " \
    "('4713-01-01 00:00:00 BC'), ('294276-12-31 23:59:59.999999')"

struct type types[] = {
    {"bool", OIDS(BOOL), CELL(bool), "v::text", 0, "(true), (false), (NULL)"},
    {"\"char\"", OIDS(CHAR), CELL(char), "v::int4::text", 0, "(97), (0), (NULL), (127), (-1), (-128)"},
    {"int2", OIDS(INT2), CELL(int2), "v::text", 0, "(258), (0), (NULL), (-1), (32767), (-32768)"},
    {"int4", OIDS(INT4), CELL(int4), "v::text", 0, "(258), (0), (NULL), (-1), (2147483647), (-2147483648)"},
    {"int8", OIDS(INT8), CELL(int8), "v::text", 0,
        "(258), (0), (NULL), (-1), (9223372036854775807), (-9223372036854775808)"},
    {"oid", OIDS(OID), CELL(oid), "v::text", 0, "(258), (0), (NULL), (2147483648), (4294967295)"},
    {"pg_lsn", OIDS(PG_LSN), CELL(lsn), "(v - '0/0')::text", 0,
        "('16/B374D848'), ('0/0'), (NULL), ('FFFFFFFF/FFFFFFFF')"},
    {"text", OIDS(TEXT), CELL(text), AS_SENT, 0, TEXTS},
    {"varchar", OIDS(VARCHAR), CELL(text), AS_SENT, 0, TEXTS},
    {"bpchar", OIDS(BPCHAR), CELL(text), AS_SENT, 0, TEXTS ", ('a  ')"},
    {"name", OIDS(NAME), CELL(text), AS_SENT, 0, "('a'), (''), (NULL), (repeat('n', 63))"},
    {"citext", 0, 0, CELL(text), AS_SENT, 0, TEXTS ", ('A')"},
    {"bytea", OIDS(BYTEA), CELL(bytea), "encode(v, 'hex')", 0,
        "('\\x00ff10'), (''), (NULL), (repeat('\\000', 100000))"},
    {"bit(9)", OIDS(BIT), CELL(varbit), "v::text", 0, "('101010101'), ('000000000'), (NULL), ('111111111')"},
    {"varbit", OIDS(VARBIT), CELL(varbit), "v::text", 0,
        "('1'), (''), (NULL), ('10000000'), ('111111111'), (repeat('10', 50000))"},
    {"uuid", OIDS(UUID), CELL(uuid), "replace(v::text, '-', '')", 0,
        "('00112233-4455-6677-8899-aabbccddeeff'), (NULL), ('00000000-0000-0000-0000-000000000000')"},
    {"macaddr", OIDS(MACADDR), CELL(macaddr), "replace(v::text, ':', '')", 0,
        "('08:00:2b:01:02:03'), (NULL), ('ff:ff:ff:ff:ff:ff')"},
    {"inet", OIDS(INET), CELL(inet), ADDRESS, 0,
        "('192.168.0.1/24'), ('127.0.0.1'), ('0.0.0.0/0'), (NULL), ('2001:db8::1/32'), ('::1'), ('::ffff:1.2.3.4')"},
    {"cidr", OIDS(CIDR), CELL(cidr), ADDRESS, OTHER_BYTES,
        "('192.168.0.0/24'), ('127.0.0.1/32'), ('0.0.0.0/0'), (NULL), ('2001:db8::/32'), ('::/0')"},
    {"date", OIDS(DATE), CELL(date), DAYS, 0,
        "('2000-01-01'), ('1999-12-31'), ('infinity'), ('-infinity'), (NULL), ('4713-01-01 BC'), ('5874897-12-31')"},
    {"time", OIDS(TIME), CELL(time), "(extract(epoch FROM v) * 1000000)::int8::text", 0,
        "('00:00'), ('23:59:59.999999'), ('24:00:00'), (NULL)"},
    {"timestamp", OIDS(TIMESTAMP), CELL(timestamp), MICROSECONDS, 0, TIMESTAMPS},
    {"timestamptz", OIDS(TIMESTAMPTZ), CELL(timestamp), MICROSECONDS, 0, TIMESTAMPS},
    {"interval", OIDS(INTERVAL), CELL(interval), PARTS, 0,
        "('1 year 2 mons -3 days 04:05:06.789'), ('0'), (NULL), ('-178000000 years'), ('2147483647 days -0.000001 s')"},
    {"int2vector", PGC_INT2_VECTOR_OID, 0, NULL, show_array, VECTOR, BY_TEXT | NO_ARRAYS, "('1 -2 3'), (NULL)"},
    {"oidvector", PGC_OID_VECTOR_OID, 0, NULL, show_array, VECTOR, NO_ARRAYS, "('1 2 4294967295'), (NULL)"},
    // (the server takes no empty vector)
    {"int2vector", PGC_INT2_VECTOR_OID, 0, NULL, show_array, VECTOR, UNBOUND | NO_ARRAYS, "('')"},
    {"oidvector", PGC_OID_VECTOR_OID, 0, NULL, show_array, VECTOR, UNBOUND | NO_ARRAYS, "('')"},
    {"ltree", 0, 0, CELL(ltree), "v::text", 0, "('a.b.c'), (''), (NULL)"},
    {"lquery", 0, 0, CELL(ltree), "v::text", BY_TEXT, "('a.*{1,2}.!b|c%'), ('*'), (NULL)"},
    {"ltxtquery", 0, 0, CELL(ltree), "v::text", BY_TEXT, "('a & !b*@'), ('a'), (NULL)"},
    {"hstore", 0, 0, CELL(hstore), KEYS, 0,
        "('a=>1, b=>NULL, \"\"=>\"\", é=>😀'), (''), (NULL), (hstore('k', repeat('v', 100000))::text)"},
    {"record", 0, 0, CELL(record), NULL, UNBOUND,
        "(ROW(1, 'a'::text, NULL::int8)), (ROW()), (NULL), (ROW(ARRAY[1, NULL], ROW(true)))"},
    {"item", 0, 0, CELL(record), "'25,23,20,1007,1082,'", 0,
        "('(nut,7,,\"{1,NULL,3}\",\"2000-01-01\")'), ('(,,,,)'), (NULL), ('(\"\",0,-1,{NULL},infinity)')"},
    {"item", 0, 0, CELL(record), NULL, OTHER_BYTES, "('(,,,{},)')"},
    // (the lower bound is written as 1)
    {"int4[]", PGC_INT4_ARRAY_OID, 0, CELL(array), COUNT_OF_ARRAY, OTHER_BYTES | UNBOUND | NO_ARRAYS,
        "('[5:6]={1,2}'), ('[-2147483648:-2147483648]={NULL}')"},
};
const size_t type_count = sizeof types / sizeof *types;

rewriter *rewriter_of(uint32_t oid)
{
    for (size_t i = 0; i < type_count; i++) {
        if (oid == types[i].oid) {
            return types[i].rewrite;
        }
        if (oid == types[i].array_oid) {
            return rewrite_array;
        }
    }
    return NULL;
}
