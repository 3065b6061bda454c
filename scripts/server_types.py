"""The trial of scripts/server-test with the types of the server, which pg_client makes of its catalog."""
import itertools
import re

from server import TOP
from server_trials import HEADER, TRAILER, Counts, run

SOURCE = f"{TOP}/crates/pg_client/src/catalog.rt"
# pg_client's table of built-in types, and the library's own, which that does not repeat.
BUILT_IN = f"{TOP}/crates/pg_client/src/catalog/built_in.rt"
LIBRARY = f"{TOP}/crates/pg_types/src/types/built_in.rt"
# Types of each kind, those of crates/own_types among them, and parts that are younger than what holds them.
OWN_TYPES = r"""
CREATE SCHEMA "Odd Schema";
CREATE TYPE level AS ENUM ('junior', 'senior', 'staff');
CREATE TYPE no_label AS ENUM ();
CREATE TYPE grade AS ENUM ('low', 'high');
ALTER TYPE grade ADD VALUE 'middle' BEFORE 'high';
CREATE DOMAIN percentage AS smallint CHECK (VALUE BETWEEN 0 AND 100);
CREATE DOMAIN email AS text CHECK (VALUE LIKE '%@%');
CREATE TYPE address AS (street text, city text);
CREATE TYPE purchase AS (id int8, customer text, paid bool, placed timestamptz, discount int4, tags text[], gift "InventoryItem", items "InventoryItem"[]);
CREATE TYPE empty AS ();
CREATE TYPE levels AS RANGE (SUBTYPE = level);
CREATE TYPE "Odd Schema"."a|b" AS ENUM ('one', 'two');
CREATE DOMAIN "Odd Schema".many AS level[];
CREATE DOMAIN later AS int4range;
CREATE TABLE grown (gone text, id int4);
ALTER TABLE grown ADD at "Odd Schema".many, ADD places address[], ADD share later, ADD during levels_multirange, DROP gone;
ALTER TYPE address ADD ATTRIBUTE home "Odd Schema".many;
ALTER TYPE address DROP ATTRIBUTE home;
"""
# What the server says of its types, told by other columns of the catalog than those of QUERY. The library's `unknown` is a simple type.
EXPECTED = """
SELECT t.oid || '|' || nspname || '|' || t.typname || '|' || CASE
    WHEN elements.oid IS NOT NULL AND t.typtype <> 'p' THEN 'array ' || elements.typname || '=' || elements.oid
    WHEN t.typtype = 'd' THEN (SELECT 'domain ' || base.typname || '=' || base.oid FROM pg_type base WHERE base.oid = t.typbasetype)
    WHEN t.typtype = 'r' THEN (SELECT 'range ' || bound.typname || '=' || bound.oid FROM pg_type bound JOIN pg_range ON bound.oid = rngsubtype WHERE rngtypid = t.oid)
    WHEN t.typtype = 'm' THEN (SELECT 'multirange ' || bound.typname || '=' || bound.oid FROM pg_type bound JOIN pg_range ON bound.oid = rngsubtype WHERE rngmultitypid = t.oid)
    WHEN t.typtype = 'e' THEN concat_ws(' ', 'enum', (SELECT string_agg(label::text, ' ') FROM unnest(CASE t.typtype WHEN 'e' THEN labels END) label))
    WHEN t.typtype = 'c' THEN concat_ws(' ', 'composite', fields)
    WHEN t.typtype = 'p' AND t.typname <> 'unknown' THEN 'pseudo' ELSE 'simple' END
FROM pg_type t JOIN pg_namespace n ON n.oid = typnamespace
    LEFT JOIN pg_type elements ON elements.typarray = t.oid OR (t.typname, elements.typname) IN (('int2vector', 'int2'), ('oidvector', 'oid'))
    LEFT JOIN LATERAL (SELECT array_agg(enumlabel ORDER BY enumsortorder) FROM pg_enum WHERE enumtypid = t.oid) e (labels) ON true
    LEFT JOIN LATERAL (SELECT string_agg(attname || '=' || atttypid, ' ' ORDER BY attnum) FROM pg_class r JOIN pg_attribute ON attrelid = r.oid
        WHERE r.reltype = t.oid AND attnum > 0 AND atttypid <> 0) c (fields) ON true
ORDER BY t.oid
"""
PURCHASE = """ROW(1, 'Ann', true, '1970-01-01', NULL, '{a,b}', ROW('nut', 7, 3), ARRAY[ROW('', -1, NULL)::"InventoryItem"])::purchase"""
PURCHASED = (
    'Composite(Purchase { id: 1, customer: "Ann", paid: true, placed: UnixTime { secs: 0, nanos: 0 }, discount: None, tags: ["a", "b"], '
    'gift: InventoryItem { name: "nut", supplier_id: 7, price: Some(3) }, items: [InventoryItem { name: "", supplier_id: -1, price: None }] })'
)
# Values, and what is read of them as the types that were made.
VALUES = [
    ("'senior'::level", "level Enum(Senior)"),
    ("'{staff,junior}'::level[]", "_level [Enum(Staff), Enum(Junior)]"),
    ("'Ok'::\"Mood\"", "Mood Ok"),
    ("'7'::percentage", "percentage Domain(Percentage(7))"),
    ("'a@b'::email", 'email Domain(Email("a@b"))'),
    ("ROW('nut', 7, NULL)::\"InventoryItem\"", 'InventoryItem InventoryItem { name: "nut", supplier_id: 7, price: None }'),
    ("ROW('Main', 'Bern')::address", 'address Composite(Address { street: "Main", city: "Bern" })'),
    (PURCHASE, f"purchase {PURCHASED}"),
    (f"ARRAY[{PURCHASE}]", f"_purchase [{PURCHASED}]"),
]


def query():
    """The query of pg_client."""
    with open(SOURCE, encoding="utf-8") as it:
        return re.search(r'QUERY: &str = "\\\n(.*?)";\n', it.read(), re.S)[1]


def built_in_rows(server):
    """The rows of the table of built-in types, of the types whose OID is below FirstGenbkiObjectId, and so the same in every server.

    Row types of system tables are left out, since their fields differ between versions, and their arrays with them.
    """
    rows = server.psql(f"""
        SELECT concat_ws(' ', oid, name, kind, CASE WHEN kind IN ('a', 'm', 'r') THEN element ELSE 0 END)
        FROM ({query()}) it
        WHERE oid < 10000 AND kind <> 'c' AND NOT (kind = 'a' AND element IN (SELECT oid FROM pg_type WHERE typtype = 'c'))
        ORDER BY oid""")
    with open(LIBRARY, encoding="utf-8") as it:
        known = re.findall(r'^ +[A-Z][A-Z0-9_]* \w+ (\d+) "', it.read(), re.M)
    rows = [it.split() for it in rows.decode().splitlines()]
    return [f"    ({oid}, \"{name}\", b'{kind}', {element}),\n" for oid, name, kind, element in rows if oid not in known]


def try_built_in(server, counts):
    """Compares the table with the server's types. A server of a later version may have more."""
    with open(BUILT_IN, encoding="utf-8") as it:
        table = it.read()
    version = re.search(r"of PostgreSQL (\d+)", table)[1]
    rows, found = re.findall(r'^    \(\d+, ".*\n', table, re.M), built_in_rows(server)
    is_same = server.psql("SHOW server_version_num").decode()[:2] == version
    counts.take("types: scripts/built-in-types writes another table", len(rows), rows == found if is_same else {*rows} <= {*found})


def copied(server, of):
    """The rows of a query as a binary COPY."""
    return server.psql(f"COPY ({of}) TO STDOUT (FORMAT binary)")


def values_of(server):
    """The values as a binary COPY, each after the OID of its type."""
    copies = [copied(server, f"SELECT pg_typeof(v)::oid, v FROM (SELECT {it}) it (v)") for it, _ in VALUES]
    return HEADER + b"".join(it.removeprefix(HEADER).removesuffix(TRAILER) for it in copies) + TRAILER


def try_types(server, program):
    """The trial of all types of the server, and of values of them: the counts, and how many types there are."""
    server.psql(*OWN_TYPES.strip().split(";\n"))
    expected = server.psql(EXPECTED).decode().splitlines()
    status, output, message = run(program, [], copied(server, f"{query()} ORDER BY 1") + values_of(server))
    lines, counts = output.decode().splitlines(), Counts()
    try_built_in(server, counts)
    if status:
        counts.differences.append(f"types: {message}")
    for line, wanted in itertools.zip_longest(lines, [*expected, *(it for _, it in VALUES)]):
        counts.take(f"types: {line} in place of {wanted}", 1, line == wanted)
    return counts, len(expected)
