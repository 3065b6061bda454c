"""The trials of scripts/server-test with the names of types: what scripts/columns prints, and what copy_read takes and refuses."""
import concurrent.futures
import os

from server_kinds import KINDS, OIDS
from server_trials import HEADER, TRAILER, CopyTrial, Counts, Table, columns_of, run

VECTORS = ("int2vector", "oidvector")
# The names of types with a conversion, of which all have arrays but vectors and unknown; other names of KINDS name no base type.
CONVERTED = tuple(kind.name for kind in KINDS if kind.copy_name is not None and kind.name not in VECTORS)
# Each type as the server spells it, by format_type with no modifier, without one, and as a regtype, and whether it has a conversion.
NAMES = f"""
SELECT DISTINCT name, it.typtype = 'b' AND (it.typname IN {(*CONVERTED, *VECTORS)}
    OR coalesce(element.typtype = 'b' AND element.typname IN {CONVERTED}, false)) OR it.typname = 'unknown'
FROM pg_type it LEFT JOIN pg_type element ON element.typarray = it.oid,
    LATERAL (VALUES (format_type(it.oid, -1)), (format_type(it.oid, NULL)), (it.oid::regtype::text)) spelled (name)
WHERE it.typtype <> 'c' AND element.typtype IS DISTINCT FROM 'c'
"""
INTERVALS = ("year", "month", "day", "hour", "minute", "second", "year to month", "day to hour", "day to minute", "day to second",
             "hour to minute", "hour to second", "minute to second", "second(2)", "day to second(3)", "hour to second(0)[]")
OTHER_NAMES = ("bool", "int2", "int4", "int8", "float4", "float8[]", "numeric(10,2)", "DECIMAL(10, 2)[]", "decimal",
               "varbit", "bpchar", "char", "char(3)", "varchar(20)", "varchar", "timestamp(3)",
               "timestamptz", "timestamptz(0)", "time(6)", "public.citext", '"bit"', "pg_catalog.int4[]", "interval(2)", "bit(3)[]",
               "timestamp(0) with time zone[]", "timestamp(6) without time zone", "time(3) without time zone[]", "character(3)[]",
               "character varying(20)[]", "bit varying(8)[]", *(f"interval {it}" for it in INTERVALS))
# A table of columns whose types are spelled in some odd way, and what scripts/columns prints of it.
SPELLED = """
CREATE SCHEMA "Other, schema";
CREATE DOMAIN "Other, schema".list AS int4[];
CREATE DOMAIN "Other, schema".folded AS citext;
CREATE TYPE thinner AS (a int4, gone text, "select" varchar(3), "b""c" "char"[]);
ALTER TYPE thinner DROP ATTRIBUTE gone;
CREATE DOMAIN thin AS thinner;
CREATE TABLE "Spelled, oddly" (gone text, a varchar(20), b bit varying(8)[], c timestamp(3) with time zone, gone_too int4,
    d interval day to second(3), e interval(1), f char(3)[], g "char", h int4 GENERATED ALWAYS AS (1) STORED, i "Other, schema".list,
    j "Other, schema".folded[], k shorter, l glad[], m thinner, n thin[], o time(0), p "bit", q bpchar,
    r numeric(5, 2), s decimal(3, -2)[]);
ALTER TABLE "Spelled, oddly" DROP COLUMN gone, DROP COLUMN gone_too;
INSERT INTO "Spelled, oddly" DEFAULT VALUES;
INSERT INTO "Spelled, oddly" VALUES ('a', '{101,NULL}', '2000-01-01 12:00:00.125', '1 day 00:00:01.5', '1.5 s', '{a,NULL}', 'a', DEFAULT,
    '{1,NULL}', '{a,NULL}', 'a', '{Ok,NULL}', '(1,abc,"{a,NULL,b}")', '{"(,,)",NULL,"(2,\\"\\",{})"}', '12:00', '101', 'a ',
    '-1.5', '{1249,NULL,NaN}');
INSERT INTO "Spelled, oddly" DEFAULT VALUES;
"""
SPELLED_TABLE = '"Spelled, oddly"'
SPELLED_COLUMNS = (
    "character varying(20), bit varying(8)[], timestamp(3) with time zone, interval day to second(3), interval(1), character(3)[], "
    '"char", integer[], citext[], character varying(40), enum[], '
    '(a integer, "select" character varying(3), "b""c" "char"[]), '
    '(a integer, "select" character varying(3), "b""c" "char"[])[], time(0) without time zone, "bit", bpchar, numeric(5,2), numeric(3,-2)[]'
)
# Columns that have no conversion: what scripts/columns prints of each is refused.
REFUSED = """
CREATE TYPE nested AS (a int4, b thinner);
CREATE TABLE refused (a money, b point, c "Other, schema".list[], d nested, e int4range, f xid[], g regclass, h timetz(3));
"""
REFUSED_COLUMNS = [
    "money", "point", '"Other, schema".list[]',
    '(a integer, b (a integer, "select" character varying(3), "b""c" "char"[]))',
    "int4range", "xid[]", "regclass", "time(3) with time zone",
]


def try_name(programs, name, is_converted):
    """The trial of a name, with a COPY of no rows, as a command line's last word: what is wrong."""
    status, lines, message = run(programs.copy_read, ["int4, text", name], HEADER + TRAILER)
    if lines or status not in (0, 1) or (status == 0) != is_converted:
        return f"name {name}: copy_read {'refuses' if is_converted else 'takes'} it: {message or lines!r}"
    return ""


def expect_columns(server, table, columns):
    """What is wrong with what scripts/columns prints of a table."""
    printed = columns_of(server, table)
    return f"scripts/columns {table} prints {printed} in place of {columns}" if printed != columns else ""


def try_names(server, programs):
    """The trials of all names, side by side: the counts, and how many names were tried."""
    server.psql(SPELLED)
    server.psql(REFUSED)
    rows = (line.rsplit("|", 1) for line in server.psql(NAMES).decode().splitlines())
    names = {name: is_converted == "t" for name, is_converted in rows}
    names |= dict.fromkeys(OTHER_NAMES, True) | dict.fromkeys(REFUSED_COLUMNS, False)
    counts = Counts()
    printed = {SPELLED_TABLE: SPELLED_COLUMNS, "refused": ", ".join(REFUSED_COLUMNS)}
    counts.differences += [expect_columns(server, *it) for it in printed.items()]
    with concurrent.futures.ThreadPoolExecutor(os.cpu_count()) as pool:
        counts.differences += pool.map(lambda it: try_name(programs, *it), names.items())
    counts.differences = [it for it in counts.differences if it]
    spelled = Table(SPELLED_TABLE, [columns_of(server, SPELLED_TABLE)], 3 * 18, other_bytes=OIDS)
    counts.add(CopyTrial(server, programs, spelled, SPELLED_TABLE).run())
    return counts, len(names)
