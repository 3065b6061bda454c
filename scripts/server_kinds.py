"""The kinds of values that scripts/server-test tries, and those that are refused by a stated limit."""
from dataclasses import dataclass

# The values of a kind, but for those at borders.
CELLS = 120_000
LABELS = ["", "a b", "it''s", '"quoted"', "{a,b}", "(1)", "back\\slash", "tab\there", "NULL", "null", "é€😀", "x" * 63,
          *(f"label {place}" for place in range(28))]
TYPES = [
    *(f"CREATE EXTENSION IF NOT EXISTS {name}" for name in ("citext", "hstore", "ltree")),
    'CREATE TYPE "InventoryItem" AS (name text, supplier_id int4, price int8)',
    "CREATE TYPE \"Mood\" AS ENUM ('Sad', 'Ok', 'Happy')",
    f"CREATE TYPE label AS ENUM ({', '.join(f'{chr(39)}{label}{chr(39)}' for label in LABELS)})",
    'CREATE DOMAIN "SessionId" AS bytea',
    'CREATE DOMAIN glad AS "Mood" CHECK (VALUE <> \'Sad\')',
    "CREATE DOMAIN short AS varchar(40)",
    "CREATE DOMAIN shorter AS short CHECK (length(VALUE) <= 33)",
    'CREATE TYPE "Odd Row" AS (mood "Mood", "a,(b" text, "User" "char", at timestamptz, list text[], bits varbit, label citext, flag bool)',
    'CREATE TYPE odder AS (id "SessionId", moods "Mood"[], code shorter, codes shorter[])',
]
# A text with each byte that some format gives a meaning, for the number i.
ODD = "chr((i % 1000 + 1)::int) || substr($$ \"\\{},()=>NULL/'$$ || md5(i::text), (i % 16)::int)"
LONG = "repeat('0123456789abcdef', 65536)"
DAY = "interval '1 day'"
MICRO = "interval '1 microsecond'"
STEP = "i::numeric * 153722867280912"
# An IPv6 address of random groups, of which many are 0.
V6 = r"regexp_replace(translate(md5(i::text), '456789abc', '000000000'), '(....)(?!$)', '\1:', 'g')::inet"
# Why copy_write writes other bytes than the server, of the same values.
KEYS = "the keys of an hstore are in another order"
FLAG = "the flag of a CIDR is 0"
PAYLOADS = "a text has neither the sign nor the payload of NaN"
OIDS = "the OIDs that a server gave its types are 0"


@dataclass(frozen=True)
class Kind:
    """A name for tables: the server's type, a value for each number i, and values at the borders."""
    name: str
    type: str
    value: str
    borders: tuple = ()
    # The names that copy_read takes, and pgcell; None where it is not tried.
    copy_name: str | None = ""
    pgcell_name: str | None = ""
    has_arrays: bool = True
    has_pgcell_arrays: bool = True
    # The function that sends a value, where its bytes tell more of it than its text, and pgcell is to keep that.
    send: str = ""
    # Why the bytes that copy_write writes cannot be the server's, and why those of arrays.
    other_bytes: str = ""
    other_array_bytes: str = ""

    def __post_init__(self):
        for field in ("copy_name", "pgcell_name"):
            if getattr(self, field) == "":
                object.__setattr__(self, field, self.name)


def inet(length):
    """An address of either family for each i, with a netmask of a length that is an expression over the address's bits."""
    v4, v6 = "'0.0.0.0'::inet + i * 35791", V6
    return f"CASE WHEN i % 2 = 0 THEN {length(v4, 32)} ELSE {length(v6, 128)} END"


def masked(address, bits):
    return f"set_masklen({address}, (i % {bits + 1})::int)"


def quoted(*texts):
    return tuple(f"'{text}'" for text in texts)


V6_BORDERS = ("::", "::1", "::5", "::1.2.3.4", "::ffff:1.2.3.4", "::ffff:0:1.2.3.4", "1::", "::0.1.0.0", "0:0:0:0:0:1:2:5",
              "1:0:0:2:0:0:0:3", "1:0:0:0:2:0:0:3", "1:0:2:3:4:5:6:7", "0:1:2:3:4:5:6:0", "0:0:1::", "::ffff:0:0",
              "ffff:ffff:ffff:ffff:ffff:ffff:ffff:ffff")
TEXTS = ("''", "'NULL'", "'null'", "' '", "E'\\\\N'", "E'\\\\.'", "E'\\b\\t\\n\\x0b\\f\\r\\\\'", "'a,b'", "'{}'", "'\"'", "'é€😀'", LONG)
INTERVALS = ("0", "178956970 years 7 mons", "-178956970 years -8 mons", "1 mon -1 day", "-1 mon 1 day 00:00:01.5", "-1 day 1 hour",
             "-2562047788:00:54.775807", "2562047788:00:54.775807", "1 day -0.5 sec", "-1 year 2 mons", "2147483647 days",
             "-2147483648 days", "00:00:00.000001", "-00:00:00.000001", "1 year -1 day 00:00:01")
JSON = "json_build_object('i', i, 't', md5(i::text), 'a', json_build_array(i, null, i % 2 = 0, json_build_object()))"
DOCUMENTS = ("'{}'", "'[]'", "'null'", "'\"\\u00e9\\\"\\\\\"'", "'-9223372036854775808'", "'18446744073709551616'", "'1.50'",
             "'[1e400, -0, -1.25E-7]'", "'{\"k\":1, \"b\":2, \"b\":3, \"\":{\"k\":null}}'", "E' [ 1 ,\\t2,\\n\\r3 ]\\n'",
             f"to_json({LONG})", "'{\"a\": {\"b\": [1, [2, []]]}}'", "(repeat('[', 500) || repeat(']', 500))")
INFINITIES = quoted("infinity", "-infinity")
DATE = "date '4713-11-24 BC' + (i * 44)::int"
TIMESTAMP = f"'4713-11-24 BC' + i * 44 * {DAY} + i * 719999 * {MICRO}"
UNIX = f"timestamp '4713-11-24 BC' + i * 904 * {DAY} + i * 719999 * {MICRO}"
TIMESTAMPTZ_BORDERS = quoted("9999-12-30 22:00:00.999999", "0001-01-01", "0001-12-31 23:59:59.5 BC")
MOOD = "(ARRAY['Sad', 'Ok', 'Happy'])[i % 3 + 1]::\"Mood\""
BYTES = "substr(decode(md5(i::text), 'hex'), 1, (i % 17)::int)"
CODE = "substr(md5(i::text), (i % 33)::int)"
ODD_ROW = (f"ROW(CASE WHEN i % 2 = 0 THEN {MOOD} END, CASE WHEN i % 3 > 0 THEN {ODD} END, (i % 256 - 128)::int4::\"char\","
           f" timestamptz {TIMESTAMP}, CASE i % 4 WHEN 0 THEN '{{}}'::text[] WHEN 1 THEN ARRAY[NULL, {ODD}] END,"
           f" (i % 99)::int4::bit(9)::varbit, CASE WHEN i % 5 > 0 THEN {ODD} END, i % 7 = 0)")
ODDER = f"ROW({BYTES}, ARRAY[{MOOD}, NULL], {CODE}, ARRAY[NULL, {CODE}])"

# Of few and of many digits, of each exponent, and subnormal; {0} is the type, {1} the bound of exponents and {2} the least number.
FLOAT = ("(CASE i % 4 WHEN 0 THEN sin(i) * exp(i % {1} - {1} / 2) WHEN 1 THEN (i * 7919 % 200001 - 100000) * '{2}'::float8"
         " WHEN 2 THEN ((i % 2001 - 1000) || 'e' || (i % 36 - 18))::float8 ELSE i * 7919 / 64.0 END)::{0}")
FLOAT_BORDERS = quoted("0", "-0", "NaN", "Infinity", "-Infinity", "1e5", "999999", "1e6", "-1e-4", "1e-5")
FLOAT4_BORDERS = quoted("1e-45", "1.1754942e-38", "1.1754944e-38", "3.4028235e38", "-3.4028235e38", "16777216", "8388608.5", "9e-44")
FLOAT8_BORDERS = quoted("5e-324", "2.225073858507201e-308", "2.2250738585072014e-308", "1.7976931348623157e308", "-1.7976931348623157e308",
                        "1e14", "1e15", "999999999999999", "9007199254740993", "1e23", "9.5367431640625e-07", "2e-323")
NANS = ("-'NaN'::{0}", "'nan(0x123)'::{0}", "'-nan(0x1)'::{0}")
# Up to 33 digits, the point anywhere among them, and zeros after them or before.
NUMERIC = ("(CASE i % 3 WHEN 0 THEN '-' ELSE '' END || '0' || left(translate(md5(i::text), 'abcdef', '000999'), (i % 34)::int) || '.'"
           " || substr(translate(md5(i::text), 'abcdef', '000999'), (i % 34 + 1)::int, (i % 35)::int) || 'e' || i % 61 - 30)::numeric")
# The largest scale, weight and numbers of digits.
NUMERICS = (*quoted("0", "-0", "0.000", "NaN", "Infinity", "-Infinity", "9999", "-10000", "0.0001", "0.00001", "9999.9999", "1e16",
                    "1e-16383", "-1e-16383", "1e131071", "-1e131071", "-9e131071", "1e-16380"),
            "0::numeric(1000, 1000)", "repeat('9', 131072) || '.' || repeat('9', 16383)", "'0.' || repeat('0', 16382) || '1'",
            "'-' || repeat('1234', 32768) || '.' || repeat('5678', 4095)", "'1' || repeat('0', 131071) || '.' || repeat('0', 16382) || '1'")

KINDS = [
    Kind("bool", "bool", "i % 3 = 0"),
    Kind("char", '"char"', "(i % 256 - 128)::int4::\"char\"", copy_name='"char"'),
    Kind("int2", "int2", "(i * 7919 % 65536 - 32768)::int2", quoted(-32768, 32767, 0)),
    Kind("int4", "int4", "(i * 35791 - 2147483648)::int4", quoted(-2147483648, 2147483647, 0)),
    Kind("int8", "int8", f"({STEP} - 9223372036854775808)::int8",
         quoted(-9223372036854775808, 9223372036854775807, 0)),
    Kind("oid", "oid", "(i * 35791)::oid", quoted(0, 4294967295)),
    Kind("float4", "float4", FLOAT.format("float4", 160, "1.4e-45"), FLOAT_BORDERS + FLOAT4_BORDERS),
    Kind("float8", "float8", FLOAT.format("float8", 1400, "5e-324"), FLOAT_BORDERS + FLOAT8_BORDERS),
    *(Kind(f"{name}_nan", name, f"CASE i % 5 WHEN 0 THEN {nans[0]} WHEN 1 THEN {nans[1]} WHEN 2 THEN {nans[2]} ELSE i END",
           copy_name=name, pgcell_name=name, send=f"{name}send", other_bytes=PAYLOADS)
      for name in ("float4", "float8") for nans in [[it.format(name) for it in NANS]]),
    Kind("numeric", "numeric", NUMERIC, NUMERICS),
    Kind("text", "text", ODD, TEXTS),
    Kind("varchar", "varchar", ODD, TEXTS),
    Kind("bpchar", "char(40)", "md5(i::text)", ("''", "' '", "E'\\t'"), copy_name="character(40)"),
    Kind("name", "name", ODD, TEXTS[:-1]),
    Kind("citext", "citext", ODD, TEXTS, pgcell_name=None, other_array_bytes=OIDS),
    Kind("ltree", "ltree", "('a' || i || '.b' || i % 7)::ltree", ("''",), copy_name="public.ltree", has_pgcell_arrays=False,
         other_array_bytes=OIDS),
    Kind("lquery", "lquery", "('a' || i || '.*{1,3}.!b' || i % 7 || '|c@*')::lquery", ("'*'",), pgcell_name=None,
         other_array_bytes=OIDS),
    Kind("ltxtquery", "ltxtquery", "('a' || i || ' & !(b' || i % 7 || '* | c@)')::ltxtquery", pgcell_name=None,
         other_array_bytes=OIDS),
    Kind("bytea", "bytea", BYTES, ("''", f"decode({LONG}, 'hex')")),
    Kind("bit", "bit(13)", "(i % 8192)::int4::bit(13)", copy_name="bit(13)"),
    Kind("varbit", "varbit", "substring((i * 35791 - 2147483648)::int4::bit(32)::varbit FROM 1 FOR (i % 33)::int)",
         ("''", "repeat('10', 50000)::varbit")),
    Kind("inet", "inet", inet(masked), quoted("255.255.255.255", "1.2.3.4/0", "::/0", "::ffff:1.2.3.4/96", *V6_BORDERS)),
    Kind("addr", "inet", inet(lambda address, bits: address), quoted("255.255.255.255", *V6_BORDERS), copy_name="inet"),
    Kind("cidr", "cidr", inet(lambda address, bits: f"network({masked(address, bits)})"),
         quoted("0.0.0.0/0", "1.2.3.4/32", "::/0", *V6_BORDERS), other_bytes=FLAG),
    Kind("macaddr", "macaddr", "left(md5(i::text), 12)::macaddr", quoted("00:00:00:00:00:00", "ff:ff:ff:ff:ff:ff")),
    Kind("macaddr8", "macaddr8", "left(md5(i::text), 16)::macaddr8",
         quoted("00:00:00:00:00:00:00:00", "ff:ff:ff:ff:ff:ff:ff:ff", "08:00:2b:01:02:03"), pgcell_name=None),
    Kind("uuid", "uuid", "md5(i::text)::uuid", quoted("00000000-0000-0000-0000-000000000000")),
    Kind("pg_lsn", "pg_lsn", f"'0/0'::pg_lsn + floor({STEP})", quoted("0/0", "FFFFFFFF/FFFFFFFF", "0/A")),
    Kind("date", "date", DATE, quoted("9999-12-31", "0001-01-01", "0001-12-31 BC", "2000-01-01")),
    Kind("date_inf", "date", DATE, (*INFINITIES, "'9999-12-31'"), copy_name="date"),
    Kind("time", "time", f"(i * 719999 * {MICRO})::time", quoted("00:00:00", "23:59:59.999999")),
    Kind("timestamp", "timestamp", f"timestamp {TIMESTAMP}",
         quoted("9999-12-31 23:59:59.999999", "0001-01-01", "0001-12-31 23:59:59.5 BC")),
    Kind("timestamp_inf", "timestamp", f"timestamp '4713-11-24 BC' + i * 44 * {DAY} + i * {MICRO}", INFINITIES, copy_name="timestamp"),
    Kind("timestamptz", "timestamptz", f"timestamptz {TIMESTAMP}", TIMESTAMPTZ_BORDERS),
    Kind("timestamptz_inf", "timestamptz", f"timestamptz {TIMESTAMP}", INFINITIES, copy_name="timestamptz", pgcell_name=None),
    Kind("unix", "timestamp", UNIX, quoted("294276-12-31 23:59:59.999999", "10000-01-01"), copy_name="timestamp"),
    Kind("unix_inf", "timestamp", UNIX, (*INFINITIES, "'294276-12-31 23:59:59.999999'"), copy_name="timestamp"),
    Kind("interval", "interval",
         f"make_interval(months => (i % 5000 - 2500)::int, days => (i % 61 - 30)::int) + (i * 7919 % 200000 - 100000) * 999 * {MICRO}",
         quoted(*INTERVALS)),
    Kind("json", "json", JSON, DOCUMENTS, pgcell_name=None),
    Kind("jsonb", "jsonb", f"{JSON}::jsonb", DOCUMENTS, pgcell_name=None),
    # A server refuses an empty vector in binary, its own too, so none stands here.
    Kind("int2vector", "int2vector", "concat_ws(' ', i % 100, -(i % 7), i % 32768)::int2vector", quoted("-32768 32767", "0"),
         has_arrays=False),
    Kind("oidvector", "oidvector", "concat_ws(' ', i * 35791, i % 7)::oidvector", quoted("0 4294967295", "0"), has_arrays=False),
    Kind("hstore", "hstore", f"hstore(ARRAY['k' || i % 9, 'a longer key', {ODD}], ARRAY[i::text, NULL, {ODD}])",
         ("''", "hstore('', '')", f"hstore('k', {LONG})"), has_pgcell_arrays=False, other_bytes=KEYS),
    Kind("item", '"InventoryItem"', f'ROW({ODD}, i, i * 35791)::"InventoryItem"',
         tuple(f"ROW({text}, -2147483648, NULL)" for text in TEXTS),
         copy_name="(name text, supplier_id int4, price int8)", other_array_bytes=OIDS),
    Kind("odd_row", '"Odd Row"', f'{ODD_ROW}::"Odd Row"', ("ROW(NULL, NULL, NULL, NULL, NULL, NULL, NULL, NULL)",
         f"ROW('Ok', {LONG}, '', 'infinity', ARRAY[{LONG}, '', NULL], '', '', false)"),
         copy_name='(mood enum, "a,(b" text, "User" "char", at timestamptz, list text[], bits varbit, label citext,'
         " flag boolean)", pgcell_name=None, other_bytes=OIDS),
    Kind("odder", "odder", f"{ODDER}::odder", ("ROW(NULL, NULL, NULL, NULL)", "ROW('', '{}', '', '{NULL}')"),
         copy_name="(id bytea, moods enum[], code varchar(40), codes varchar(40)[])", pgcell_name=None,
         other_bytes=OIDS),
    Kind("mood", '"Mood"', MOOD, copy_name="enum", has_pgcell_arrays=False, other_array_bytes=OIDS),
    Kind("label", "label", "(enum_range(NULL::label))[i % 40 + 1]", copy_name="enum", pgcell_name=None, other_array_bytes=OIDS),
    Kind("glad", "glad", "(ARRAY['Ok', 'Happy'])[i % 2 + 1]::glad", copy_name="enum", pgcell_name=None, other_array_bytes=OIDS),
    Kind("session", '"SessionId"', BYTES, ("''",), copy_name="bytea", has_pgcell_arrays=False, other_array_bytes=OIDS),
    Kind("shorter", "shorter", CODE, ("''",), copy_name="character varying(40)", pgcell_name=None, other_array_bytes=OIDS),
]
YEARS = "dates and timestamps of years outside -9999 to 9999"
DIMENSIONS = "arrays of several dimensions"
# Values that copy_read does not have: the name, the value, the fault, and the limit.
BEYOND = [
    ("date", "date '10000-01-01'", "value too large to decode", YEARS),
    ("date", "date '5874897-12-31'", "value too large to decode", YEARS),
    ("timestamptz", "timestamptz '10000-01-01'", "value too large to decode", YEARS),
    ("time", "time '24:00:00'", "value too large to decode", "TIME 24:00:00"),
    ("int4[]", "ARRAY[[1, 2], [3, 4]]", "array contains too many dimensions", DIMENSIONS),
    ("text[]", "ARRAY[[['a']]]", "array contains too many dimensions", DIMENSIONS),
    ("int4[]", "'[0:1]={1,2}'::int4[]", "array with a lower bound other than 1", "lower bounds other than 1, in a text"),
]
# Values that pgcell does not have by a name: the name, the cell, the fault's number, and the limit.
INFINITE = "infinities but by the names in _inf"
PGCELL_BEYOND = [
    ("date", "date_send('infinity')", 11, INFINITE),
    ("timestamp", "timestamp_send('-infinity')", 11, INFINITE),
    ("timestamptz", "timestamptz_send('infinity')", 11, INFINITE),
    ("date_inf", "date_send('10000-01-01')", 11, YEARS),
    ("timestamp_inf", "timestamp_send('294276-12-31')", 11, YEARS),
    ("time", "time_send('24:00:00')", 11, "TIME 24:00:00"),
    ("int4[]", "array_send(ARRAY[[1, 2], [3, 4]])", 8, DIMENSIONS),
    ("item", 'record_send(ROW(NULL, 1, 2)::"InventoryItem")', 2, "NULL in a field of a struct that is no Option"),
]
INTEGERS = (" 1", "1 ", "\t-7 ", "+7", "007", "-0")
OFFSETS = ("+02", "-03:30", "+0530", "Z", "z", " +02", " UTC", "UTC", "+05:30:15", "-15:59")
CLOCKS = (" 10:00", " 10:00:59", " 10:00:59.5", "T10:00:59", "T1:2:3.000001", " 10:00:00.000000")
# Texts that people's files have, and copy_write takes as the server does.
FORMS = {
    "bool": ("true", "false", "yes", "no", "on", "off", "1", "0", "y", "n", "TRUE", "False", " t ", "tr", "of", "fal", "T", "F"),
    "int2": INTEGERS, "int4": INTEGERS, "int8": INTEGERS, "oid": (" 1", "2 ", "+7", "007"),
    "int4[]": ("{1,NULL}", "{}", '{"1"," 2"}'),
    "float4": (" 1.5", "1.5 ", "1E5", ".5", "5.", "+1", "nan", "inf", "-Infinity", "INFINITY"),
    "float8": (" 1.5", "1.5 ", "1E5", ".5", "5.", "+1", "nan", "inf", "-Infinity", "INFINITY"),
    "numeric": (" 1.50", "1.5 ", ".5", "5.", "+1", "nan", "inf", "-Infinity", "-0.0", "1e3", "1.5e-3", "-1.50E+1"),
    "bytea": ("\\x", "\\xAb", "abc", "a\\\\b", "\\000\\377", "", "\\134"),
    "inet": ("1.2.3.4", "1.2.3.4/24", "1.2.3.4/08", "::1/8", "FE80::1", "::ffff:1.2.3.4"),
    "cidr": ("10.0.0.0/8", "10.0.0.0/08", "1.2.3.4", "fe80::/10"),
    "macaddr": ("08:00:2b:01:02:03", "08:00:2B:01:02:03"),
    "macaddr8": ("08:00:2b:01:02:03:04:05", "08-00-2B-01-02-03-04-05", "08002b:0102030405", "0800.2b01.0203.0405", "08002b0102030405",
                 "08:00:2b:01:02:03:04:05:"),
    "uuid": ("A0EEBC999C0B4EF8BB6D6BB9BD380A11", "{a0eebc99-9c0b-4ef8-bb6d-6bb9bd380a11}"),
    "pg_lsn": ("a/b", "00000001/00000002"),
    "date": ("1999-01-08", "1999-1-8", " 1999-01-08 ", "0044-03-15 BC", "infinity", " -infinity "),
    "time": ("04:05:06.789", "04:05", "4:5:6", " 04:05:06 "),
    "timestamp": ("2000-01-31", " 2000-01-31 10:00 ", "0044-03-15 BC", *(f"2000-01-31{it}" for it in CLOCKS), "0044-03-15 10:00 BC"),
    "timestamptz": (*(f"2000-01-31{clock}{offset}" for clock in CLOCKS for offset in OFFSETS), "2000-01-31 10:00+02 BC"),
    "interval": ("1 day", "-1 mons +2 days", "04:05:06", "1 year 2 mons 3 days 04:05:06.5"),
}
# Texts that the server alone takes (docs/DIFFERENCES.md).
LEFT_OUT = {
    "oid": ("-1",),
    "float8": ("0x1p3", "nan(0x1)"), "numeric": ("1e 5",),
    "bytea": ("\\x 00 01",),
    "inet": ("10.1", "10/8"), "cidr": ("10", "10.1.2"),
    "macaddr": ("08-00-2b-01-02-03", "08002b:010203", "0800.2b01.0203", "08002b010203", "8:0:2b:1:2:3", " 08:00:2b:01:02:03"),
    "macaddr8": ("08:00:2b:01:02:03", "08002b0102030405x", " 08:00:2b:01:02:03:04:05"),
    "uuid": ("a0ee-bc99-9c0b-4ef8-bb6d-6bb9-bd38-0a11", "{a0eebc999c0b4ef8bb6d6bb9bd380a11}"),
    "date": ("19990108", "January 8, 1999", "1999.008", "J2451187", "1/8/1999", "today", "epoch", "2000-01-31 10:00"),
    "time": ("040506", "04:05:06 PM", "allballs", "04:05:06.7890005"),
    "timestamp": ("20000131T100000", "2000-01-31 10:00 PM", "Jan 31 10:00 2000", "2000-01-31 10:00:00.1234567", "2000-01-31 10:00+02"),
    "timestamptz": ("2000-01-31 10:00", "2000-01-31 10:00 PST", "2000-01-31 10:00 Europe/Berlin", "2000-01-31 10:00+2"),
    "interval": ("1-2", "P1Y2M", "1 week", "1.5 days", "1 day ago", "@ 1 day", "1 hour"),
    "int4[]": ("{ 1, 2 }", "{{1},{2}}", "[0:1]={1,2}"),
    "varbit": ("b101", "x1f"),
    "hstore": ("a=>1", "a=>b, c=>d"),
}
