//! The program pgcell over the conversions of the crate postgres-types. The cell of a line is decoded, its value is read
//! and written again, and what is written is encoded. The lines and their answers are those of docs/SPECIFICATION.md,
//! but where the conversions panic: then the answer is "panics". The crate's faults have no numbers, so each is 0.

use crate::conversions::dates::{Date, DateInf, DateTime, Time, Timestamp, TimestampInf, UnixTime};
use crate::conversions::frames::rewrite;
use crate::conversions::maps::Map;
use crate::conversions::numbers::{MacAddress, PgLsn, Uuid};
use crate::conversions::texts::BitVec;
use crate::conversions::types::Type;
use crate::conversions::user_types::{hstore_type, item_array_type, item_type, ltree_type, mood_type, session_type};
use crate::conversions::user_values::{InventoryItem, Mood, SessionId};
use crate::conversions::{Buf, Fault, FromSql, IsNull, ToSql};
use std::env;
use std::io::{self, BufRead, BufWriter, Write};
use std::net::IpAddr;
use std::panic::{self, AssertUnwindSafe};
use std::sync::LazyLock;

/// Writes a line at a time, since the crate may abort the process. `PROGRAM buffered` writes many at once, as pgcell does.
pub fn main() -> Result<(), String> {
    let (input, output) = (io::stdin().lock(), io::stdout().lock());
    let ended = if env::args().len() > 1 { run(input, BufWriter::new(output)) } else { run(input, output) };
    ended.map_err(|error| error.to_string())
}

/// Answers each line of the input.
fn run(mut input: impl BufRead, mut output: impl Write) -> io::Result<()> {
    let mut line = Vec::new();
    while input.read_until(b'\n', &mut line)? > 0 {
        answer(line.strip_suffix(b"\n").unwrap_or(&line), &mut output)?;
        line.clear();
    }
    output.flush()
}

fn answer(line: &[u8], output: &mut impl Write) -> io::Result<()> {
    let words = str::from_utf8(line).ok().and_then(|line| line.split_once(' '));
    match words {
        Some(("norm", words)) => answer_norm(words, output),
        Some(("type", digits)) => answer_type(digits, output),
        Some(("lsn", text)) => answer_lsn(text, output),
        _ => output.write_all(b"bad line\n"),
    }
}

fn answer_norm(words: &str, output: &mut impl Write) -> io::Result<()> {
    let work = || parse_norm(words).and_then(|(base, form, cell)| norm(base, form, cell.as_deref()));
    let Ok(rewritten) = panic::catch_unwind(AssertUnwindSafe(work)) else {
        return output.write_all(b"panics\n");
    };
    match rewritten {
        None => output.write_all(b"bad line\n"),
        Some(Err(_)) => output.write_all(b"refused 0\n"),
        Some(Ok(None)) => output.write_all(b"null\n"),
        Some(Ok(Some(bytes))) if bytes.is_empty() => output.write_all(b"ok -\n"),
        Some(Ok(Some(bytes))) => {
            output.write_all(b"ok ")?;
            output.write_all(&encode(&bytes))?;
            output.write_all(b"\n")
        }
    }
}

fn answer_type(digits: &str, output: &mut impl Write) -> io::Result<()> {
    match parse_oid(digits).map(Type::from_oid) {
        None => output.write_all(b"bad line\n"),
        Some(None) => output.write_all(b"none\n"),
        Some(Some(ty)) => writeln!(output, "ok {}", ty.name()),
    }
}

fn answer_lsn(text: &str, output: &mut impl Write) -> io::Result<()> {
    match text.parse::<PgLsn>() {
        Ok(lsn) => writeln!(output, "ok {lsn}"),
        Err(_) => output.write_all(b"bad lsn\n"),
    }
}

// What a line asks for.

/// What follows a base name.
#[derive(Clone, Copy)]
enum Form {
    Plain,
    Optional,
    Array,
    OptionalArray,
}

/// The base name, the form and the cell, of which `None` is NULL.
fn parse_norm(words: &str) -> Option<(&str, Form, Option<Vec<u8>>)> {
    let (name, cell) = words.split_once(' ')?;
    let (base, form) = parse_name(name);
    let cell = match cell {
        "NULL" => None,
        "-" => Some(Vec::new()),
        "" => return None,
        digits => Some(decode(digits)?),
    };
    Some((base, form, cell))
}

fn parse_name(name: &str) -> (&str, Form) {
    if let Some(base) = name.strip_suffix("?[]") {
        (base, Form::OptionalArray)
    } else if let Some(base) = name.strip_suffix("[]") {
        (base, Form::Array)
    } else if let Some(base) = name.strip_suffix('?') {
        (base, Form::Optional)
    } else {
        (name, Form::Plain)
    }
}

/// The OID that 1 to 10 decimal digits write.
fn parse_oid(digits: &str) -> Option<u32> {
    if digits.len() > 10 || digits.starts_with('+') {
        return None;
    }
    digits.parse().ok()
}

/// The bytes that an even number of hexadecimal digits spell.
fn decode(digits: &str) -> Option<Vec<u8>> {
    let (pairs, []) = digits.as_bytes().as_chunks() else {
        return None;
    };
    let mut bytes = Vec::with_capacity(pairs.len());
    for &[high, low] in pairs {
        bytes.push(nibble(high)? << 4 | nibble(low)?);
    }
    Some(bytes)
}

fn nibble(digit: u8) -> Option<u8> {
    match digit {
        b'0'..=b'9' => Some(digit - b'0'),
        b'a'..=b'f' => Some(digit - b'a' + 10),
        b'A'..=b'F' => Some(digit - b'A' + 10),
        _ => None,
    }
}

/// The bytes in lower-case hexadecimal digits.
fn encode(bytes: &[u8]) -> Vec<u8> {
    const DIGITS: &[u8; 16] = b"0123456789abcdef";
    let mut digits = Vec::with_capacity(2 * bytes.len());
    for byte in bytes {
        digits.extend_from_slice(&[DIGITS[usize::from(byte >> 4)], DIGITS[usize::from(byte & 15)]]);
    }
    digits
}

// Rewriting a cell by a name.

/// The bytes that a cell is rewritten as, or `None` for NULL.
type Rewritten = Result<Option<Buf>, Fault>;

static LTREE: LazyLock<Type> = LazyLock::new(ltree_type);
static HSTORE: LazyLock<Type> = LazyLock::new(hstore_type);
static ITEM: LazyLock<Type> = LazyLock::new(item_type);
static ITEM_ARRAY: LazyLock<Type> = LazyLock::new(item_array_type);
static MOOD: LazyLock<Type> = LazyLock::new(mood_type);
static SESSION: LazyLock<Type> = LazyLock::new(session_type);

/// The base names: of each the Rust type, the Postgres type and, where it has arrays, the Postgres type of these.
macro_rules! base_names {
    ($($name:literal: $rust:ty, $own:expr, $arrays:expr;)*) => {
        /// What the cell is rewritten as, or `None` where there is no such name.
        fn norm(base: &str, form: Form, cell: Option<&[u8]>) -> Option<Rewritten> {
            match base {
                $($name => norm_as::<$rust>($own, $arrays, form, cell),)*
                _ => None,
            }
        }
    };
}

base_names! {
    "bool": bool, &Type::BOOL, Some(&Type::BOOL_ARRAY);
    "char": i8, &Type::CHAR, Some(&Type::CHAR_ARRAY);
    "int2": i16, &Type::INT2, Some(&Type::INT2_ARRAY);
    "int4": i32, &Type::INT4, Some(&Type::INT4_ARRAY);
    "int8": i64, &Type::INT8, Some(&Type::INT8_ARRAY);
    "oid": u32, &Type::OID, Some(&Type::OID_ARRAY);
    "text": String, &Type::TEXT, Some(&Type::TEXT_ARRAY);
    "varchar": String, &Type::VARCHAR, Some(&Type::VARCHAR_ARRAY);
    "bpchar": String, &Type::BPCHAR, Some(&Type::BPCHAR_ARRAY);
    "name": String, &Type::NAME, Some(&Type::NAME_ARRAY);
    "unknown": String, &Type::UNKNOWN, None;
    "ltree": String, &LTREE, None;
    "bytea": Vec<u8>, &Type::BYTEA, Some(&Type::BYTEA_ARRAY);
    "bit": BitVec, &Type::BIT, Some(&Type::BIT_ARRAY);
    "varbit": BitVec, &Type::VARBIT, Some(&Type::VARBIT_ARRAY);
    "addr": IpAddr, &Type::INET, Some(&Type::INET_ARRAY);
    "macaddr": MacAddress, &Type::MACADDR, Some(&Type::MACADDR_ARRAY);
    "uuid": Uuid, &Type::UUID, Some(&Type::UUID_ARRAY);
    "pg_lsn": PgLsn, &Type::PG_LSN, Some(&Type::PG_LSN_ARRAY);
    "date": Date, &Type::DATE, Some(&Type::DATE_ARRAY);
    "date_inf": DateInf<Date>, &Type::DATE, Some(&Type::DATE_ARRAY);
    "time": Time, &Type::TIME, Some(&Type::TIME_ARRAY);
    "timestamp": DateTime, &Type::TIMESTAMP, Some(&Type::TIMESTAMP_ARRAY);
    "timestamp_inf": TimestampInf<DateTime>, &Type::TIMESTAMP, Some(&Type::TIMESTAMP_ARRAY);
    "timestamptz": Timestamp, &Type::TIMESTAMPTZ, Some(&Type::TIMESTAMPTZ_ARRAY);
    "unix": UnixTime, &Type::TIMESTAMP, Some(&Type::TIMESTAMP_ARRAY);
    "unix_inf": TimestampInf<UnixTime>, &Type::TIMESTAMP, Some(&Type::TIMESTAMP_ARRAY);
    "int2vector": Vec<i16>, &Type::INT2_VECTOR, None;
    "oidvector": Vec<u32>, &Type::OID_VECTOR, None;
    "hstore": Map, &HSTORE, None;
    "item": InventoryItem, &ITEM, Some(&ITEM_ARRAY);
    "mood": Mood, &MOOD, None;
    "session": SessionId, &SESSION, None;
}

/// What the cell is rewritten as by a `T` in that form, or `None` where there are no arrays.
fn norm_as<T>(own: &Type, arrays: Option<&Type>, form: Form, cell: Option<&[u8]>) -> Option<Rewritten>
where
    T: for<'a> FromSql<'a> + ToSql,
{
    Some(match form {
        Form::Plain => rewritten::<T>(own, cell),
        Form::Optional => rewritten::<Option<T>>(own, cell),
        Form::Array => rewritten::<Vec<T>>(arrays?, cell),
        Form::OptionalArray => rewritten::<Vec<Option<T>>>(arrays?, cell),
    })
}

fn rewritten<T: for<'a> FromSql<'a> + ToSql>(ty: &Type, cell: Option<&[u8]>) -> Rewritten {
    let mut out = Buf::new();
    let is_null = rewrite::<T>(ty, cell, &mut out)?;
    Ok(matches!(is_null, IsNull::No).then_some(out))
}
