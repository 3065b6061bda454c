//! The work of crates/benchmark over the conversions of the crate postgres-types.
//!
//! `PROGRAM CASE TURNS` does a case so many times, and prints its name and the checksum of what it made. `PROGRAM
//! cases` prints the names of the cases. Without arguments it does each case once, but for those of a megabyte and more.
//!
//! Where `ONLY` of the program names a case, the program has that case alone.

use crate::ONLY;
use crate::conversions::dates::{
    Date, DateInf, DateTime, EPOCH_SECS, Time, Timestamp, TimestampInf, UnixTime, date, date_time, time, timestamp,
    unix_time,
};
use crate::conversions::frames::{frame_to_sql, in_order, params_to_sql, read_value, read_values, rewrite};
use crate::conversions::json::{Number, Value};
use crate::conversions::maps::Map;
use crate::conversions::numbers::{MacAddress, PgLsn, Uuid};
use crate::conversions::texts::BitVec;
use crate::conversions::types::Type;
use crate::conversions::user_types::{hstore_type, item_type, lists_type, ltree_type};
use crate::conversions::user_values::InventoryItem;
use crate::conversions::{Buf, Fault, FromSql, ToSql};
use std::array;
use std::env;
use std::hint::black_box;
use std::iter;
use std::net::IpAddr;

// The values of the cases, which follow one another without a pattern.

/// How many values a case of a conversion has.
pub const COUNT: usize = 1_000;

/// What a value is made of: its place, and a number without a pattern.
#[derive(Clone, Copy)]
pub struct Seed {
    place: u32,
    number: i32,
}

impl Seed {
    fn next(self) -> Seed {
        Seed { place: self.place + 1, number: self.number.wrapping_mul(1_103_515_245).wrapping_add(12_345) }
    }

    fn bytes(self) -> [u8; 4] {
        self.number.to_be_bytes()
    }

    /// The number's bytes, over and over.
    pub fn repeated<const N: usize>(self) -> [u8; N] {
        array::from_fn(|place| self.bytes()[place % 4])
    }

    fn text(self) -> String {
        format!("text {}", self.place)
    }

    /// What is made of the seed, or `None` at every eighth place.
    fn option<T>(self, make: impl Fn(Seed) -> T) -> Option<T> {
        (self.place % 8 != 7).then(|| make(self))
    }

    /// A finite number.
    fn float(self) -> f64 {
        f64::from_bits(u64::from_be_bytes(self.repeated()) & 0xbfff_ffff_ffff_ffff)
    }

    /// A date from 2000 to 2255, in the first eight months.
    fn date(self) -> Date {
        let [a, b, c, _] = self.bytes();
        date(i16::from(a) + 2_000, (b & 7) as i8 + 1, (c & 15) as i8 + 1)
    }

    /// A time of day of whole microseconds.
    fn time(self) -> Time {
        let [a, b, c, _] = self.bytes();
        time((a & 15) as i8, (b & 31) as i8, (c & 31) as i8, self.nanos())
    }

    /// Seconds from 1970, within 68 years of 2000.
    fn secs(self) -> i64 {
        i64::from(self.number) + EPOCH_SECS
    }

    fn nanos(self) -> i32 {
        let [_, _, c, d] = self.bytes();
        i32::from(u16::from_be_bytes([c, d])) * 1_000
    }

    fn unix_time(self) -> UnixTime {
        unix_time(self.secs(), self.nanos().unsigned_abs())
    }

    /// An object of five members, of 80 to 90 bytes as a text.
    fn object(self) -> Value {
        let tags = vec![Value::String("a tag".to_owned()), Value::String("\u{e9}".to_owned()), Value::Null];
        let members = [
            ("id", Value::Number(Number::from(i64::from(self.place)))),
            ("name", Value::String(self.text())),
            ("tags", Value::Array(tags)),
            ("seen", Value::Bool(true)),
            ("balance", Value::Number(Number::from(i64::from(self.number)))),
        ];
        Value::Object(members.into_iter().map(|(key, value)| (key.to_owned(), value)).collect())
    }

    pub fn item(self) -> InventoryItem {
        let price = self.option(|seed| i64::from(seed.number));
        InventoryItem { name: self.text(), supplier_id: self.number, price }
    }
}

/// So many values, each made of its seed.
pub fn values<T>(count: usize, make: impl Fn(Seed) -> T) -> Vec<T> {
    let first = Seed { place: 0, number: 1 };
    iter::successors(Some(first), |seed| Some(seed.next())).take(count).map(make).collect()
}

pub fn numbers(count: usize) -> Vec<i32> {
    values(count, |seed| seed.number)
}

pub fn texts() -> Vec<String> {
    values(COUNT, Seed::text)
}

fn map(count: usize) -> Map {
    values(count, |seed| (format!("key {}", seed.number), seed.option(Seed::text))).into_iter().collect()
}

fn document(count: usize) -> Value {
    Value::Array(values(count, Seed::object))
}

// Reading and writing over and over. What is the same each turn is hidden from the optimizer, which could else do the
// work once.

pub fn mix(sum: u64, number: u64) -> u64 {
    sum.wrapping_mul(1_099_511_628_211) ^ number
}

pub fn mix_bytes(sum: u64, bytes: &[u8]) -> u64 {
    bytes.iter().fold(sum, |sum, byte| mix(sum, u64::from(*byte)))
}

fn append_frames<T: ToSql>(values: &[T], ty: &Type, out: &mut Buf) -> Result<(), Fault> {
    for value in values {
        frame_to_sql(out, |out| value.to_sql_checked(ty, out))?;
    }
    Ok(())
}

pub fn frames_of<T: ToSql>(values: &[T], ty: &Type) -> Result<Buf, Fault> {
    let mut out = Buf::new();
    append_frames(values, ty, &mut out)?;
    Ok(out)
}

/// Writes so many times, each time into the same buffer: the sum of the lengths, and the last frames.
fn write_turns(turns: u32, write: impl Fn(&mut Buf) -> Result<(), Fault>) -> Result<(u64, Buf), Fault> {
    let mut out = Buf::new();
    let mut sum = 0;
    for _ in 0..turns {
        out.clear();
        write(&mut out)?;
        sum = mix(sum, out.len() as u64);
    }
    Ok((sum, out))
}

/// Reads the values from their frames so many times, each time into the same list.
fn read_turns<'a, T: FromSql<'a> + ToSql>(frames: &'a [u8], count: usize, ty: &Type, turns: u32) -> Result<u64, Fault> {
    let mut values: Vec<T> = Vec::new();
    for _ in 0..turns {
        values.clear();
        let (mut buf, ty) = (black_box(frames), black_box(ty));
        assert!(<T as FromSql>::accepts(ty), "the type is accepted");
        for _ in 0..count {
            values.push(read_value(ty, &mut buf)?);
        }
    }
    Ok(mix_bytes(0, &in_order(ty, &frames_of(&values, ty)?)))
}

/// Whether the program has that case: each one, or it is the only one.
const fn has(case: &str) -> bool {
    let (only, case) = (ONLY.as_bytes(), case.as_bytes());
    let mut place = 0;
    while place < only.len() {
        if only.len() != case.len() || only[place] != case[place] {
            return false;
        }
        place += 1;
    }
    true
}

/// The cases of conversions: of each the values, their Postgres type, and the Rust type that is read.
macro_rules! conversions_by_name {
    ($($name:literal: $values:expr, $ty:expr, $read:ty;)*) => {
        const CONVERSIONS: &[&str] = &[$($name),*];

        fn run_conversion(name: &str, reads: bool, turns: u32) -> Result<Option<u64>, Fault> {
            match name {
                $(
                    $name => {
                        let (values, ty) = ($values, $ty);
                        if const { has(concat!("read-", $name)) } && reads {
                            return read_turns::<$read>(&frames_of(&values, &ty)?, values.len(), &ty, turns).map(Some);
                        }
                        if const { has(concat!("write-", $name)) } && !reads {
                            let write = |out: &mut Buf| append_frames(black_box(&values), black_box(&ty), out);
                            let (sum, out) = write_turns(turns, write)?;
                            return Ok(Some(mix_bytes(sum, &in_order(&ty, &out))));
                        }
                    }
                )*
                _ => (),
            }
            Ok(None)
        }
    };
}

conversions_by_name! {
    "bool": values(COUNT, |seed| seed.number > 0), Type::BOOL, bool;
    "char": values(COUNT, |seed| seed.bytes()[0].cast_signed()), Type::CHAR, i8;
    "int2": values(COUNT, |seed| (seed.number >> 16) as i16), Type::INT2, i16;
    "int4": numbers(COUNT), Type::INT4, i32;
    "int8": values(COUNT, |seed| i64::from_be_bytes(seed.repeated())), Type::INT8, i64;
    "oid": values(COUNT, |seed| seed.number.cast_unsigned()), Type::OID, u32;
    "pg_lsn": values(COUNT, |seed| PgLsn::from(u64::from_be_bytes(seed.repeated()))), Type::PG_LSN, PgLsn;
    "int4?": values(COUNT, |seed| seed.option(|seed| seed.number)), Type::INT4, Option<i32>;
    "float8": values(COUNT, Seed::float), Type::FLOAT8, f64;
    "text": texts(), Type::TEXT, String;
    "text-borrowed": texts(), Type::TEXT, &str;
    "ltree": texts(), ltree_type(), String;
    "bytea": values(COUNT, |seed| seed.repeated::<8>().to_vec()), Type::BYTEA, Vec<u8>;
    "bytea-borrowed": values(COUNT, |seed| seed.repeated::<8>().to_vec()), Type::BYTEA, &[u8];
    "varbit": values(COUNT, |seed| BitVec::from_bytes(&seed.repeated::<8>())), Type::VARBIT, BitVec;
    "addr": values(COUNT, |seed| IpAddr::from(seed.bytes())), Type::INET, IpAddr;
    "macaddr": values(COUNT, |seed| MacAddress::new(seed.repeated())), Type::MACADDR, MacAddress;
    "uuid": values(COUNT, |seed| Uuid::from_bytes(seed.repeated())), Type::UUID, Uuid;
    "date": values(COUNT, Seed::date), Type::DATE, Date;
    "date_inf": values(COUNT, |seed| DateInf::Value(seed.date())), Type::DATE, DateInf<Date>;
    "time": values(COUNT, Seed::time), Type::TIME, Time;
    "timestamp": values(COUNT, |seed| date_time(seed.date(), seed.time())), Type::TIMESTAMP, DateTime;
    "timestamptz": values(COUNT, |seed| timestamp(seed.secs(), seed.nanos())), Type::TIMESTAMPTZ, Timestamp;
    "unix": values(COUNT, Seed::unix_time), Type::TIMESTAMP, UnixTime;
    "unix_inf": values(COUNT, |seed| TimestampInf::Value(seed.unix_time())), Type::TIMESTAMP, TimestampInf<UnixTime>;
    "hstore-5": [map(5)], hstore_type(), Map;
    "hstore-1000": [map(1_000)], hstore_type(), Map;
    "jsonb-1kB": [document(12)], Type::JSONB, Value;
    "jsonb-100kB": [document(1_150)], Type::JSONB, Value;
    "jsonb-10MB": [document(115_000)], Type::JSONB, Value;
    "item": values(COUNT, Seed::item), item_type(), InventoryItem;
    "int4[]-10": [numbers(10)], Type::INT4_ARRAY, Vec<i32>;
    "int4[]-1000": [numbers(1_000)], Type::INT4_ARRAY, Vec<i32>;
    "int4[]-100000": [numbers(100_000)], Type::INT4_ARRAY, Vec<i32>;
    "int4[]-1000000": [numbers(1_000_000)], Type::INT4_ARRAY, Vec<i32>;
    "text[]-1000": [values(1_000, |seed| seed.option(Seed::text))], Type::TEXT_ARRAY, Vec<Option<String>>;
    "int4[][]-1000x100": [values(1_000, |_| numbers(100))], lists_type(), Vec<Vec<i32>>;
    "int4-array-10": [<[i32; 10]>::try_from(numbers(10)).expect("ten")], Type::INT4_ARRAY, [i32; 10];
}

// Rows of several columns, cells that are rewritten, and types.

/// The eight parameters, of which the fifth is NULL.
fn params() -> [Box<dyn ToSql>; 8] {
    [
        Box::new(1_000_000i32),
        Box::new(-5_000_000_000i64),
        Box::new(true),
        Box::new(4_000_000_000u32),
        Box::new(None::<i32>),
        Box::new("a name".to_owned()),
        Box::new(77i16),
        Box::new("a longer text of a parameter".to_owned()),
    ]
}

#[rustfmt::skip]
static TYPES: [Type; 8] = [
    Type::INT4, Type::INT8, Type::BOOL, Type::OID, Type::INT4, Type::TEXT, Type::INT2, Type::TEXT,
];

fn bind(params: &[Box<dyn ToSql>], out: &mut Buf) -> Result<(), Fault> {
    params_to_sql(params, &TYPES, out).map_err(|(_, fault)| fault)
}

/// Reads the row of the parameters: the sum of what its columns hold.
fn read_row(row: &[u8]) -> Result<u64, Fault> {
    let mut buf = row;
    let first: i32 = read_value(&Type::INT4, &mut buf)?;
    let second: i64 = read_value(&Type::INT8, &mut buf)?;
    let third: bool = read_value(&Type::BOOL, &mut buf)?;
    let fourth: u32 = read_value(&Type::OID, &mut buf)?;
    let fifth: Option<i32> = read_value(&Type::INT4, &mut buf)?;
    let sixth: &str = read_value(&Type::TEXT, &mut buf)?;
    let seventh: i16 = read_value(&Type::INT2, &mut buf)?;
    let eighth: &str = read_value(&Type::TEXT, &mut buf)?;
    let sum = mix(mix(u64::from(fourth), u64::from(third)), u64::from(fifth.is_none()));
    let sum = mix(mix(sum, second.cast_unsigned()), u64::from(first.unsigned_abs()));
    let sum = mix(mix(sum, sixth.len() as u64), u64::from(seventh.unsigned_abs()));
    Ok(mix(sum, eighth.len() as u64))
}

fn read_rows(turns: u32) -> Result<u64, Fault> {
    let mut row = Buf::new();
    bind(&params(), &mut row)?;
    (0..turns).try_fold(0, |sum, _| Ok(mix(sum, read_row(black_box(&row))?)))
}

/// Reads eight numbers at once.
fn read_runs(turns: u32) -> Result<u64, Fault> {
    let frames = frames_of(&numbers(8), &Type::INT4)?;
    let mut sum = 0;
    for _ in 0..turns {
        let mut buf: &[u8] = black_box(&frames);
        let run: Vec<i32> = read_values(&Type::INT4, 8, &mut buf)?;
        for number in &run {
            sum = mix(sum, u64::from(number.unsigned_abs()));
        }
    }
    Ok(sum)
}

/// Rewrites the cell of each value.
fn rewrite_turns<T: for<'a> FromSql<'a> + ToSql>(values: &[T], ty: &Type, turns: u32) -> Result<u64, Fault> {
    let frames = frames_of(values, ty)?;
    let mut buf: &[u8] = &frames;
    let cells: Vec<&[u8]> = read_values(&Type::BYTEA, values.len(), &mut buf)?;
    let (sum, out) = write_turns(turns, |out| {
        let ty = black_box(ty);
        black_box(&cells).iter().try_for_each(|cell| rewrite::<T>(ty, Some(cell), out).map(drop))
    })?;
    Ok(mix_bytes(sum, &out))
}

fn copies(ty: Type, turns: u32) -> u64 {
    let copy = (0..turns).fold(ty, |ty, _| black_box(&ty).clone());
    u64::from(copy.oid())
}

/// Compares a type with those of eight numbers.
fn comparisons(turns: u32) -> u64 {
    let types = [Type::INT4, Type::INT8, Type::BOOL, Type::OID, Type::TEXT, Type::INT2, Type::UUID, Type::JSONB];
    let mut sum = 0;
    for turn in 0..turns {
        for ty in black_box(&types) {
            sum = mix(sum, u64::from(*ty == Type::TEXT) ^ u64::from(turn));
        }
    }
    sum
}

/// Finds the types of the OIDs from 0 to 2047, one after another. The type is made, not only whether there is one.
fn found(turns: u32) -> u64 {
    (0..turns).fold(0, |sum, turn| mix(sum, u64::from(black_box(Type::from_oid(turn & 2_047)).is_some())))
}

/// Writes the frames of the parameters.
fn write_params(turns: u32) -> Result<u64, Fault> {
    let params = params();
    let (sum, out) = write_turns(turns, |out| bind(black_box(&params), out))?;
    Ok(mix_bytes(sum, &out))
}

/// The cases that are of no conversion.
macro_rules! others_by_name {
    ($($name:literal: $run:expr;)*) => {
        const OTHERS: &[&str] = &[$($name),*];

        fn run_other(name: &str, turns: u32) -> Result<Option<u64>, Fault> {
            match name {
                $($name if const { has($name) } => $run(turns).map(Some),)*
                _ => Ok(None),
            }
        }
    };
}

others_by_name! {
    "row-8": read_rows;
    "values-8": read_runs;
    "params-8": write_params;
    "rewrite-int4": |turns| rewrite_turns(&numbers(COUNT), &Type::INT4, turns);
    "rewrite-text": |turns| rewrite_turns(&texts(), &Type::TEXT, turns);
    "type-clone": |turns| Ok(copies(Type::INT4_ARRAY, turns));
    "type-clone-user": |turns| Ok(copies(hstore_type(), turns));
    "type-eq": |turns| Ok(comparisons(turns));
    "type-from_oid": |turns| Ok(found(turns));
}

// The cases by their names.

/// The conversions that take a megabyte and more, which are done by name alone.
const LARGEST: [&str; 2] = ["jsonb-10MB", "int4[]-1000000"];

fn run(case: &str, turns: u32) -> Result<Option<u64>, Fault> {
    match (case.strip_prefix("read-"), case.strip_prefix("write-")) {
        (Some(name), _) => run_conversion(name, true, turns),
        (_, Some(name)) => run_conversion(name, false, turns),
        _ => run_other(case, turns),
    }
}

/// Does the case so many times, and prints its name and its checksum.
fn show(case: &str, turns: u32) -> Result<(), String> {
    let sum = run(case, turns).map_err(|fault| format!("{case}: {fault:?}"))?.ok_or("no such CASE")?;
    println!("{case} {sum:016x}");
    Ok(())
}

/// The names of the cases.
fn cases() -> impl Iterator<Item = String> {
    let ways = CONVERSIONS.iter().flat_map(|name| ["read", "write"].map(|way| format!("{way}-{name}")));
    ways.chain(OTHERS.iter().map(|name| name.to_string()))
}

pub fn main() -> Result<(), String> {
    let words: Vec<String> = env::args().skip(1).collect();
    match words.as_slice() {
        [] => {
            let is_small = |case: &String| !LARGEST.iter().any(|name| case.ends_with(name));
            cases().filter(is_small).try_for_each(|case| show(&case, 1))
        }
        [word] if word == "cases" => {
            cases().for_each(|case| println!("{case}"));
            Ok(())
        }
        [case, turns] => show(case, turns.parse().map_err(|_| "TURNS is no number")?),
        _ => Err("PROGRAM [CASE TURNS]".to_owned()),
    }
}
