//! Reading and writing cells by the library for C and by postgres-protocol, in one process over the same values.
//!
//! `PROGRAM SIDE CASE TURNS` does a case so many times by `c` or by `crate`, and prints its name and its checksum.
//! `PROGRAM cases` prints the names of the cases and how many items a turn of each has.

use crate::cases::{COUNT, Seed, frames_of, mix, mix_bytes, numbers, texts, values};
use crate::conversions::frames::read_values;
use crate::conversions::types::Type;
use crate::conversions::user_types::item_type;
use crate::conversions::{Buf, Fault, ToSql};
use bytes::BufMut;
use fallible_iterator::FallibleIterator;
use postgres_protocol::types;
use postgres_types::private::{read_be_i32, read_value};
use std::env;
use std::hint::black_box;

/// The functions of include/pg_cells.h that are called here.
mod c {
    #[repr(C)]
    #[derive(Default)]
    pub struct Span {
        pub offset: usize,
        pub len: usize,
    }

    #[repr(C)]
    #[derive(Default)]
    pub struct Timestamp {
        pub microseconds: i64,
        pub infinity: i32,
    }

    #[repr(C)]
    #[derive(Default)]
    pub struct Walk {
        pub left: usize,
        pub offset: usize,
    }

    #[repr(C)]
    #[derive(Default)]
    pub struct Element {
        pub is_null: u32,
        pub bytes: Span,
    }

    #[repr(C)]
    #[derive(Default)]
    pub struct Field {
        pub oid: u32,
        pub value: Element,
    }

    #[link(name = "pg_cells_c", kind = "static")]
    unsafe extern "C" {
        pub fn pgc_int4_read(cell: *const u8, len: usize, value: *mut i32) -> u32;
        pub fn pgc_int8_read(cell: *const u8, len: usize, value: *mut i64) -> u32;
        pub fn pgc_text_read(cell: *const u8, len: usize, text: *mut Span) -> u32;
        pub fn pgc_timestamp_read(cell: *const u8, len: usize, timestamp: *mut Timestamp) -> u32;
        pub fn pgc_int4_write(value: i32, out: *mut u8, room: usize) -> usize;
        pub fn pgc_int8_write(value: i64, out: *mut u8, room: usize) -> usize;
        pub fn pgc_text_write(text: *const u8, len: usize, out: *mut u8, room: usize) -> usize;
        pub fn pgc_timestamp_write(microseconds: i64, out: *mut u8, room: usize) -> usize;
        pub fn pgc_array_begin(cell: *const u8, len: usize, walk: *mut Walk) -> u32;
        pub fn pgc_array_next(cell: *const u8, len: usize, walk: *mut Walk, element: *mut Element) -> u32;
        pub fn pgc_record_begin(cell: *const u8, len: usize, walk: *mut Walk) -> u32;
        pub fn pgc_record_next(cell: *const u8, len: usize, walk: *mut Walk, field: *mut Field) -> u32;
    }
}

/// The values that are written.
struct Values {
    numbers: Vec<i32>,
    long_numbers: Vec<i64>,
    texts: Vec<String>,
}

fn long_number(seed: Seed) -> i64 {
    i64::from_be_bytes(seed.repeated())
}

impl Values {
    fn new() -> Values {
        Values { numbers: numbers(COUNT), long_numbers: values(COUNT, long_number), texts: texts() }
    }
}

fn value_or(fault: u32) -> Result<(), Fault> {
    if fault == 0 { Ok(()) } else { Err(format!("fault {fault}").into()) }
}

// Reading: what a cell adds to the sum.

/// Reads a cell by a function for C, into a variable that it is handed.
macro_rules! read_by_c {
    ($read:ident, $default:expr, $sum:expr) => {
        |cell: &[u8]| {
            let mut value = $default;
            // SAFETY: the cell is as long as is said, and the variable is ours.
            value_or(unsafe { c::$read(cell.as_ptr(), cell.len(), &mut value) })?;
            Ok($sum(value))
        }
    };
}

fn walk_array_by_c(cell: &[u8]) -> Result<u64, Fault> {
    let (mut walk, mut element, mut sum) = (c::Walk::default(), c::Element::default(), 0);
    // SAFETY: the cell is as long as is said, and the variables are ours.
    unsafe {
        value_or(c::pgc_array_begin(cell.as_ptr(), cell.len(), &mut walk))?;
        loop {
            match c::pgc_array_next(cell.as_ptr(), cell.len(), &mut walk, &mut element) {
                u32::MAX => return Ok(sum),
                fault => value_or(fault)?,
            }
            let (mut number, bytes) = (0, &element.bytes);
            value_or(c::pgc_int4_read(cell.as_ptr().add(bytes.offset), bytes.len, &mut number))?;
            sum = mix(sum, number as u64);
        }
    }
}

fn walk_array_by_crate(cell: &[u8]) -> Result<u64, Fault> {
    let (mut elements, mut sum) = (types::array_from_sql(cell)?.values(), 0);
    while let Some(element) = elements.next()? {
        sum = mix(sum, types::int4_from_sql(element.ok_or("NULL")?)? as u64);
    }
    Ok(sum)
}

fn walk_record_by_c(cell: &[u8]) -> Result<u64, Fault> {
    let (mut walk, mut field, mut sum) = (c::Walk::default(), c::Field::default(), 0);
    // SAFETY: the cell is as long as is said, and the variables are ours.
    unsafe {
        value_or(c::pgc_record_begin(cell.as_ptr(), cell.len(), &mut walk))?;
        loop {
            match c::pgc_record_next(cell.as_ptr(), cell.len(), &mut walk, &mut field) {
                u32::MAX => return Ok(sum),
                fault => value_or(fault)?,
            }
            let len = if field.value.is_null == 0 { field.value.bytes.len as u64 } else { u64::MAX };
            sum = mix(mix(sum, field.oid.into()), len);
        }
    }
}

/// As the crate's derived conversions do it.
fn walk_record_by_crate(cell: &[u8]) -> Result<u64, Fault> {
    let (mut buf, mut sum) = (cell, 0);
    for _ in 0..read_be_i32(&mut buf)? {
        let oid = read_be_i32(&mut buf)? as u32;
        let value: Option<&[u8]> = read_value(&Type::BYTEA, &mut buf)?;
        sum = mix(mix(sum, oid.into()), value.map_or(u64::MAX, |it| it.len() as u64));
    }
    if buf.is_empty() { Ok(sum) } else { Err("trailing bytes".into()) }
}

/// Reads the cells so many times: the checksum of what they hold.
fn read_turns<T: ToSql>(
    turns: u32,
    (values, ty): (Vec<T>, Type),
    read: impl Fn(&[u8]) -> Result<u64, Fault>,
) -> Result<u64, Fault> {
    let frames = frames_of(&values, &ty)?;
    let cells: Vec<&[u8]> = read_values(&Type::BYTEA, values.len(), &mut &frames[..])?;
    let mut sum = 0;
    for _ in 0..turns {
        for cell in black_box(&cells) {
            sum = mix(sum, read(cell)?);
        }
    }
    Ok(sum)
}

// Writing: a function for C is handed the room that is left, which is reserved before.

/// Writes values by a function for C, one after another.
macro_rules! write_by_c {
    ($field:ident, |$value:ident, $out:ident, $room:ident| $write:expr) => {
        |values: &Values, out: &mut Buf| {
            for $value in &values.$field {
                out.reserve(64);
                let spare = out.chunk_mut();
                let ($out, $room) = (spare.as_mut_ptr(), spare.len());
                // SAFETY: the buffer has that room, and as many bytes of it are written as is answered.
                unsafe {
                    let len = $write;
                    assert!(len <= $room, "the room is enough");
                    out.advance_mut(len);
                }
            }
        }
    };
}

/// Writes values by a function of postgres-protocol.
macro_rules! write_by_crate {
    ($field:ident, |$value:ident, $out:ident| $write:expr) => {
        |values: &Values, $out: &mut Buf| {
            for $value in &values.$field {
                $write;
            }
        }
    };
}

/// Writes the values so many times, each time into the same buffer.
fn write_turns(turns: u32, write: impl Fn(&Values, &mut Buf)) -> Result<u64, Fault> {
    let (values, mut out, mut sum) = (Values::new(), Buf::new(), 0);
    for _ in 0..turns {
        out.clear();
        write(black_box(&values), &mut out);
        sum = mix(sum, out.len() as u64);
    }
    Ok(mix_bytes(sum, &out))
}

// The cases by their names.

/// The cases: how many items a turn has, and what is done in so many turns by the library for C, and by the crate.
macro_rules! cases_by_name {
    ($($name:literal $items:literal: |$turns:ident| $ours:expr, $crates:expr;)*) => {
        const CASES: &[(&str, u32)] = &[$(($name, $items)),*];

        fn run(side: &str, name: &str, turns: u32) -> Option<Result<u64, Fault>> {
            Some(match (name, side) {
                $(
                    ($name, "c") => { let $turns = turns; $ours }
                    ($name, "crate") => { let $turns = turns; $crates }
                )*
                _ => return None,
            })
        }
    };
}

fn int4s() -> (Vec<i32>, Type) {
    (numbers(COUNT), Type::INT4)
}

fn int8s() -> (Vec<i64>, Type) {
    (values(COUNT, long_number), Type::INT8)
}

fn text_values() -> (Vec<String>, Type) {
    (texts(), Type::TEXT)
}

fn list() -> (Vec<Vec<i32>>, Type) {
    (vec![numbers(1_000)], Type::INT4_ARRAY)
}

cases_by_name! {
    "read int4" 1000: |turns|
        read_turns(turns, int4s(), read_by_c!(pgc_int4_read, 0, |it: i32| it as u64)),
        read_turns(turns, int4s(), |cell| Ok(types::int4_from_sql(cell)? as u64));
    "read int8" 1000: |turns|
        read_turns(turns, int8s(), read_by_c!(pgc_int8_read, 0, |it: i64| it as u64)),
        read_turns(turns, int8s(), |cell| Ok(types::int8_from_sql(cell)? as u64));
    "read text" 1000: |turns|
        read_turns(turns, text_values(), read_by_c!(pgc_text_read, c::Span::default(), |it: c::Span| it.len as u64)),
        read_turns(turns, text_values(), |cell| Ok(types::text_from_sql(cell)?.len() as u64));
    "read timestamp" 1000: |turns|
        read_turns(turns, int8s(), read_by_c!(pgc_timestamp_read, c::Timestamp::default(), |it: c::Timestamp| {
            it.microseconds as u64
        })),
        read_turns(turns, int8s(), |cell| Ok(types::timestamp_from_sql(cell)? as u64));
    "walk int4[] of 1,000" 1000: |turns|
        read_turns(turns, list(), walk_array_by_c),
        read_turns(turns, list(), walk_array_by_crate);
    "walk record of 3" 1000: |turns|
        read_turns(turns, (values(COUNT, Seed::item), item_type()), walk_record_by_c),
        read_turns(turns, (values(COUNT, Seed::item), item_type()), walk_record_by_crate);
    "write int4" 1000: |turns|
        write_turns(turns, write_by_c!(numbers, |it, out, room| c::pgc_int4_write(*it, out, room))),
        write_turns(turns, write_by_crate!(numbers, |it, out| types::int4_to_sql(*it, out)));
    "write int8" 1000: |turns|
        write_turns(turns, write_by_c!(long_numbers, |it, out, room| c::pgc_int8_write(*it, out, room))),
        write_turns(turns, write_by_crate!(long_numbers, |it, out| types::int8_to_sql(*it, out)));
    "write text" 1000: |turns|
        write_turns(turns, write_by_c!(texts, |it, out, room| c::pgc_text_write(it.as_ptr(), it.len(), out, room))),
        write_turns(turns, write_by_crate!(texts, |it, out| types::text_to_sql(it, out)));
    "write timestamp" 1000: |turns|
        write_turns(turns, write_by_c!(long_numbers, |it, out, room| c::pgc_timestamp_write(*it, out, room))),
        write_turns(turns, write_by_crate!(long_numbers, |it, out| types::timestamp_to_sql(*it, out)));
}

pub fn main() -> Result<(), String> {
    let words: Vec<String> = env::args().skip(1).collect();
    match words.as_slice() {
        [word] if word == "cases" => CASES.iter().for_each(|(name, items)| println!("{items} {name}")),
        [side, name, turns] => {
            let turns = turns.parse().map_err(|_| "TURNS is no number")?;
            let sum = run(side, name, turns).ok_or("no such CASE")?;
            println!("{name} {:016x}", sum.map_err(|fault| format!("{name}: {fault:?}"))?);
        }
        _ => return Err("PROGRAM SIDE CASE TURNS".to_owned()),
    }
    Ok(())
}
