//! Rows of cells and of what Rust reads of them and writes, by the declarations of pg_cells.rs.
//!
//! Expected values are computed by hand from PostgreSQL's formats. .ci/c_library/*.c have more rows; these are to show
//! that each kind of parameter, and each struct, is declared as the library has it.

mod pg_cells;

use core::ffi::c_void;
use core::fmt::Debug;
use core::mem::{MaybeUninit, size_of};
use pg_cells::*;

type Read<T> = unsafe extern "C" fn(*const c_void, usize, *mut T) -> u32;

/// What a function reads of a cell, or the fault, which leaves the variable as it was.
fn read<T: Copy + Debug + PartialEq>(of: Read<T>, cell: &[u8], before: T) -> Result<T, u32> {
    let mut value = before;
    // SAFETY: the cell and the variable are there, and apart.
    match unsafe { of(cell.as_ptr().cast(), cell.len(), &mut value) } {
        PGC_OK => Ok(value),
        fault => {
            assert_eq!(value, before);
            Err(fault)
        }
    }
}

/// The cell that a function writes: into a buffer that it fills, after one of no bytes says how many.
fn written(write: impl Fn(*mut c_void, usize) -> usize) -> Vec<u8> {
    let mut none = [];
    let mut cell = vec![0x5a; write(none.as_mut_ptr() as *mut c_void, none.len())];
    assert_eq!(write(cell.as_mut_ptr().cast(), cell.len()), cell.len());
    cell
}

fn try_plain_values() {
    assert_eq!(read(pgc_bool_read, &[1], false), Ok(true));
    assert_eq!(read(pgc_int4_read, &[0x80, 0, 0, 0], 0), Ok(i32::MIN));
    assert_eq!(read(pgc_int4_read, &[0; 5], 7), Err(PGC_SIZE));
    assert_eq!(read(pgc_text_read, "né".as_bytes(), PgcSpan::default()), Ok(PgcSpan { offset: 0, len: 3 }));
    let bits = PgcBits { bit_len: 9, bytes: PgcSpan { offset: 4, len: 2 } };
    assert_eq!(read(pgc_varbit_read, &[0, 0, 0, 9, 0xff, 0x80], PgcBits::default()), Ok(bits));
    let date = PgcDate { days: i32::MIN, infinity: -1 };
    assert_eq!(read(pgc_date_read, &[0x80, 0, 0, 0], PgcDate::default()), Ok(date));
    let timestamp = PgcTimestamp { microseconds: -2, infinity: 0 };
    assert_eq!(read(pgc_timestamp_read, &(-2i64).to_be_bytes(), PgcTimestamp::default()), Ok(timestamp));
    let cell = [0, 0, 0, 0, 0, 0, 0, 1, 0, 0, 0, 2, 0, 0, 0, 3];
    let interval = PgcInterval { microseconds: 1, days: 2, months: 3 };
    assert_eq!(read(pgc_interval_read, &cell, PgcInterval::default()), Ok(interval));
    assert_eq!(written(|out, room| unsafe { pgc_interval_write(1, 2, 3, out, room) }), cell);
    assert_eq!(written(|out, room| unsafe { pgc_bool_write(true, out, room) }), [1]);
    assert_eq!(written(|out, room| unsafe { pgc_char_write(-128, out, room) }), [0x80]);
    assert_eq!(written(|out, room| unsafe { pgc_int2_write(-2, out, room) }), [0xff, 0xfe]);
    let [text, other] = ["a.b".as_bytes(), b"\xff"].map(|it| (it.as_ptr().cast::<c_void>(), it.len()));
    assert_eq!(written(|out, room| unsafe { pgc_ltree_write(text.0, text.1, out, room) }), b"\x01a.b");
    assert_eq!(unsafe { pgc_text_write(other.0, other.1, [0u8; 4].as_mut_ptr().cast(), 4) }, PGC_NO_CELL);
    assert_eq!(written(|out, room| unsafe { pgc_varbit_write(4, other.0, other.1, out, room) }), [0, 0, 0, 4, 0xf0]);
    assert_eq!(written(|out, room| unsafe { pgc_fault_text(PGC_SIZE, out, room) }), b"invalid buffer size\0");
}

fn try_structs() {
    let uuid = PgcUuid { bytes: *b"0123456789abcdef" };
    assert_eq!(read(pgc_uuid_read, b"0123456789abcdef", PgcUuid::default()), Ok(uuid));
    assert_eq!(written(|out, room| unsafe { pgc_uuid_write(&uuid, out, room) }), uuid.bytes);
    let macaddr = PgcMacaddr { bytes: [8, 0, 43, 1, 2, 3] };
    assert_eq!(read(pgc_macaddr_read, &[8, 0, 43, 1, 2, 3], PgcMacaddr::default()), Ok(macaddr));
    let mut inet = PgcInet { family: PGC_IPV4, netmask: 24, octets: [0; 16] };
    inet.octets[..4].copy_from_slice(&[192, 168, 0, 1]);
    let cell = [2, 24, 0, 4, 192, 168, 0, 1];
    assert_eq!(read(pgc_inet_read, &cell, PgcInet::default()), Ok(inet));
    assert_eq!(written(|out, room| unsafe { pgc_inet_write(&inet, out, room) }), cell);
}

type Next<T> = unsafe extern "C" fn(*const c_void, usize, *mut PgcWalk, *mut T) -> u32;

/// The items of a cell, of which `begin` reads the head, and the fault that ends them, if one does.
fn walked<T: Debug>(cell: &[u8], begin: Read<PgcWalk>, next: Next<T>) -> Result<Vec<T>, u32> {
    items(cell, read(begin, cell, PgcWalk::default())?, next)
}

/// The items of a walk, and the fault that ends it, if one does.
fn items<T: Debug>(cell: &[u8], mut walk: PgcWalk, next: Next<T>) -> Result<Vec<T>, u32> {
    let mut items = Vec::new();
    loop {
        let mut item = MaybeUninit::uninit();
        // SAFETY: the cell and the variables are there, and apart; with PGC_OK the item is set.
        match unsafe { next(cell.as_ptr().cast(), cell.len(), &mut walk, item.as_mut_ptr()) } {
            PGC_OK => items.push(unsafe { item.assume_init() }),
            PGC_END => return Ok(items),
            fault => return Err(fault),
        }
    }
}

fn try_walks() {
    let element = |offset, len| PgcElement { is_null: 0, bytes: PgcSpan { offset, len } };
    let array = b"\0\0\0\x01\0\0\0\x01\0\0\0\x19\0\0\0\x02\0\0\0\x01\0\0\0\x02ab\xff\xff\xff\xff";
    let begun = read(pgc_array_begin, array, PgcArray::default()).unwrap();
    assert_eq!(begun, PgcArray { walk: PgcWalk { left: 2, offset: 20 }, element_oid: PGC_TEXT_OID });
    let elements = items(array, begun.walk, pgc_array_next).unwrap();
    assert_eq!(elements[0], element(24, 2));
    assert_eq!((elements.len(), elements[1].is_null), (2, 1));
    assert_eq!(items(&array[..27], begun.walk, pgc_array_next), Err(PGC_SIZE));
    let entries = walked(b"\0\0\0\x01\0\0\0\x01a\0\0\0\x01b", pgc_hstore_begin, pgc_hstore_next);
    let entry = PgcEntry { key: PgcSpan { offset: 8, len: 1 }, value: element(13, 1) };
    assert_eq!(entries, Ok(vec![entry]));
    let fields = walked(b"\0\0\0\x01\0\0\0\x19\0\0\0\x01a", pgc_record_begin, pgc_record_next);
    assert_eq!(fields, Ok(vec![PgcField { oid: PGC_TEXT_OID, value: element(12, 1) }]));
    assert_eq!(walked(b"\0\x01\0\0\0\x01a", pgc_row_begin, pgc_array_next), Ok(vec![element(6, 1)]));
}

/// What is built in a buffer of 40 bytes: `push` pushes items, by the builder, the buffer and its room, and `close`
/// answers how many bytes there are.
fn built(
    open: unsafe extern "C" fn(*mut PgcBuilder),
    push: impl Fn(*mut PgcBuilder, *mut c_void, usize),
    close: impl Fn(*const PgcBuilder, *mut c_void, usize) -> usize,
) -> Vec<u8> {
    let mut builder = PgcBuilder { len: 7, count: 7, has_null: 7 };
    let mut cell = vec![0x5a; 40];
    // SAFETY: the builder is there.
    unsafe { open(&mut builder) };
    push(&mut builder, cell.as_mut_ptr().cast(), cell.len());
    let len = close(&builder, cell.as_mut_ptr().cast(), cell.len());
    cell.truncate(len);
    cell
}

fn try_builders() {
    let [a, bc] = ["a".as_bytes(), b"bc"].map(|it| (it.as_ptr().cast::<c_void>(), it.len()));
    let array = built(
        pgc_array_open,
        |to, out, room| unsafe {
            assert_eq!(pgc_push(to, a.0, a.1, out, room), 5);
            assert_eq!(pgc_push_null(to, out, room), 4);
            assert_eq!(pgc_bool_write(true, out.byte_add((*to).len + 4), 1), 1);
            assert_eq!(pgc_push_written(to, 1, out, room), 5);
            assert_eq!(pgc_push_written(to, 3, out, room), 7); // (6 bytes are left)
        },
        |of, out, room| unsafe { pgc_array_close(of, PGC_CHAR_OID, out, room) },
    );
    let head = b"\0\0\0\x01\0\0\0\x01\0\0\0\x12\0\0\0\x03\0\0\0\x01";
    assert_eq!(array, [head, &b"\0\0\0\x01a\xff\xff\xff\xff\0\0\0\x01\x01"[..]].concat());
    let record = built(
        pgc_record_open,
        |to, out, room| unsafe {
            assert_eq!(pgc_push_field(to, PGC_TEXT_OID, bc.0, bc.1, out, room), 10);
            assert_eq!(pgc_push_null_field(to, u32::MAX, out, room), 8);
            assert_eq!(pgc_push_written_field(to, 1, 0, out, room), 8);
        },
        |of, out, room| unsafe { pgc_record_close(of, out, room) },
    );
    assert_eq!(record, b"\0\0\0\x03\0\0\0\x19\0\0\0\x02bc\xff\xff\xff\xff\xff\xff\xff\xff\0\0\0\x01\0\0\0\0");
    let hstore = built(
        pgc_hstore_open,
        |to, out, room| unsafe {
            assert_eq!(pgc_push_entry(to, a.0, a.1, bc.0, bc.1, out, room), 11);
            assert_eq!(pgc_push_null_entry(to, bc.0, bc.1, out, room), 10);
        },
        |of, out, room| unsafe { pgc_hstore_close(of, out, room) },
    );
    assert_eq!(hstore, b"\0\0\0\x02\0\0\0\x01a\0\0\0\x02bc\0\0\0\x02bc\xff\xff\xff\xff");
}

/// The cell that pgc_rewrite writes, or the fault.
fn rewritten(oid: u32, cell: &[u8]) -> Result<Vec<u8>, u32> {
    let (mut out, mut written) = (vec![0x5a; cell.len() + 8], usize::MAX);
    let (bytes, room) = (out.as_mut_ptr().cast(), out.len());
    // SAFETY: the cell, the buffer and the variable are there, and apart.
    match unsafe { pgc_rewrite(oid, cell.as_ptr().cast(), cell.len(), bytes, room, &mut written) } {
        PGC_OK => Ok(out[..written].to_vec()),
        fault => Err(fault),
    }
}

fn try_rewriting() {
    assert_eq!(rewritten(PGC_BOOL_OID, &[7]), Ok(vec![1]));
    assert_eq!(rewritten(PGC_INT4_OID, &[0; 5]), Err(PGC_SIZE));
}

fn main() {
    assert_eq!(size_of::<PgcEntry>(), 5 * size_of::<usize>());
    try_plain_values();
    try_structs();
    try_walks();
    try_builders();
    try_rewriting();
    println!("c_library: all rows of Rust hold");
}
