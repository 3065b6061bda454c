//! Reads a cell of int4, and prints the number, with the library for C.
#[path = "../out/include/pg_cells.rs"]
mod pg_cells;

fn main() {
    let cell = [0u8, 0, 1, 2];
    let mut number = 0;
    let fault = unsafe { pg_cells::pgc_int4_read(cell.as_ptr().cast(), cell.len(), &mut number) };
    assert_eq!(fault, pg_cells::PGC_OK);
    println!("{number}");
}
