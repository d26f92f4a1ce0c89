//! The exports of `crates/pgv_bench`, as work. A slice is a pointer and a length there. `HOW` of an export that writes
//! numbers or texts is 0 to add them to arguments, and else it encodes them; of one that takes frames 1 encodes their
//! values and 2 decodes them; of one that only reads frames 0 reads them in binary.
use crate::turns::Work;

/// An export that takes frames.
pub type Framed = unsafe extern "C" fn(*const u8, usize, u32, u32) -> usize;

macro_rules! framed { ($($name:ident)*) => { extern "C" { $(pub fn $name(bytes: *const u8, length: usize, rounds: u32, how: u32) -> usize;)* } } }
framed! {
    pgv_bench_read_i32 pgv_bench_read_i64 pgv_bench_read_bool pgv_bench_read_uuid pgv_bench_read_text
    pgv_bench_read_i32s pgv_bench_read_options pgv_bench_read_texts
    pgv_bench_date pgv_bench_time pgv_bench_timestamp pgv_bench_timestamptz
    pgv_bench_varbit pgv_bench_bytea pgv_bench_hstore pgv_bench_write_uuid pgv_bench_copy
}

extern "C" {
    fn pgv_bench_write_i32(values: *const i32, length: usize, rounds: u32, how: u32) -> usize;
    fn pgv_bench_write_i64(values: *const i64, length: usize, rounds: u32, how: u32) -> usize;
    fn pgv_bench_write_bool(values: *const i32, length: usize, rounds: u32, how: u32) -> usize;
    fn pgv_bench_write_i32s(values: *const i32, length: usize, per: u32, rounds: u32, how: u32) -> usize;
    fn pgv_bench_write_options(values: *const i32, length: usize, per: u32, rounds: u32, how: u32) -> usize;
    fn pgv_bench_write_text(blob: *const u8, length: usize, lengths: *const u32, count: usize, rounds: u32, how: u32) -> usize;
    fn pgv_bench_rows(blob: *const u8, length: usize, lengths: *const u32, count: usize, rounds: u32, how: u32) -> usize;
    fn pgv_bench_binds(blob: *const u8, length: usize, lengths: *const u32, count: usize, rounds: u32) -> usize;
    fn pgv_bench_write_textss(blob: *const u8, length: usize, lengths: *const u32, count: usize, per: u32, rounds: u32, how: u32) -> usize;
}

pub const ENCODE: u32 = 1;
pub const DECODE: u32 = 2;
pub const BINARY: u32 = 0;
pub const BY_COLUMNS: u32 = 0;
pub const AS_LISTS: u32 = 0;
pub const AS_FRAMES: u32 = 1;
pub const IN_ONE_PASS: u32 = 2;
pub const DESCRIBED: u32 = 3;
pub const AS_TUPLES: u32 = 2;
pub const AS_ONE_LIST: u32 = 3;
pub const AS_LENT: u32 = 4;

pub fn framed(export: Framed, bytes: &[u8], how: u32) -> Work<'_> {
    Box::new(move |rounds| unsafe { export(bytes.as_ptr(), bytes.len(), rounds, how) })
}

pub fn numbers(values: &[i32]) -> Work<'_> {
    Box::new(move |rounds| unsafe { pgv_bench_write_i32(values.as_ptr(), values.len(), rounds, ENCODE) })
}

pub fn long_numbers(values: &[i64]) -> Work<'_> {
    Box::new(move |rounds| unsafe { pgv_bench_write_i64(values.as_ptr(), values.len(), rounds, ENCODE) })
}

/// Whether each number is above 0.
pub fn truths(values: &[i32]) -> Work<'_> {
    Box::new(move |rounds| unsafe { pgv_bench_write_bool(values.as_ptr(), values.len(), rounds, ENCODE) })
}

/// Lists of so many numbers.
pub fn lists(values: &[i32], per: u32) -> Work<'_> {
    Box::new(move |rounds| unsafe { pgv_bench_write_i32s(values.as_ptr(), values.len(), per, rounds, ENCODE) })
}

/// Lists of so many numbers, of which each whose rest by 4 is 3 is null.
pub fn options(values: &[i32], per: u32) -> Work<'_> {
    Box::new(move |rounds| unsafe { pgv_bench_write_options(values.as_ptr(), values.len(), per, rounds, ENCODE) })
}

/// Texts or bodies of rows one after another, and their lengths.
pub struct Texts {
    blob: Vec<u8>,
    lengths: Vec<u32>,
}

impl Texts {
    pub fn new<T: AsRef<[u8]>>(texts: &[T]) -> Texts {
        Texts {
            blob: texts.iter().flat_map(|text| text.as_ref().iter().copied()).collect(),
            lengths: texts.iter().map(|text| text.as_ref().len() as u32).collect(),
        }
    }

    /// Rows of five columns, read by their columns or as frames.
    pub fn rows(&self, how: u32) -> Work<'_> {
        Box::new(move |rounds| unsafe {
            pgv_bench_rows(self.blob.as_ptr(), self.blob.len(), self.lengths.as_ptr(), self.lengths.len(), rounds, how)
        })
    }

    /// A Bind for each.
    pub fn bound(&self) -> Work<'_> {
        Box::new(|rounds| unsafe {
            pgv_bench_binds(self.blob.as_ptr(), self.blob.len(), self.lengths.as_ptr(), self.lengths.len(), rounds)
        })
    }

    pub fn written(&self) -> Work<'_> {
        Box::new(|rounds| unsafe {
            pgv_bench_write_text(self.blob.as_ptr(), self.blob.len(), self.lengths.as_ptr(), self.lengths.len(), rounds, ENCODE)
        })
    }

    /// In lists of so many.
    pub fn in_lists(&self, per: u32) -> Work<'_> {
        Box::new(move |rounds| unsafe {
            pgv_bench_write_textss(self.blob.as_ptr(), self.blob.len(), self.lengths.as_ptr(), self.lengths.len(), per, rounds, ENCODE)
        })
    }
}
