//! The library's side: its C functions, and their calls repeated.

use crate::plain::{Ext, ZERO};

#[link(name = "mlu_bench", kind = "static")]
#[link(name = "libc_c", kind = "static")]
unsafe extern "C" {
    pub fn mlu_bench_scalar(out: *mut u32, out_len: usize, b: *const u32, b_len: usize, operation: u32, rounds: usize) -> bool;
    pub fn mlu_bench_lanes(out: *mut u32, out_len: usize, b: *const u32, b_len: usize, operation: u32, rounds: usize) -> bool;
    fn mlu_bench_call(
        out: *mut u32,
        out_len: usize,
        entries: *const u32,
        entries_len: usize,
        point: *const u32,
        point_len: usize,
        columns: *const u32,
        columns_len: usize,
        scalars: *const u32,
        scalars_len: usize,
        kind: u32,
        call: u32,
        rounds: usize,
    ) -> bool;
}

/// The answer of so many calls.
pub type Repeated<'a> = Box<dyn Fn(usize) -> Ext + 'a>;

/// What calls of `mlu_bench` are made on, in words: a table and a point over the extension, of which the
/// first words are those over the base; and for batches the coordinates of points in columns, with a
/// scalar for each. The first scalar scales the other calls, and the columns are the challenges of sumcheck.
pub struct Operands {
    pub entries: Vec<u32>,
    pub point: Vec<u32>,
    pub columns: Vec<u32>,
    pub scalars: Vec<u32>,
}

impl Operands {
    /// The number of variables.
    pub fn variables(&self) -> usize {
        self.point.len() / 4
    }

    /// The call with this kind and number: the sum of an entry of what each gives.
    pub fn repeated(&self, (kind, call): (u32, u32)) -> Repeated<'_> {
        Box::new(move |rounds| {
            let mut out = ZERO;
            let served = unsafe {
                mlu_bench_call(
                    out.as_mut_ptr(), out.len(), self.entries.as_ptr(), self.entries.len(), self.point.as_ptr(),
                    self.point.len(), self.columns.as_ptr(), self.columns.len(), self.scalars.as_ptr(), self.scalars.len(),
                    kind, call, rounds,
                )
            };
            assert!(served);
            out
        })
    }
}
