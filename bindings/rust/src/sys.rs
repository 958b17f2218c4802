//! The library's own calls, over words: an element of the base field is one, one of the extension
//! four. `bindings/c/mlu.h` says what each does.
//!
//! Each takes pointers and lengths in words, tests every size and value itself, and answers a status.
//!
//! # Safety
//! A pointer is aligned and has as many words behind it as its length says, initialized, which nothing
//! else writes during the call; an output overlaps no other operand. With length 0 it is not read.

/// The call was done.
pub const DONE: u32 = 0;
/// An operand has a number of words that it cannot have.
pub const LENGTH: u32 = 1;
/// The sizes of the operands do not fit one another, or there is no variable to fold.
pub const ARITY: u32 = 2;
/// A word that is read is the modulus or more.
pub const RESIDUE: u32 = 3;
/// Memory was refused.
pub const MEMORY: u32 = 4;
/// The rounds do not fit the claim.
pub const REFUSED: u32 = 5;

/// Declares calls whose operands are slices of words, each a pointer and a length.
macro_rules! calls {
    ($($(#[$doc:meta])* fn $name:ident($([$input:ident, $input_len:ident],)* => $([$output:ident, $output_len:ident]),+);)*) => {
        unsafe extern "C" {
            $($(#[$doc])* pub fn $name($($input: *const u32, $input_len: usize,)* $($output: *mut u32, $output_len: usize),+) -> u32;)*
        }
    };
}

calls! {
    /// The value of a table over the base field at a point.
    fn mlu_eval_base([table, table_len], [point, point_len], => [out, out_len]);
    /// The value of a table over the extension at a point.
    fn mlu_eval_ext([table, table_len], [point, point_len], => [out, out_len]);
    /// The sum of the weight at a point of each vertex times the value at the next one, the last being
    /// its own next, of a table over the base field.
    fn mlu_eval_next_base([table, table_len], [point, point_len], => [out, out_len]);
    /// The weights at a point, times a scale; coordinate 0 reads the highest bit of an index.
    fn mlu_equality_weights_msb([point, point_len], [scale, scale_len], => [out, out_len]);
    /// The same; coordinate 0 reads the lowest bit.
    fn mlu_equality_weights_lsb([point, point_len], [scale, scale_len], => [out, out_len]);
    /// A table over the base field with its first variables at a point, times a scale.
    fn mlu_compress_prefix([table, table_len], [point, point_len], [scale, scale_len], => [out, out_len]);
    /// The same of its last variables.
    fn mlu_compress_suffix([table, table_len], [point, point_len], [scale, scale_len], => [out, out_len]);
    /// The rounds and claims of sumcheck over a table and the weights of a point.
    fn mlu_sumcheck_run([table, table_len], [point, point_len], [challenges, challenges_len], => [rounds, rounds_len], [claims, claims_len]);
    /// The last claim, where rounds fit the first one at the challenges.
    fn mlu_sumcheck_verify([claim, claim_len], [rounds, rounds_len], [challenges, challenges_len], => [out, out_len]);
}

unsafe extern "C" {
    /// The sum of the equality tables of points, each times a scalar, written or added.
    pub fn mlu_eval_eq_batch(
        adds: bool,
        values: *const u32,
        values_len: usize,
        scalars: *const u32,
        scalars_len: usize,
        out: *mut u32,
        out_len: usize,
    ) -> u32;
    /// A table with its first variable at `r`, in the first half of its words.
    pub fn mlu_fix_prefix_var_mut(table: *mut u32, table_len: usize, r: *const u32, r_len: usize) -> u32;
    /// The same of its last variable.
    pub fn mlu_fix_suffix_var_mut(table: *mut u32, table_len: usize, r: *const u32, r_len: usize) -> u32;
}

/// A call by slices, inputs before outputs.
macro_rules! call {
    ($name:ident($($input:expr),* => $($output:expr),+)) => {
        // Slices have their words, aligned and initialized, and an output is borrowed alone; all of
        // them last until the call is done.
        unsafe {
            $crate::sys::$name($($input.as_ptr(), $input.len(),)* $($output.as_mut_ptr(), $output.len()),+)
        }
    };
}

pub(crate) use call;
