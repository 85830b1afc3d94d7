//! Bytes in front of the program's other code, as many as BENCH_PADDING said when it was
//! built: where loops lie moves their times, so a time should be taken in more than one place.

use std::arch::global_asm;
use std::hint::black_box;

global_asm!(
    ".pushsection .text.startup.bench_padding, \"ax\", @progbits",
    ".globl bench_padding",
    "bench_padding:",
    concat!(".skip ", env!("BENCH_PADDING")),
    "ret",
    ".popsection",
);

extern "C" {
    fn bench_padding();
}

/// Keeps them in the program.
pub fn keep() {
    black_box(bench_padding as *const ());
}
