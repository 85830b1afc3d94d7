//! What a program asks of valgrind's tool callgrind while that runs it: to begin and to stop
//! counting instructions, and to write what it has counted. Without valgrind the requests do
//! nothing.

use std::arch::asm;
use std::ffi::CString;

const RUNNING: u64 = 0x1001;
const CALLGRIND: u64 = (b'C' as u64) << 24 | (b'T' as u64) << 16;
const ZERO: u64 = CALLGRIND + 1;
const DUMP_AT: u64 = CALLGRIND + 3;
const START: u64 = CALLGRIND + 4;
const STOP: u64 = CALLGRIND + 5;

/// The instructions that valgrind knows a request by: rotations that come to nothing.
fn request(code: u64, argument: u64) -> u64 {
    let words = [code, argument, 0, 0, 0, 0];
    let mut answer = 0;
    // SAFETY: the registers are as they were but for the answer, which valgrind alone writes.
    unsafe {
        asm!(
            "rol rdi, 3",
            "rol rdi, 13",
            "rol rdi, 61",
            "rol rdi, 51",
            "xchg rbx, rbx",
            in("rax") words.as_ptr(),
            inout("rdx") answer,
            options(nostack),
        );
    }
    answer
}

/// Whether callgrind is to count: asked for, and valgrind is there.
pub fn counts() -> bool {
    std::env::args().any(|argument| argument == "--count") && request(RUNNING, 0) > 0
}

/// Counts what is done, and writes it as a profile that bears this name.
pub fn count(name: &str, work: &mut dyn FnMut()) {
    let name = CString::new(name).expect("no zero byte in it");
    request(START, 0);
    request(ZERO, 0);
    work();
    request(DUMP_AT, name.as_ptr() as u64);
    request(STOP, 0);
}
