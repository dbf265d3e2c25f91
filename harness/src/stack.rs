//! How much stack a call writes.

use std::hint::black_box;

/// The stack that a call is given, in words.
const WORDS: usize = 1 << 21;

/// What the stack holds before the call.
const PAINT: u64 = 0xa5c3_96e1_5a3c_691e;

/// Runs the call on a painted stack of its own, and gives the bytes from the
/// top of that stack down to the lowest word that has changed.
pub fn used(mut call: impl FnMut() -> u64) -> usize {
    let mut stack = vec![PAINT; WORDS];
    let mut call: &mut dyn FnMut() -> u64 = &mut call;
    // The top is a multiple of 16 bytes.
    let top = stack.as_mut_ptr_range().end as usize & !15;
    unsafe { on_stack(top, &mut call) };
    let lowest = stack.iter().position(|&word| word != PAINT);
    match lowest {
        Some(0) | None => panic!("a call needs more than {} bytes of stack", 8 * WORDS),
        Some(lowest) => top - &stack[lowest] as *const u64 as usize,
    }
}

extern "C" fn run(call: &mut &mut dyn FnMut() -> u64) {
    black_box(call());
}

/// Calls `run` with the stack pointer at `top`.
#[cfg(target_arch = "x86_64")]
unsafe fn on_stack(top: usize, call: &mut &mut dyn FnMut() -> u64) {
    // `run` keeps r12, which holds the stack pointer of this function.
    std::arch::asm!(
        "xchg rsp, r12",
        "call {run}",
        "mov rsp, r12",
        run = sym run,
        inout("r12") top => _,
        in("rdi") call,
        clobber_abi("C"),
    );
}

#[cfg(not(target_arch = "x86_64"))]
unsafe fn on_stack(_: usize, _: &mut &mut dyn FnMut() -> u64) {
    panic!("the archive is for x86-64");
}
