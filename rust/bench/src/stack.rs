//! How deep a call goes on the stack: it is run on painted memory, and what is no longer painted
//! was used. The depth counts from the caller's stack pointer, the return address included; what
//! a function reserves below its last written word is not seen.

use std::arch::asm;

/// The words of the stack that a call gets, far more than any needs.
const WORDS: usize = 1 << 16;

/// Two paints, so that a word that is written with one of them is seen by the other.
const PAINTS: [u64; 2] = [0xA5A5_A5A5_A5A5_A5A5, 0x5A5A_5A5A_5A5A_5A5A];

/// A function of the C face with its arguments as they are passed, six in registers and one on the
/// stack. An answer too large for registers has its place as the first of the integers.
pub struct Call {
    pub function: *const (),
    pub integers: [usize; 7],
    pub double: f64,
}

/// The bytes of stack that a call uses; it is prepared anew for each run.
///
/// # Safety
///
/// The function takes these arguments by the C calling convention of x86-64, and they are right.
pub unsafe fn depth(mut prepared: impl FnMut() -> Call) -> usize {
    // Safety: as above. The first run binds what the function itself calls.
    unsafe {
        painted(prepared(), PAINTS[0]);
        painted(prepared(), PAINTS[0]).max(painted(prepared(), PAINTS[1]))
    }
}

/// The bytes of stack between the pointer at the call and the lowest word that lost its paint.
unsafe fn painted(call: Call, paint: u64) -> usize {
    let mut stack = vec![paint; WORDS];
    let [a, b, c, d, e, f, last] = call.integers;
    // The stack pointer is a multiple of 16 at a call, and the last argument stands there.
    let words = stack.as_ptr_range().end as usize % 16 / 8;
    let top = stack.len() - words - 2;
    stack[top] = last as u64;
    // Safety: as above. The registers that keep the old stack pointer and the function are the
    // callee's to preserve, and a call may change all others.
    unsafe {
        asm!(
            "mov r12, rsp",
            "mov rsp, r13",
            "call r14",
            "mov rsp, r12",
            out("r12") _,
            in("r13") stack.as_mut_ptr().add(top),
            in("r14") call.function,
            in("rdi") a,
            in("rsi") b,
            in("rdx") c,
            in("rcx") d,
            in("r8") e,
            in("r9") f,
            in("xmm0") call.double,
            clobber_abi("C"),
        );
    }
    let untouched = stack.iter().position(|word| *word != paint);
    8 * (top - untouched.unwrap_or(top))
}
