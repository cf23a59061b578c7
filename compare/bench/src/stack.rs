//! The stack that a call takes, found by painting a stack of its own.
//! What a call sets aside and never writes is not seen.

use crate::lent::{Lent, Work};
use std::arch::asm;

/// The painted stack; a word of it is the unit in which the top must be aligned.
const WORDS: usize = 4096;

#[repr(align(16))]
#[derive(Clone, Copy)]
struct Word([u8; 16]);

/// The bytes from the top of the stack down to the deepest that the call wrote, its return address included.
/// A seventh argument adds itself and a second return address, as who passes it on can't leave the stack to the call.
pub fn taken(work: Work, first: &Lent) -> usize {
    // A byte that is written with the paint's own value looks unwritten, hence two paints.
    [0xA5, 0x5A].map(|paint| deepest(work, first, paint)).into_iter().fold(0, usize::max)
}

fn deepest(work: Work, first: &Lent, paint: u8) -> usize {
    let mut lent = first.clone();
    let mut stack = vec![Word([paint; 16]); WORDS];
    on_stack(work, &mut lent, &mut stack);
    let bytes = || stack.iter().flat_map(|word| word.0);
    bytes().count() - bytes().take_while(|&byte| byte == paint).count()
}

/// Makes the call with its stack pointer at the end of this stack.
fn on_stack(work: Work, lent: &mut Lent, stack: &mut [Word]) {
    let top = stack.as_mut_ptr_range().end;
    // SAFETY: the stack is aligned and far larger than what a call takes; r12 outlives the call, as C has it.
    unsafe {
        asm!(
            "mov r12, rsp",
            "mov rsp, {top}",
            "call {work}",
            "mov rsp, r12",
            top = in(reg) top,
            work = in(reg) work,
            in("rdi") lent,
            out("r12") _,
            clobber_abi("C"),
        );
    }
}
