//! How deep a call goes: it runs on a stack of its own, filled with a pattern, and what lies between the stack's top
//! and the lowest byte that is changed is what the call took.

use std::arch::asm;

/// Bytes of the stack lent; far more than any call takes.
const SIZE: usize = 8 << 20;

/// The bytes of stack that the call takes.
pub fn bytes(mut call: impl FnMut()) -> usize {
    let mut stack = vec![0u8; SIZE];
    // A byte that happens to be written as the pattern has it is seen under the other pattern.
    [0xa5, 0x5a].map(|pattern| bytes_over(&mut stack, pattern, &mut call)).into_iter().max().unwrap_or(0)
}

fn bytes_over<F: FnMut()>(stack: &mut [u8], pattern: u8, call: &mut F) -> usize {
    stack.fill(pattern);
    let end = stack.as_mut_ptr_range().end as usize & !15;
    let call: *mut F = call;
    // SAFETY: `end` is aligned as the calling convention wants it, the stack below it is this function's alone, and
    // r12 is kept by the function called, so that the old stack is there again afterwards. `enter` does not unwind.
    unsafe {
        asm!(
            "mov r12, rsp",
            "mov rsp, {end}",
            "call {enter}",
            "mov rsp, r12",
            end = in(reg) end,
            enter = sym enter::<F>,
            in("rdi") call,
            out("r12") _,
            clobber_abi("C"),
        );
    }
    let lowest = stack.iter().position(|&byte| byte != pattern).unwrap_or(SIZE);
    assert!(lowest > 0, "the stack lent is too small");
    end - (stack.as_ptr() as usize + lowest)
}

extern "C" fn enter<F: FnMut()>(call: *mut F) {
    // SAFETY: the pointer was made of a mutable reference that nothing else uses during the call.
    unsafe { (*call)() }
}
