// How much stack a call touches: it runs on a stack of its own that was painted, and the deepest byte that lost its paint is looked for.
// For x86-64, as the library's archives are.
#![allow(dead_code)] // each bench uses its part

const ROOM: usize = 1 << 20;

extern "C" fn go<F: FnOnce()>(call: *mut Option<F>) {
    if let Some(f) = unsafe { (*call).take() } {
        f();
    }
}

fn touched_with<F: FnOnce()>(paint: u8, call: F) -> usize {
    let mut memory = vec![paint; ROOM];
    let top = (memory.as_mut_ptr() as usize + ROOM) & !15;
    let mut call = Some(call);
    unsafe {
        std::arch::asm!(
            "mov r12, rsp",
            "mov rsp, {top}",
            "call {go}",
            "mov rsp, r12",
            top = in(reg) top,
            go = in(reg) go::<F> as extern "C" fn(*mut Option<F>),
            in("rdi") &mut call,
            out("r12") _,
            clobber_abi("C"),
        );
    }
    // the asm wrote to the memory behind the compiler's back
    let memory = std::hint::black_box(memory);
    let deepest = memory.iter().position(|b| *b != paint).unwrap_or(ROOM);
    assert!(ROOM / 8 < deepest, "the painted stack is too small");
    ROOM - deepest
}

// The bytes that a call touches below its caller, the call's own frame too. Painted twice: one paint may be what the call writes.
pub fn touched<F: FnMut()>(mut call: F) -> usize {
    touched_with(0xa5, &mut call).max(touched_with(0x5a, &mut call))
}
