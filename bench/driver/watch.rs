//! Watches how much stack one call takes. The call goes through a few instructions that fill the room below its return
//! address with a pattern, jump to the entry, and look afterwards for the lowest word that was changed. So what is measured
//! is the entry's own: the return address and all below it, nothing of what its caller makes, copies or looks at. It needs
//! x86-64; elsewhere unwatched.rs takes its place.

use std::{
    arch::global_asm,
    mem::{size_of, transmute_copy},
};

/// Far more than any call takes, in words of eight bytes.
const ROOM: usize = 2048;
macro_rules! room {
    () => {
        "2048"
    };
}

// The names are for the instructions below.
#[no_mangle]
static mut WATCH_ENTRY: usize = 0;
#[no_mangle]
static mut WATCH_PATTERN: u64 = 0;
#[no_mangle]
static mut WATCH_RETURN: usize = 0;
#[no_mangle]
static mut WATCH_TAKEN: usize = 0;

// System V: arguments are in rdi, rsi, rdx, rcx, r8, r9 and above the return address; answers in rax, rdx and xmm0.
global_asm!(
    ".globl watch_call",
    "watch_call:",
    "mov r10, rdi",
    "mov r11, rcx",
    concat!("lea rdi, [rsp - 8 * ", room!(), "]"),
    concat!("mov ecx, ", room!()),
    "mov rax, qword ptr [rip + WATCH_PATTERN]",
    "cld",
    "rep stosq",
    "mov rdi, r10",
    "mov rcx, r11",
    "mov r10, qword ptr [rsp]",
    "mov qword ptr [rip + WATCH_RETURN], r10",
    "lea r10, [rip + 2f]",
    "mov qword ptr [rsp], r10",
    "jmp qword ptr [rip + WATCH_ENTRY]",
    // Back from the entry: rdi goes up from the room's bottom to behind the first changed word, or to the room's end.
    "2:",
    "mov r8, rax",
    concat!("lea rdi, [rsp - 8 - 8 * ", room!(), "]"),
    concat!("mov ecx, ", room!()),
    "mov rax, qword ptr [rip + WATCH_PATTERN]",
    "repe scasq",
    "setne cl",
    "movzx ecx, cl",
    "shl ecx, 3",
    "sub rdi, rcx",
    "mov rcx, rsp",
    "sub rcx, rdi",
    "mov qword ptr [rip + WATCH_TAKEN], rcx",
    "mov rax, r8",
    "jmp qword ptr [rip + WATCH_RETURN]",
);

extern "C" {
    fn watch_call();
}

/// A function of the same type, by which the next call of `entry` is watched.
pub fn watched<F: Copy>(entry: F) -> F {
    assert!(size_of::<F>() == size_of::<usize>(), "a function's address");
    let through = watch_call as *const () as usize;
    unsafe {
        WATCH_ENTRY = transmute_copy(&entry);
        transmute_copy(&through)
    }
}

/// The most bytes that a call takes, by two patterns: what it leaves may look like one of them. The call answers what its
/// entry answered.
pub fn taken<T: PartialEq>(call: &mut dyn FnMut() -> T) -> (T, usize) {
    let [(answer, first), (again, second)] = [0xa5a5_5a5a_3c3c_c3c3, 0x5a5a_a5a5_c3c3_3c3c].map(|pattern| {
        let answer = unsafe {
            WATCH_PATTERN = pattern;
            WATCH_TAKEN = 0;
            call()
        };
        (answer, unsafe { WATCH_TAKEN })
    });
    assert!(answer == again, "the same answer twice");
    let most = first.max(second);
    assert!(0 < most && most < 8 * ROOM, "a watched call, in a room that is large enough");
    (answer, most)
}
