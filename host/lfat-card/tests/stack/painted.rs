//! A stack filled with a pattern: what a call has overwritten is what it needs.

use std::arch::asm;

const BYTES: usize = 1 << 16;
const PAINT: u8 = 0xC5;

/// A stack of our own, aligned as the C interface asks.
pub struct Stack(Vec<u128>);

impl Stack {
    pub fn new() -> Stack {
        Stack(vec![0; BYTES / size_of::<u128>()])
    }

    /// Calls a C function of up to eight numbers on the freshly painted stack. Gives what it returns, and how many bytes below the
    /// caller's stack pointer it has touched: return address, all frames under it, red zone.
    ///
    /// # Safety
    ///
    /// The function takes these arguments.
    pub unsafe fn call(&mut self, function: *const (), arguments: [u64; 8]) -> (u64, usize) {
        let bottom = self.0.as_mut_ptr().cast::<u8>();
        bottom.write_bytes(PAINT, BYTES);
        let [rdi, rsi, rdx, rcx, r8, r9, seventh, eighth] = arguments;
        let answer: u64;
        // The stack is aligned again once the last two arguments lie on it.
        let top = bottom.add(BYTES);
        asm!(
            "mov r12, rsp",
            "mov rsp, r13",
            "push r11",
            "push r10",
            "call rax",
            "mov rsp, r12",
            inout("rax") function => answer,
            in("rdi") rdi,
            in("rsi") rsi,
            in("rdx") rdx,
            in("rcx") rcx,
            in("r8") r8,
            in("r9") r9,
            in("r10") seventh,
            in("r11") eighth,
            in("r13") top,
            out("r12") _,
            clobber_abi("C"),
        );
        let bytes = std::slice::from_raw_parts(bottom, BYTES);
        let untouched = bytes.iter().take_while(|&&byte| byte == PAINT).count();
        (answer, BYTES - 16 - untouched)
    }
}
