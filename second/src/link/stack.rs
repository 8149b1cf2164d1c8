//! A stack of an exact size, with memory below it that may not be touched: what runs on it and takes
//! more ends the process.

use std::arch::asm;
use std::ffi::c_void;
use std::ptr::null_mut;

pub const PAGE: usize = 4_096;

/// More than the longest frame, so that none leaps over it.
const GUARD: usize = 1 << 20;

const NOTHING: i32 = 0;
const READ_AND_WRITE: i32 = 3;
const PRIVATE_AND_ANONYMOUS: i32 = 0x22;

unsafe extern "C" {
    fn mmap(
        at: *mut c_void,
        length: usize,
        may: i32,
        kind: i32,
        file: i32,
        from: i64,
    ) -> *mut c_void;
    fn mprotect(at: *mut c_void, length: usize, may: i32) -> i32;
    fn munmap(at: *mut c_void, length: usize) -> i32;
}

pub struct Stack {
    /// The guard, then the stack.
    memory: *mut u8,
    size: usize,
}

impl Stack {
    /// The size is a multiple of a page.
    pub fn new(size: usize) -> Stack {
        assert!(size.is_multiple_of(PAGE), "whole pages");
        let length = GUARD + size;
        // SAFETY: new memory, whose first part is then closed.
        let memory = unsafe {
            let memory = mmap(null_mut(), length, READ_AND_WRITE, PRIVATE_AND_ANONYMOUS, -1, 0);
            assert!(memory.addr() != usize::MAX, "there is memory");
            assert_eq!(mprotect(memory, GUARD, NOTHING), 0);
            memory
        };
        Stack { memory: memory.cast(), size }
    }

    fn bytes(&mut self) -> &mut [u8] {
        // SAFETY: the memory past the guard is this stack's, and nothing runs on it now.
        unsafe { std::slice::from_raw_parts_mut(self.memory.add(GUARD), self.size) }
    }

    /// Runs the work on this stack.
    pub fn run(&mut self, mut work: &mut dyn FnMut()) {
        let work: *mut &mut dyn FnMut() = &mut work;
        // SAFETY: the top is aligned as a call wants it; `enter` leaves r12, in which the other stack
        // is kept, as it was, and does not unwind.
        unsafe {
            asm!(
                "xchg rsp, r12",
                "call {enter}",
                "mov rsp, r12",
                enter = sym enter,
                inout("r12") self.memory.add(GUARD + self.size) => _,
                in("rdi") work,
                clobber_abi("C"),
            );
        }
    }

    /// How many bytes the work takes: from the top to the deepest byte that it writes.
    pub fn depth(&mut self, work: &mut dyn FnMut()) -> usize {
        // A byte that is written with what stood there is seen the other time.
        let touched = [0xa5, 0x5a].map(|fill| {
            self.bytes().fill(fill);
            self.run(work);
            let kept = self.bytes().iter().take_while(|byte| **byte == fill).count();
            self.size - kept
        });
        touched[0].max(touched[1])
    }
}

extern "C" fn enter(work: *mut &mut dyn FnMut()) {
    // SAFETY: `run` hands over what lives until it returns.
    unsafe { (*work)() }
}

impl Drop for Stack {
    fn drop(&mut self) {
        // SAFETY: the memory is this stack's, and nothing runs on it now.
        unsafe { munmap(self.memory.cast(), GUARD + self.size) };
    }
}
