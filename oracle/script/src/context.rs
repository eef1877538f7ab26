//! A second stack, by the C library's `makecontext` and `swapcontext`.

use std::ffi::c_int;
use std::ptr;

/// Where `ucontext_t` begins alike on 64-bit Linux; the room behind is more than any of them needs.
#[repr(C, align(16))]
pub struct Context {
    flags: usize,
    link: *mut Context,
    stack_start: *mut u8,
    stack_flags: c_int,
    stack_size: usize,
    rest: [u64; 1024],
}

extern "C" {
    fn getcontext(context: *mut Context) -> c_int;
    fn makecontext(context: *mut Context, entry: extern "C" fn(), arguments: c_int, ...);
    fn swapcontext(from: *mut Context, to: *const Context) -> c_int;
}

impl Context {
    pub const fn new() -> Self {
        Context {
            flags: 0,
            link: ptr::null_mut(),
            stack_start: ptr::null_mut(),
            stack_flags: 0,
            stack_size: 0,
            rest: [0; 1024],
        }
    }

    /// Makes `self` the beginning of `entry` on `stack`. `entry` must never return.
    ///
    /// # Safety
    /// The stack stays where it is, and unused by others, as long as the context is switched to.
    pub unsafe fn prepare(&mut self, stack: &mut [u64], entry: extern "C" fn()) {
        assert_eq!(getcontext(self), 0, "getcontext");
        self.link = ptr::null_mut();
        self.stack_start = stack.as_mut_ptr().cast();
        self.stack_size = std::mem::size_of_val(stack);
        makecontext(self, entry, 0);
    }

    /// Keeps the present place in `from` and goes on at `to`.
    ///
    /// # Safety
    /// `to` was prepared, or is a place kept by an earlier switch that still waits.
    pub unsafe fn switch(from: *mut Context, to: *const Context) {
        assert_eq!(swapcontext(from, to), 0, "swapcontext");
    }
}
