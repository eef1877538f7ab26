//! A row is timed and printed as the program `speed` prints it: name, calls, checksum, nanoseconds.

use std::hint::black_box;

pub struct Row<'a, T> {
    pub name: &'a str,
    pub work: fn(&[T]) -> u64,
}

extern "C" {
    /// C's `clock`: the processor time of this program so far, in microseconds.
    fn clock() -> i64;
}

fn microseconds() -> i64 {
    // SAFETY: it takes nothing and returns a number.
    unsafe { clock() }
}

impl<T> Row<'_, T> {
    pub fn timed(&self, inputs: &[T]) {
        let begun = microseconds();
        let sum = black_box(black_box(self.work)(black_box(inputs)));
        let nanoseconds = 1000 * (microseconds() - begun);
        let (name, calls) = (self.name, inputs.len());
        println!("{name}\t{calls}\t{sum:016x}\t{nanoseconds}");
    }
}
