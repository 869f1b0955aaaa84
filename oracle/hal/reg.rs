//! A register as a value in memory.

use std::cell::Cell;
use std::thread::LocalKey;

pub struct Reg<T: Copy + 'static>(pub &'static LocalKey<Cell<T>>);

impl<T: Copy + 'static> Reg<T> {
    pub fn read(&self) -> T {
        self.0.with(|cell| cell.get())
    }

    pub fn modify<R>(&self, change: impl FnOnce(&mut T) -> R) -> R {
        let mut value = self.read();
        let result = change(&mut value);
        self.0.with(|cell| cell.set(value));
        result
    }
}
