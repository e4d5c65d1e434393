//! Memory that is lent to both sides in lock step.

/// Elements on either side of the lent part, which no call may touch.
const MARGIN: usize = 64;

/// The same memory three times: the library's, the implementation's, and as it was before the
/// call. Outside of a call all three are equal.
pub struct Lent<T> {
    name: &'static str,
    library: Vec<T>,
    model: Vec<T>,
    before: Vec<T>,
}

impl<T: Copy + PartialEq + std::fmt::Debug> Lent<T> {
    pub fn new(name: &'static str, length: usize, value: T) -> Lent<T> {
        let memory = vec![value; MARGIN + length + MARGIN];
        Lent {
            name,
            library: memory.clone(),
            model: memory.clone(),
            before: memory,
        }
    }

    /// The first `length` elements of the library's and of the implementation's memory. There are
    /// a few more than the room was made for, so that longer rooms can be tried.
    pub fn lend(&mut self, length: usize) -> (&mut [T], &mut [T]) {
        let part = MARGIN..MARGIN + length;
        (&mut self.library[part.clone()], &mut self.model[part])
    }

    /// The memory as it was before the call.
    pub fn before(&self) -> &[T] {
        &self.before[MARGIN..]
    }

    /// The implementation's memory.
    pub fn model(&self) -> &[T] {
        &self.model[MARGIN..]
    }

    /// Changes the memory between calls, margins too.
    pub fn change(&mut self, change: impl FnOnce(&mut [T])) {
        change(&mut self.before);
        self.reset();
    }

    /// Puts values at a place between calls.
    pub fn put(&mut self, at: usize, values: &[T]) {
        let place = MARGIN + at..MARGIN + at + values.len();
        for memory in [&mut self.library, &mut self.model, &mut self.before] {
            memory[place.clone()].copy_from_slice(values);
        }
    }

    /// Takes over what the library wrote to the first elements, where these are not fixed.
    pub fn accept(&mut self, length: usize) {
        let part = MARGIN..MARGIN + length;
        self.model[part.clone()].copy_from_slice(&self.library[part]);
    }

    fn reset(&mut self) {
        self.library.copy_from_slice(&self.before);
        self.model.copy_from_slice(&self.before);
    }

    /// Compares all of it after a call. A check or a refused call must have left it unchanged.
    pub fn compare(&mut self, unchanged: bool) -> Result<(), String> {
        if self.library != self.model {
            return Err(self.difference(&self.model, "the implementation has"));
        }
        if unchanged && self.library != self.before {
            return Err(self.difference(&self.before, "and must have left"));
        }
        Ok(())
    }

    /// Makes the state after a call the one before the next.
    pub fn keep(&mut self) {
        self.before.copy_from_slice(&self.model);
    }

    fn difference(&self, expected: &[T], what: &str) -> String {
        let differs = |at: &usize| self.library[*at] != expected[*at];
        let at = (0..expected.len()).find(differs).unwrap_or(0);
        format!(
            "{} at {}: the library has {:02X?}, {what} {:02X?}",
            self.name,
            at as i64 - MARGIN as i64,
            self.library[at],
            expected[at]
        )
    }
}
