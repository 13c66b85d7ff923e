//! A list of numbers from which any can be removed, and be restored in the reverse order.

pub struct Ring {
    after: Vec<usize>,
    before: Vec<usize>,
    head: usize,
}

impl Ring {
    /// Of numbers below a bound, each once.
    pub fn new(bound: usize, numbers: &[usize]) -> Self {
        let mut ring = Ring {
            after: vec![bound; bound + 1],
            before: vec![bound; bound + 1],
            head: bound,
        };
        let mut last = bound;
        for number in numbers {
            ring.after[last] = *number;
            ring.before[*number] = last;
            last = *number;
        }
        ring.after[last] = bound;
        ring.before[bound] = last;
        ring
    }

    pub fn first(&self) -> Option<usize> {
        self.after(self.head)
    }

    pub fn after(&self, number: usize) -> Option<usize> {
        Some(self.after[number]).filter(|after| *after != self.head)
    }

    pub fn remove(&mut self, number: usize) {
        let (before, after) = (self.before[number], self.after[number]);
        self.after[before] = after;
        self.before[after] = before;
    }

    /// Puts the number back that was removed last of those that are missing.
    pub fn restore(&mut self, number: usize) {
        let (before, after) = (self.before[number], self.after[number]);
        self.after[before] = number;
        self.before[after] = number;
    }
}
