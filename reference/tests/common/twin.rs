//! The same memory twice: one copy is lent to the engine, the other to the reference.

use std::fmt::UpperHex;

/// Items around what is lent. An odd number leaves a lent buffer of bytes without alignment.
const GUARD: usize = 7;

/// Items shown on each side of a difference.
const AROUND: usize = 2;

pub struct Twin<T> {
    engine: Vec<T>,
    reference: Vec<T>,
    lent: usize,
}

impl<T: Copy + PartialEq + UpperHex> Twin<T> {
    /// Room for `capacity` items, with guards before and behind, and all of it lent.
    pub fn new(capacity: usize, item: impl FnMut() -> T) -> Self {
        let mut items = Vec::new();
        items.resize_with(GUARD + capacity + GUARD, item);
        Twin {
            engine: items.clone(),
            reference: items,
            lent: capacity,
        }
    }

    /// Lends the first `count` items from now on.
    pub fn lend(&mut self, count: usize) {
        assert!(GUARD + count + GUARD <= self.engine.len());
        self.lent = count;
    }

    /// How many items are lent.
    pub fn lent(&self) -> usize {
        self.lent
    }

    /// Puts the same items at the start of both copies, lent or not.
    pub fn fill(&mut self, items: &[T]) {
        for copy in [&mut self.engine, &mut self.reference] {
            copy[GUARD..][..items.len()].copy_from_slice(items);
        }
    }

    /// What is lent to the engine.
    pub fn engine(&mut self) -> &mut [T] {
        &mut self.engine[GUARD..][..self.lent]
    }

    /// What is lent to the reference.
    pub fn reference(&mut self) -> &mut [T] {
        &mut self.reference[GUARD..][..self.lent]
    }

    /// The engine's copy without the guards, lent or not.
    pub fn contents(&self) -> &[T] {
        &self.engine[GUARD..self.engine.len() - GUARD]
    }

    /// The first place where the copies differ, guards included, and what stands around it.
    pub fn difference(&self) -> Option<String> {
        if self.engine == self.reference {
            return None;
        }
        let mut places = self.engine.iter().zip(&self.reference);
        places.position(|(e, r)| e != r).map(|k| {
            let (start, end) = (k.saturating_sub(AROUND), k + AROUND + 1);
            let shown = start..end.min(self.engine.len());
            let [place, first] = [k, start].map(|k| k as isize - GUARD as isize);
            let engine = hexadecimal(&self.engine[shown.clone()]);
            let reference = hexadecimal(&self.reference[shown]);
            format!("at {place}; from {first} on engine {engine}, reference {reference}")
        })
    }
}

/// Items in hexadecimal with blanks between them.
pub fn hexadecimal<T: UpperHex>(items: &[T]) -> String {
    let digits = 2 * size_of::<T>();
    let items: Vec<String> = items.iter().map(|i| format!("{i:0digits$X}")).collect();
    items.join(" ")
}
