//! What is lent to the library, between guards: a write outside of it changes a guard.

use crate::difference::{same, same_slices, Difference};

const GUARD: usize = 16;

#[derive(Clone)]
pub struct Lent<T> {
    all: Vec<T>,
    guard: T,
}

impl<T: Copy + PartialEq + std::fmt::Debug> Lent<T> {
    pub fn new(content: &[T], guard: T) -> Lent<T> {
        let mut all = Vec::with_capacity(content.len() + 2 * GUARD);
        all.resize(GUARD, guard);
        all.extend_from_slice(content);
        all.resize(content.len() + 2 * GUARD, guard);
        Lent { all, guard }
    }

    pub fn get(&self) -> &[T] {
        &self.all[GUARD..self.all.len() - GUARD]
    }

    pub fn get_mut(&mut self) -> &mut [T] {
        let end = self.all.len() - GUARD;
        &mut self.all[GUARD..end]
    }

    /// The content of something of so many places.
    pub fn array<const N: usize>(&mut self) -> &mut [T; N] {
        self.get_mut().try_into().unwrap()
    }

    fn guards_stand(&self) -> bool {
        let (before, behind) = (&self.all[..GUARD], &self.all[self.all.len() - GUARD..]);
        before.iter().chain(behind).all(|guard| *guard == self.guard)
    }

    /// That the content is as expected and nothing around it was written.
    pub fn holds(&self, what: &str, expected: &[T]) -> Result<(), Difference> {
        same(&format_args!("what is around {what}, untouched"), &true, &self.guards_stand())?;
        same_slices(what, expected, self.get())
    }
}
