//! A stand-in for `SmallVec`: a growing list under its name, with the calls that `budget.rs` makes.

pub trait Array {
    type Item;
}

impl<T, const N: usize> Array for [T; N] {
    type Item = T;
}

#[derive(Debug)]
pub struct SmallVec<A: Array>(Vec<A::Item>)
where
    A::Item: std::fmt::Debug;

impl<A: Array> SmallVec<A>
where
    A::Item: std::fmt::Debug,
{
    pub fn new() -> Self {
        SmallVec(Vec::new())
    }

    pub fn push(&mut self, item: A::Item) {
        self.0.push(item);
    }

    pub fn pop(&mut self) -> Option<A::Item> {
        self.0.pop()
    }

    pub fn last_mut(&mut self) -> Option<&mut A::Item> {
        self.0.last_mut()
    }
}
