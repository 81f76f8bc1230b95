//! Stands for `itertools`: the one adapter that the Rust uses, for pairs.

pub trait Itertools: Iterator + Sized {
    /// Each element with the one after it, and the last with the first.
    fn circular_tuple_windows(mut self) -> CircularPairs<Self>
    where
        Self::Item: Copy,
    {
        let first = self.next();
        CircularPairs { first, before: first, rest: self }
    }
}

impl<I: Iterator> Itertools for I {}

pub struct CircularPairs<I: Iterator> {
    first: Option<I::Item>,
    before: Option<I::Item>,
    rest: I,
}

impl<I: Iterator> Iterator for CircularPairs<I>
where
    I::Item: Copy,
{
    type Item = (I::Item, I::Item);
    fn next(&mut self) -> Option<Self::Item> {
        let before = self.before?;
        self.before = self.rest.next();
        match self.before {
            Some(this) => Some((before, this)),
            None => Some((before, self.first?)),
        }
    }
}
