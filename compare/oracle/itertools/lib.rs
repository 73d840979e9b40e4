//! Stand-in for the crate `itertools`, used only where Debian's package cannot be had: the one method that is called.

pub trait Itertools: Iterator {
    /// The items without those that equal the one just before them.
    fn dedup(self) -> std::vec::IntoIter<Self::Item>
    where
        Self: Sized,
        Self::Item: PartialEq,
    {
        let mut items: Vec<_> = self.collect();
        items.dedup();
        items.into_iter()
    }
}

impl<I: Iterator> Itertools for I {}
