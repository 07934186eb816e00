//! Stand-in for `rayon`: one thread, in order.

pub mod prelude {
    pub use crate::{IntoParallelIterator, ParallelIterator};
}

/// An iterator walked in order, by one thread.
pub struct InOrder<I>(I);

/// What can be walked.
pub trait IntoParallelIterator {
    type Iter: Iterator;
    fn into_par_iter(self) -> InOrder<Self::Iter>;
}

impl<C: IntoIterator> IntoParallelIterator for C {
    type Iter = C::IntoIter;
    fn into_par_iter(self) -> InOrder<C::IntoIter> {
        InOrder(self.into_iter())
    }
}

/// The walks that the assemblers make.
pub trait ParallelIterator: Sized {
    type Items: Iterator;

    fn items(self) -> Self::Items;

    fn map<R, F>(self, f: F) -> InOrder<std::iter::Map<Self::Items, F>>
    where
        F: Fn(<Self::Items as Iterator>::Item) -> R,
    {
        InOrder(self.items().map(f))
    }

    fn reduce<Id, Op>(self, identity: Id, op: Op) -> <Self::Items as Iterator>::Item
    where
        Id: Fn() -> <Self::Items as Iterator>::Item,
        Op: Fn(
            <Self::Items as Iterator>::Item,
            <Self::Items as Iterator>::Item,
        ) -> <Self::Items as Iterator>::Item,
    {
        self.items().fold(identity(), op)
    }

    fn sum<S>(self) -> S
    where
        S: std::iter::Sum<<Self::Items as Iterator>::Item>,
    {
        self.items().sum()
    }
}

impl<I: Iterator> ParallelIterator for InOrder<I> {
    type Items = I;
    fn items(self) -> I {
        self.0
    }
}
