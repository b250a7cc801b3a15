//! Stands in for the original's `padded_it.rs`: iterators over lanes, with the count of padding characters.
//! `Advance` carries `iter_bp`, hence `unpack`, and the start of every lane stream; `PaddedIt::map` and
//! `PaddedIt::advance` carry the flag windows. A skip beyond the last step leaves no step: that is a guess.

pub trait ChunkIt<T>: ExactSizeIterator<Item = T> {}

impl<T, I: ExactSizeIterator<Item = T>> ChunkIt<T> for I {}

pub trait Advance {
    /// The iterator without its first `n` items, which are computed and dropped.
    fn advance(self, n: usize) -> Self;
}

impl<I: ExactSizeIterator> Advance for I {
    #[inline(always)]
    fn advance(mut self, n: usize) -> Self {
        self.by_ref().take(n).for_each(drop);
        self
    }
}

pub struct PaddedIt<I> {
    pub it: I,
    pub padding: usize,
}

impl<I> PaddedIt<I> {
    #[inline(always)]
    pub fn map<T, U>(self, f: impl FnMut(T) -> U) -> PaddedIt<impl ChunkIt<U>>
    where
        I: ChunkIt<T>,
    {
        PaddedIt {
            it: self.it.map(f),
            padding: self.padding,
        }
    }

    #[inline(always)]
    pub fn advance<T>(self, n: usize) -> Self
    where
        I: ChunkIt<T>,
    {
        PaddedIt {
            it: self.it.advance(n),
            padding: self.padding,
        }
    }
}
