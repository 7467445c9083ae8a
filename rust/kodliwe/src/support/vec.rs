//! Vectors whose allocation may fail.
use super::alloc::{AllocError, Allocator, Global};
use std::io;
use std::marker::PhantomData;
use std::ops::{Deref, DerefMut};
use std::vec::IntoIter;

/// Rust's `Vec`. Each call that allocates returns a `Result`.
#[derive(Clone, Debug, PartialEq, Eq)]
pub struct Vec<T, A: Allocator = Global> {
    items: std::vec::Vec<T>,
    alloc: PhantomData<A>,
}

impl<T, A: Allocator> Vec<T, A> {
    /// Returns an empty vector.
    pub fn new(_alloc: A) -> Self {
        Vec {
            items: std::vec::Vec::new(),
            alloc: PhantomData,
        }
    }

    /// Returns a vector of these elements.
    pub fn from_std(_alloc: A, items: std::vec::Vec<T>) -> Result<Self, AllocError> {
        Ok(Vec {
            items,
            alloc: PhantomData,
        })
    }

    /// Returns the elements.
    pub fn as_slice(&self) -> &[T] {
        &self.items
    }

    /// Appends an element.
    pub fn push(&mut self, item: T) -> Result<(), AllocError> {
        self.items.try_reserve(1).map_err(|_| AllocError)?;
        self.items.push(item);
        Ok(())
    }

    /// Removes the last element, and returns it.
    pub fn pop(&mut self) -> Option<T> {
        self.items.pop()
    }

    /// Removes all elements.
    pub fn clear(&mut self) {
        self.items.clear();
    }

    /// Returns for how many elements there is memory.
    pub fn capacity(&self) -> usize {
        self.items.capacity()
    }

    /// Makes room for more elements.
    pub fn reserve_exact(&mut self, more: usize) -> Result<(), AllocError> {
        self.items.try_reserve_exact(more).map_err(|_| AllocError)
    }

    /// Frees memory for which there are no elements.
    pub fn shrink_to_fit(&mut self) {
        self.items.shrink_to_fit();
    }
}

impl<T: Clone, A: Allocator> Vec<T, A> {
    /// Appends copies of an element, or removes elements, until there are `len`.
    pub fn resize(&mut self, len: usize, item: T) -> Result<(), AllocError> {
        let more = len.saturating_sub(self.items.len());
        self.items.try_reserve(more).map_err(|_| AllocError)?;
        self.items.resize(len, item);
        Ok(())
    }
}

impl<T: Copy, A: Allocator> Vec<T, A> {
    /// Returns a vector of copies of the elements.
    pub fn from_slice(alloc: A, items: &[T]) -> Result<Self, AllocError> {
        let mut copy = Vec::new(alloc);
        copy.extend_from_slice(items)?;
        Ok(copy)
    }

    /// Appends copies of the elements.
    pub fn extend_from_slice(&mut self, items: &[T]) -> Result<(), AllocError> {
        self.items
            .try_reserve(items.len())
            .map_err(|_| AllocError)?;
        self.items.extend_from_slice(items);
        Ok(())
    }
}

impl<T, A: Allocator> Deref for Vec<T, A> {
    type Target = [T];

    fn deref(&self) -> &[T] {
        &self.items
    }
}

impl<T, A: Allocator> DerefMut for Vec<T, A> {
    fn deref_mut(&mut self) -> &mut [T] {
        &mut self.items
    }
}

impl<T, A: Allocator> IntoIterator for Vec<T, A> {
    type Item = T;
    type IntoIter = IntoIter<T>;

    fn into_iter(self) -> IntoIter<T> {
        self.items.into_iter()
    }
}

impl<A: Allocator> io::Write for Vec<u8, A> {
    fn write(&mut self, bytes: &[u8]) -> io::Result<usize> {
        self.extend_from_slice(bytes)?;
        Ok(bytes.len())
    }

    fn flush(&mut self) -> io::Result<()> {
        Ok(())
    }
}

/// `to_vec(alloc)`.
pub trait ToVecIn<T> {
    /// Returns a vector of copies of the elements.
    fn to_vec_in(&self, alloc: Global) -> Result<Vec<T>, AllocError>;
}

impl<T: Copy> ToVecIn<T> for [T] {
    fn to_vec_in(&self, alloc: Global) -> Result<Vec<T>, AllocError> {
        Vec::from_slice(alloc, self)
    }
}

/// `collect(alloc)`.
pub trait CollectIn: Iterator + Sized {
    /// Returns all elements.
    fn collect_in<C: FromIterIn<Self::Item>>(self, alloc: Global) -> Result<C, AllocError> {
        C::from_iter_in(self, alloc)
    }
}

impl<I: Iterator> CollectIn for I {}

/// What `collect(alloc)` returns.
pub trait FromIterIn<T>: Sized {
    /// Returns all elements.
    fn from_iter_in<I: Iterator<Item = T>>(items: I, alloc: Global) -> Result<Self, AllocError>;
}

impl<T> FromIterIn<T> for Vec<T> {
    fn from_iter_in<I: Iterator<Item = T>>(items: I, alloc: Global) -> Result<Self, AllocError> {
        let mut all = Vec::new(alloc);
        for item in items {
            all.push(item)?;
        }
        Ok(all)
    }
}
