//! Stand-in for the crate arrayvec: a list that panics when it grows past its bound.

#[derive(Debug, Clone, PartialEq, Eq, PartialOrd, Ord, Hash, Default)]
pub struct ArrayVec<T, const N: usize>(Vec<T>);

impl<T, const N: usize> ArrayVec<T, N> {
    pub const fn new_const() -> Self {
        ArrayVec(Vec::new())
    }

    pub fn as_slice(&self) -> &[T] {
        &self.0
    }
}

impl<T, const N: usize> Extend<T> for ArrayVec<T, N> {
    fn extend<I: IntoIterator<Item = T>>(&mut self, items: I) {
        for item in items {
            assert!(self.0.len() < N, "ArrayVec: too many items");
            self.0.push(item);
        }
    }
}

impl<T, const N: usize> FromIterator<T> for ArrayVec<T, N> {
    fn from_iter<I: IntoIterator<Item = T>>(items: I) -> Self {
        let mut out = Self::new_const();
        out.extend(items);
        out
    }
}

impl<T, const N: usize> From<[T; N]> for ArrayVec<T, N> {
    fn from(items: [T; N]) -> Self {
        items.into_iter().collect()
    }
}

impl<T: Clone, const N: usize> TryFrom<&[T]> for ArrayVec<T, N> {
    type Error = ();

    fn try_from(items: &[T]) -> Result<Self, ()> {
        if items.len() > N {
            return Err(());
        }
        Ok(items.iter().cloned().collect())
    }
}

impl<T, const N: usize> IntoIterator for ArrayVec<T, N> {
    type Item = T;
    type IntoIter = std::vec::IntoIter<T>;

    fn into_iter(self) -> Self::IntoIter {
        self.0.into_iter()
    }
}
