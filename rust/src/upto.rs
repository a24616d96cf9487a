//! Lists in place, without a heap.

use crate::refusal::Refusal;
use crate::terms::{Decision, Key, Stamp, View};
use core::fmt;
use core::hash::{Hash, Hasher};
use core::ops::{Deref, DerefMut};

/// What a list may hold, and what stands in a place that is not used.
pub trait Item: Copy {
    const BLANK: Self;
}

impl Item for u8 {
    const BLANK: Self = 0;
}

impl Item for (Key, Stamp) {
    const BLANK: Self = (Key(0), Stamp(0));
}

impl Item for (Key, u64) {
    const BLANK: Self = (Key(0), 0);
}

impl Item for (u8, View) {
    const BLANK: Self = (0, View(0));
}

impl Item for (u8, Decision) {
    const BLANK: Self = (0, Decision::Abort);
}

impl Item for (u8, Decision, View) {
    const BLANK: Self = (0, Decision::Abort, View(0));
}

/// A list of up to so many items, in place: it is read and changed as a slice. A ninth read, or the 27th box, is refused with [`Refusal::Count`], as a record
/// with so many would be.
///
/// ```
/// use stobbarel::{Refusal, UpTo, View};
///
/// let mut told = UpTo::<(u8, View), 26>::from([(0, View(1)), (4, View(2))]);
/// told.push((5, View(2)))?;
/// assert_eq!(told.len(), 3);
/// assert_eq!(told[1].1, View(2));
/// # Ok::<(), Refusal>(())
/// ```
///
/// An array that is too long for it does not compile:
///
/// ```compile_fail
/// let boxes = stobbarel::UpTo::<u8, 2>::from([0, 1, 2]);
/// ```
#[derive(Clone, Copy)]
pub struct UpTo<T, const N: usize> {
    count: usize,
    places: [T; N],
}

impl<T: Item, const N: usize> UpTo<T, N> {
    /// A list of nothing.
    ///
    /// ```
    /// assert!(stobbarel::UpTo::<u8, 26>::new().is_empty());
    /// ```
    #[must_use]
    pub const fn new() -> Self {
        UpTo { count: 0, places: [T::BLANK; N] }
    }

    /// So many items, each by its place; what is above N is left out.
    pub(crate) fn of(count: usize, item: impl Fn(usize) -> T) -> Self {
        let mut all = Self::new();
        all.count = count.min(N);
        all.iter_mut().enumerate().for_each(|(place, one)| *one = item(place));
        all
    }

    /// One more at the end; [`Refusal::Count`] where there is no place for it.
    ///
    /// ```
    /// use stobbarel::{Refusal, UpTo};
    ///
    /// let mut boxes = UpTo::<u8, 2>::from([0, 1]);
    /// assert_eq!(boxes.push(2), Err(Refusal::Count));
    /// ```
    pub fn push(&mut self, item: T) -> Result<(), Refusal> {
        *self.places.get_mut(self.count).ok_or(Refusal::Count)? = item;
        self.count += 1;
        Ok(())
    }

    /// All that these are; [`Refusal::Count`] where there are too many.
    ///
    /// ```
    /// use stobbarel::{Refusal, UpTo};
    ///
    /// assert_eq!(UpTo::<u8, 26>::gather(0..6)?, [0, 1, 2, 3, 4, 5]);
    /// assert_eq!(UpTo::<u8, 26>::gather(0..27), Err(Refusal::Count));
    /// # Ok::<(), Refusal>(())
    /// ```
    pub fn gather(items: impl IntoIterator<Item = T>) -> Result<Self, Refusal> {
        let mut all = Self::new();
        items.into_iter().try_for_each(|item| all.push(item))?;
        Ok(all)
    }

    /// Only the first so many stay.
    ///
    /// ```
    /// let mut boxes = stobbarel::UpTo::<u8, 26>::from([3, 4, 5]);
    /// boxes.truncate(1);
    /// assert_eq!(boxes, [3]);
    /// ```
    pub fn truncate(&mut self, count: usize) {
        self.count = self.count.min(count);
    }

    /// Only those stay that are wanted, in their order.
    ///
    /// ```
    /// let mut boxes = stobbarel::UpTo::<u8, 26>::from([3, 4, 5]);
    /// boxes.retain(|number| *number != 4);
    /// assert_eq!(boxes, [3, 5]);
    /// ```
    pub fn retain(&mut self, wanted: impl Fn(&T) -> bool) {
        let before = *self;
        self.count = 0;
        for item in before.iter().filter(|item| wanted(item)) {
            self.places[self.count] = *item;
            self.count += 1;
        }
    }
}

impl<T, const N: usize> Deref for UpTo<T, N> {
    type Target = [T];

    fn deref(&self) -> &[T] {
        &self.places[..self.count]
    }
}

impl<T, const N: usize> DerefMut for UpTo<T, N> {
    fn deref_mut(&mut self) -> &mut [T] {
        &mut self.places[..self.count]
    }
}

impl<T: Item, const N: usize> Default for UpTo<T, N> {
    fn default() -> Self {
        Self::new()
    }
}

impl<T: Item, const N: usize, const M: usize> From<[T; M]> for UpTo<T, N> {
    fn from(items: [T; M]) -> Self {
        const { assert!(M <= N, "more items than this list has places") };
        UpTo::of(M, |place| items[place])
    }
}

impl<T: Item, const N: usize> TryFrom<&[T]> for UpTo<T, N> {
    type Error = Refusal;

    fn try_from(items: &[T]) -> Result<Self, Refusal> {
        Self::gather(items.iter().copied())
    }
}

impl<T, const N: usize> IntoIterator for UpTo<T, N> {
    type Item = T;
    type IntoIter = core::iter::Take<core::array::IntoIter<T, N>>;

    fn into_iter(self) -> Self::IntoIter {
        self.places.into_iter().take(self.count)
    }
}

impl<'a, T, const N: usize> IntoIterator for &'a UpTo<T, N> {
    type Item = &'a T;
    type IntoIter = core::slice::Iter<'a, T>;

    fn into_iter(self) -> Self::IntoIter {
        self.iter()
    }
}

impl<T: fmt::Debug, const N: usize> fmt::Debug for UpTo<T, N> {
    fn fmt(&self, f: &mut fmt::Formatter<'_>) -> fmt::Result {
        fmt::Debug::fmt(&**self, f)
    }
}

impl<T: PartialEq, const N: usize> PartialEq for UpTo<T, N> {
    fn eq(&self, other: &Self) -> bool {
        **self == **other
    }
}

impl<T: Eq, const N: usize> Eq for UpTo<T, N> {}

impl<T: PartialEq, const N: usize, const M: usize> PartialEq<[T; M]> for UpTo<T, N> {
    fn eq(&self, other: &[T; M]) -> bool {
        **self == *other
    }
}

impl<T: PartialEq, const N: usize> PartialEq<&[T]> for UpTo<T, N> {
    fn eq(&self, other: &&[T]) -> bool {
        **self == **other
    }
}

impl<T: Hash, const N: usize> Hash for UpTo<T, N> {
    fn hash<H: Hasher>(&self, state: &mut H) {
        (**self).hash(state);
    }
}
