//! Sets of categories, and the records of a run that have one.

use crate::HIGHEST_CATEGORY;
use crate::header::{bq_record, bq_set};
use std::fmt;
use std::mem::{align_of, offset_of, size_of};

/// A set of categories, 1 to 184.
///
/// ```
/// use balqirven::Set;
///
/// let set = Set::of([1, 63, 184]).unwrap();
/// assert_eq!(set.categories().collect::<Vec<_>>(), [1, 63, 184]);
/// assert_eq!(set.words(), [1 << 63 | 1 << 1, 0, 0x100]);
/// assert_eq!(format!("{set:?}"), "Set([0x8000000000000002, 0x0, 0x100])");
/// ```
#[repr(transparent)]
#[derive(Clone, Copy, Default, PartialEq, Eq)]
pub struct Set(bq_set);

impl Set {
    /// The set without a category.
    ///
    /// ```
    /// use balqirven::Set;
    ///
    /// assert_eq!(Set::empty().categories().count(), 0);
    /// assert_eq!(Set::empty(), Set::default());
    /// ```
    pub const fn empty() -> Set {
        Set(bq_set { word: [0; 3] })
    }

    /// The set of these categories, in any order, repeats allowed. `None` where one of them is not 1 to 184.
    ///
    /// ```
    /// use balqirven::Set;
    ///
    /// assert_eq!(Set::of([64, 65, 64]).unwrap().words(), [1, 1 << 63, 0]);
    /// assert_eq!(Set::of([]), Some(Set::empty()));
    /// assert_eq!(Set::of([1, 185]), None);
    /// ```
    pub fn of(categories: impl IntoIterator<Item = u32>) -> Option<Set> {
        categories.into_iter().try_fold(Set::empty(), Set::with)
    }

    /// The set with this category too. `None` where it is not 1 to 184.
    ///
    /// ```
    /// use balqirven::Set;
    ///
    /// assert_eq!(Set::empty().with(129).unwrap().words(), [0, 0, 1 << 63]);
    /// assert_eq!(Set::empty().with(184).unwrap().words(), [0, 0, 0x100]);
    /// assert_eq!(Set::empty().with(185), None);
    /// assert_eq!(Set::empty().with(0), None);
    /// ```
    pub fn with(mut self, category: u32) -> Option<Set> {
        let (word, bit) = place(category)?;
        self.0.word[word] |= bit;
        Some(self)
    }

    /// Whether the set has this category. A number that is no category is in no set.
    ///
    /// ```
    /// use balqirven::Set;
    ///
    /// let set = Set::from_words([1 << 63, 0, 0xff]);
    /// assert!(set.has(1));
    /// assert!(!set.has(2));
    /// assert!(!set.has(185), "the bit is there, and is no category");
    /// ```
    pub fn has(self, category: u32) -> bool {
        place(category).is_some_and(|(word, bit)| self.0.word[word] & bit != 0)
    }

    /// Its categories, lowest first.
    ///
    /// ```
    /// use balqirven::Set;
    ///
    /// assert_eq!(Set::of([184, 100, 1]).unwrap().categories().collect::<Vec<_>>(), [1, 100, 184]);
    /// ```
    pub fn categories(self) -> impl Iterator<Item = u32> {
        (1..=HIGHEST_CATEGORY).filter(move |&category| self.has(category))
    }

    /// The set as its three words: category 1 is the top bit of the first, 65 that of the second, 129 that of the third. It takes any words, also with one
    /// of the eight lowest bits of the third, which are no categories. Where such a set is sought, the call is refused with
    /// [`Refusal::BadLevelOrCategory`](crate::Refusal::BadLevelOrCategory).
    ///
    /// ```
    /// use balqirven::{Refusal, Set, Table};
    ///
    /// assert_eq!(Set::from_words([1 << 63, 0, 0]), Set::of([1]).unwrap());
    ///
    /// let refused = Table::fresh().by_level(9, Set::from_words([0, 0, 0x80])).unwrap_err();
    /// assert_eq!(refused.refusal, Refusal::BadLevelOrCategory);
    /// ```
    pub const fn from_words(words: [u64; 3]) -> Set {
        Set(bq_set { word: words })
    }

    /// Its three words.
    ///
    /// ```
    /// use balqirven::Set;
    ///
    /// assert_eq!(Set::from_words([1, 2, 3]).words(), [1, 2, 3]);
    /// ```
    pub const fn words(self) -> [u64; 3] {
        self.0.word
    }

    /// As the header has it.
    pub(crate) const fn lent(self) -> bq_set {
        self.0
    }
}

/// The word and the bit of a category.
fn place(category: u32) -> Option<(usize, u64)> {
    let index = (1..=HIGHEST_CATEGORY).contains(&category).then(|| category as usize - 1)?;
    Some((index / 64, 1 << (63 - index % 64)))
}

impl fmt::Debug for Set {
    fn fmt(&self, f: &mut fmt::Formatter<'_>) -> fmt::Result {
        let [first, second, third] = self.0.word;
        write!(f, "Set([{first:#x}, {second:#x}, {third:#x}])")
    }
}

/// A record of a run, of any content: see [`lowest_in_run`](crate::lowest_in_run). (An old record is bytes, and something else.)
///
/// ```
/// use balqirven::{Record, Set, lowest_in_run};
///
/// let record = Record { label: 70_000, level: 9, set: Set::of([1]).unwrap() };
/// assert_eq!(lowest_in_run(&[record], 9, record.set), Ok(Some(70_000)));
/// assert_eq!(lowest_in_run(&[Record { level: 8, ..record }], 9, record.set), Ok(None));
/// ```
#[repr(C)]
#[derive(Clone, Copy, Debug, Default, PartialEq, Eq)]
pub struct Record {
    /// A label's number.
    pub label: u64,
    /// A level.
    pub level: u64,
    /// A set of categories.
    pub set: Set,
}

// A slice of records goes to the library as it is, so a record has to lie in memory as the header's does.
const _: () = {
    assert!(size_of::<Record>() == size_of::<bq_record>() && align_of::<Record>() == align_of::<bq_record>());
    assert!(offset_of!(Record, label) == offset_of!(bq_record, label));
    assert!(offset_of!(Record, level) == offset_of!(bq_record, level));
    assert!(offset_of!(Record, set) == offset_of!(bq_record, set));
};
