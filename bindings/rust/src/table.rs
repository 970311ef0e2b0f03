//! The table, and what its calls answer.

use crate::answer::{counted, decided, found, front, labelled, mapped, part, peer, written};
use crate::header::*;
use crate::{ENTRIES, LABELS, LONGEST_LABEL, LONGEST_RULE, Refusal, Refused, Set, WORDS};
use std::fmt;

/// The answer to a question. The rule is one of the seven of Smack, by its number.
///
/// ```
/// use balqirven::{Decision, Table};
///
/// let mut table = Table::fresh();
/// table.change("Alarm Air r -")?;
/// assert_eq!(table.question("*", "Air", "r", false)?, Decision::Denied { rule: 1 });
/// assert_eq!(table.question("^", "Air", "rx", false)?, Decision::Granted { rule: 2 });
/// assert_eq!(table.question("Desk", "_", "rx", false)?, Decision::Granted { rule: 3 });
/// assert_eq!(table.question("Desk", "*", "w", false)?, Decision::Granted { rule: 4 });
/// assert_eq!(table.question("Desk", "Desk", "rwxa", false)?, Decision::Granted { rule: 5 });
/// assert_eq!(table.question("Alarm", "Air", "r", false)?, Decision::Granted { rule: 6 });
/// assert_eq!(table.question("Desk", "Air", "r", false)?, Decision::Denied { rule: 7 });
/// assert_eq!(table.question("Desk", "Air", "r", true)?, Decision::Override { rule: 7 });
/// assert_eq!(table.question("*", "Air", "r", true)?, Decision::Override { rule: 1 });
/// # Ok::<(), balqirven::Refused>(())
/// ```
///
/// An answer that nobody looks at is a warning, or an error where the host wants it:
///
/// ```compile_fail
/// #![deny(unused_must_use)]
/// balqirven::Table::fresh().question("Desk", "Air", "r", false).unwrap();
/// ```
#[must_use = "an answer can be a denial"]
#[derive(Clone, Copy, Debug, PartialEq, Eq, Hash)]
pub enum Decision {
    /// Granted, by rule 2 to 6.
    Granted {
        /// The rule's number.
        rule: u8,
    },
    /// Denied, by rule 1 or 7.
    Denied {
        /// The rule's number.
        rule: u8,
    },
    /// Granted by override.
    Override {
        /// The number of the rule that would have denied, 1 or 7.
        rule: u8,
    },
}

/// The label that a new object gets.
///
/// ```
/// use balqirven::{NewObject, Table};
///
/// let mut table = Table::fresh();
/// table.change("Alarm Records wt -")?;
/// assert_eq!(table.new_object("Alarm", "Records", true, false)?, NewObject::FolderLabel { transmutes: false });
/// assert_eq!(table.new_object("Alarm", "Records", false, false)?, NewObject::CreatorLabel);
/// assert_eq!(table.new_object("Desk", "Records", true, false)?, NewObject::Denied);
/// # Ok::<(), balqirven::Refused>(())
/// ```
///
/// It is to be looked at, as a [`Decision`] is:
///
/// ```compile_fail
/// #![deny(unused_must_use)]
/// balqirven::Table::fresh().new_object("Desk", "Records", true, false).unwrap();
/// ```
#[must_use = "an answer can be a denial"]
#[derive(Clone, Copy, Debug, PartialEq, Eq, Hash)]
pub enum NewObject {
    /// The creator's label, and the new object does not transmute.
    CreatorLabel,
    /// The folder's label.
    FolderLabel {
        /// Whether the new object transmutes: it does where it is a folder.
        transmutes: bool,
    },
    /// None: the creator may not write to the folder.
    Denied,
}

/// The mapping of a label.
///
/// ```
/// use balqirven::{Mapping, Set, Table};
///
/// let mut table = Table::fresh();
/// table.mapping("Archive 9 63 1 63")?;
/// assert_eq!(table.by_label("Archive")?, Some(Mapping { level: 9, set: Set::of([1, 63]).unwrap(), count: 2 }));
/// # Ok::<(), balqirven::Refused>(())
/// ```
#[derive(Clone, Copy, Debug, PartialEq, Eq)]
pub struct Mapping {
    /// Its level.
    pub level: u8,
    /// Its categories.
    pub set: Set,
    /// How many categories these are.
    pub count: u32,
}

/// The label that a packet option says. It need not be one of the table's.
///
/// ```
/// use balqirven::{Decision, Table};
///
/// let table = Table::fresh();
/// let label = table.read_option([134, 12, 0, 0, 0, 3, 1, 6, 0, 250, 32, 128])?;
/// assert_eq!(label.bytes(), b"A");
/// assert_eq!(table.question(&label, "_", "r", false)?, Decision::Granted { rule: 3 });
/// assert_eq!(format!("{label:?}"), "PeerLabel(\"A\")");
/// # Ok::<(), balqirven::Refused>(())
/// ```
#[derive(Clone, PartialEq, Eq)]
pub struct PeerLabel {
    pub(crate) length: usize,
    pub(crate) bytes: [u8; LONGEST_LABEL],
}

impl PeerLabel {
    /// Its bytes.
    ///
    /// ```
    /// let table = balqirven::Table::fresh();
    /// let label = table.read_option([134, 13, 0, 0, 0, 3, 1, 7, 0, 250, 32, 161, 0])?; // a zero byte at the end is dropped
    /// assert_eq!(label.bytes(), b"AB");
    /// # Ok::<(), balqirven::Refused>(())
    /// ```
    pub fn bytes(&self) -> &[u8] {
        &self.bytes[..self.length]
    }
}

impl AsRef<[u8]> for PeerLabel {
    fn as_ref(&self) -> &[u8] {
        self.bytes()
    }
}

impl fmt::Debug for PeerLabel {
    fn fmt(&self, f: &mut fmt::Formatter<'_>) -> fmt::Result {
        write!(f, "PeerLabel(\"{}\")", self.bytes().escape_ascii())
    }
}

/// The memory of a table, as the header's calls take it.
#[derive(Clone)]
pub(crate) struct Parts {
    pub(crate) labels: [u8; LABELS],
    pub(crate) entries: [u8; ENTRIES],
    pub(crate) words: [u64; WORDS],
}

/// Labels, rules, mappings and the override list. It owns its memory, some 18 KB on the heap, so it is moved cheaply.
///
/// Where a table is damaged, every call that can be refused is refused with [`Refusal::Damaged`], and leaves it as it is; [`Table::make_fresh`] makes a fresh
/// one of it. A table that was grown from a fresh one by calls alone is never damaged.
///
/// ```
/// use balqirven::{Decision, Table};
///
/// let mut table = Table::fresh();
/// table.change("Alarm Archive r -")?;
/// assert_eq!(table.question("Alarm", "Archive", "r", false)?, Decision::Granted { rule: 6 });
/// assert_eq!(table.revoke("Alarm")?, 1);
/// assert_eq!(table.question("Alarm", "Archive", "r", false)?, Decision::Denied { rule: 7 });
/// # Ok::<(), balqirven::Refused>(())
/// ```
#[derive(Clone)]
pub struct Table {
    pub(crate) parts: Box<Parts>,
}

/// A fresh table, and tables whose memory comes from elsewhere.
impl Table {
    /// A fresh table: the labels `_ ^ * ? @` alone, and no rule.
    ///
    /// ```
    /// use balqirven::Table;
    ///
    /// let table = Table::fresh();
    /// assert_eq!(table.labels()?.collect::<Vec<_>>(), [b"_", b"^", b"*", b"?", b"@"]);
    /// assert_eq!(table.rules()?.count(), 0);
    /// # Ok::<(), balqirven::Refused>(())
    /// ```
    pub fn fresh() -> Table {
        let mut table = Table::from_parts(&[0; LABELS], &[0; ENTRIES], &[0; WORDS]);
        table.make_fresh();
        table
    }

    /// Makes this table a fresh one, whatever it held, a damaged one too. Bytes of its memory that no label or rule holds stay as they were.
    ///
    /// ```
    /// use balqirven::{Refusal, Table};
    ///
    /// let mut table = Table::from_parts(&[255; 16384], &[255; 840], &[u64::MAX; 100]);
    /// assert_eq!(table.label(0).unwrap_err().refusal, Refusal::Damaged);
    /// table.make_fresh();
    /// assert_eq!(table.label(4)?, b"@");
    /// assert_eq!(table.label(5).unwrap_err().refusal, Refusal::NoSuchNumber);
    /// # Ok::<(), balqirven::Refused>(())
    /// ```
    pub fn make_fresh(&mut self) {
        let Parts { labels, entries, words } = &mut *self.parts;
        // SAFETY: valid: the parts are whole arrays, each with its own length, and the words are aligned as `u64`; apart: they are three fields; alone:
        // `&mut self`.
        let answer = unsafe { bq_fresh_table(labels.as_mut_ptr(), labels.len(), entries.as_ptr(), entries.len(), words.as_mut_ptr(), words.len()) };
        assert!(!answer.refused, "libbalqirven.a refused a fresh table with {}, though its parts are of their full size", answer.number);
    }

    /// The table that these three parts are, copied: for a host that keeps a state elsewhere, in a file or in memory that it shares and copies first. Any
    /// contents are allowed: what is no state of a table is refused as damaged by each call.
    ///
    /// ```
    /// use balqirven::Table;
    ///
    /// let mut table = Table::fresh();
    /// table.change("Alarm Air r -")?;
    /// let (labels, entries, words) = table.parts();
    /// let same = Table::from_parts(labels, entries, words);
    /// assert_eq!(same.rules()?.collect::<Vec<_>>(), [b"Alarm Air r\n"]);
    /// # Ok::<(), balqirven::Refused>(())
    /// ```
    ///
    /// A part of another size cannot be said:
    ///
    /// ```compile_fail,E0308
    /// balqirven::Table::from_parts(&[0; 16384], &[0; 840], &[0; 36]);
    /// ```
    pub fn from_parts(labels: &[u8; LABELS], entries: &[u8; ENTRIES], words: &[u64; WORDS]) -> Table {
        Table { parts: Box::new(Parts { labels: *labels, entries: *entries, words: *words }) }
    }

    /// The three parts: labels, entries, words.
    ///
    /// ```
    /// let table = balqirven::Table::fresh();
    /// let (labels, entries, words) = table.parts();
    /// assert_eq!((labels.len(), entries.len(), words.len()), (16384, 840, 100));
    /// assert_eq!(labels.iter().filter(|&&byte| b"_^*?@".contains(&byte)).count(), 5);
    /// ```
    pub fn parts(&self) -> (&[u8; LABELS], &[u8; ENTRIES], &[u64; WORDS]) {
        let Parts { labels, entries, words } = &*self.parts;
        (labels, entries, words)
    }

    /// The three parts, to be written. Any contents are allowed, as in [`Table::from_parts`].
    ///
    /// ```
    /// use balqirven::{Refusal, Table};
    ///
    /// let mut table = Table::fresh();
    /// let (_, _, words) = table.parts_mut();
    /// words[1] = 257; // rules, of which a table has at most 256
    /// assert_eq!(table.change("Alarm Air r -").unwrap_err().refusal, Refusal::Damaged);
    /// assert_eq!(table.parts().2[1], 257, "it is left as it is");
    /// ```
    pub fn parts_mut(&mut self) -> (&mut [u8; LABELS], &mut [u8; ENTRIES], &mut [u64; WORDS]) {
        let Parts { labels, entries, words } = &mut *self.parts;
        (labels, entries, words)
    }
}

/// Single writes. Each is a whole text of at most 600 bytes, a mapping of at most 1,000; all but that of [`Table::revoke`] are fields with one or more blanks
/// (space, tab) between.
impl Table {
    /// Changes a rule: subject, object, modes to allow, modes to deny. The pair's new modes are (old or allow) without deny; a pair with no rule starts from
    /// none and goes last. Letters are r w x a t and the dash, either case.
    ///
    /// Refused with: 0 Damaged, 1 TooLong, 2 WrongFields, 3 BadLabel, 4 BadAccess, 5 SameLabels, 6 LabelsFull, 7 RulesFull.
    ///
    /// ```
    /// use balqirven::{Refusal, Refused, Table};
    ///
    /// let mut table = Table::fresh();
    /// table.change("Alarm Archive rwx -")?;
    /// table.change("Alarm Archive at wx")?;
    /// assert_eq!(table.rules()?.collect::<Vec<_>>(), [b"Alarm Archive rat\n"]);
    /// assert_eq!(table.change("Alarm Archive rb -"), Err(Refused { refusal: Refusal::BadAccess, place: None }));
    /// assert_eq!(table.change("-Alarm Archive r -"), Err(Refused { refusal: Refusal::BadLabel, place: Some(0) }));
    /// # Ok::<(), balqirven::Refused>(())
    /// ```
    pub fn change(&mut self, text: impl AsRef<[u8]>) -> Result<(), Refused> {
        let text = text.as_ref();
        // SAFETY: valid: the parts are whole arrays and `text` is a slice, each with its own length, and the words are aligned as `u64`; apart: the parts are
        // three fields, and by `&mut self` `text` is not of them; alone: `&mut self`.
        written(unsafe { lend!(bq_change, write self, text.as_ptr(), text.len()) })
    }

    /// Revokes: every rule with this subject gets no modes and keeps its place. Answers how many rules these are, 0 for an unknown label. The whole text is
    /// one label, without blanks.
    ///
    /// Refused with: 0 Damaged, 1 TooLong, 3 BadLabel.
    ///
    /// ```
    /// use balqirven::{Refusal, Refused, Table};
    ///
    /// let mut table = Table::fresh();
    /// table.change("Alarm Air r -")?;
    /// table.change("Alarm Archive r -")?;
    /// assert_eq!(table.revoke("Alarm")?, 2);
    /// assert_eq!(table.rules()?.collect::<Vec<_>>(), [b"Alarm Air -\n".to_vec(), b"Alarm Archive -\n".to_vec()]);
    /// assert_eq!(table.revoke("Desk")?, 0);
    /// assert_eq!(table.revoke("Alarm "), Err(Refused { refusal: Refusal::BadLabel, place: Some(5) }));
    /// # Ok::<(), balqirven::Refused>(())
    /// ```
    ///
    /// It writes, so it needs the table alone:
    ///
    /// ```compile_fail,E0596
    /// let table = balqirven::Table::fresh();
    /// table.revoke("Alarm");
    /// ```
    pub fn revoke(&mut self, label: impl AsRef<[u8]>) -> Result<usize, Refused> {
        let label = label.as_ref();
        let Parts { labels, entries, words } = &mut *self.parts;
        // SAFETY: valid: the parts are whole arrays and `label` is a slice, each with its own length, and the words are aligned as `u64`; apart: the parts are
        // three fields, and by `&mut self` `label` is not of them; alone: `&mut self`.
        let answer =
            unsafe { bq_revoke(labels.as_ptr(), labels.len(), entries.as_mut_ptr(), entries.len(), words.as_ptr(), words.len(), label.as_ptr(), label.len()) };
        counted(answer)
    }

    /// Replaces the override list (onlycap) by 1 to 8 different labels, or clears it by a lone dash. Where the list is not empty, only a subject of it has
    /// its denial overridden.
    ///
    /// Refused with: 0 Damaged, 1 TooLong, 2 WrongFields, 3 BadLabel, 11 TooManyOverrides, 6 LabelsFull.
    ///
    /// ```
    /// use balqirven::{Decision, Refusal, Table};
    ///
    /// let mut table = Table::fresh();
    /// table.override_list("Desk Alarm")?;
    /// assert_eq!(table.question("Desk", "Air", "r", true)?, Decision::Override { rule: 7 });
    /// assert_eq!(table.question("Recorder", "Air", "r", true)?, Decision::Denied { rule: 7 });
    /// table.override_list("-")?;
    /// assert_eq!(table.question("Recorder", "Air", "r", true)?, Decision::Override { rule: 7 });
    /// assert_eq!(table.override_list("1 2 3 4 5 6 7 8 9").unwrap_err().refusal, Refusal::TooManyOverrides);
    /// # Ok::<(), balqirven::Refused>(())
    /// ```
    pub fn override_list(&mut self, text: impl AsRef<[u8]>) -> Result<(), Refused> {
        let text = text.as_ref();
        // SAFETY: valid: the parts are whole arrays and `text` is a slice, each with its own length, and the words are aligned as `u64`; apart: the parts are
        // three fields, and by `&mut self` `text` is not of them; alone: `&mut self`.
        written(unsafe { lend!(bq_onlycap, write self, text.as_ptr(), text.len()) })
    }

    /// Maps a label: label, level, then no or more categories, in any order, repeats allowed. Level 250 is refused: in a packet option it is for labels
    /// without a mapping.
    ///
    /// Refused with: 0 Damaged, 1 TooLong, 2 WrongFields, 3 BadLabel, 9 BadLevelOrCategory, 6 LabelsFull, 10 MappingsFull.
    ///
    /// ```
    /// use balqirven::{Refusal, Table};
    ///
    /// let mut table = Table::fresh();
    /// table.mapping("Archive 9 1 63")?;
    /// assert_eq!(table.by_label("Archive")?.unwrap().level, 9);
    /// assert_eq!(table.mapping("Archive 9 185").unwrap_err().refusal, Refusal::BadLevelOrCategory);
    /// assert_eq!(table.mapping("Archive 250").unwrap_err().refusal, Refusal::BadLevelOrCategory);
    /// # Ok::<(), balqirven::Refused>(())
    /// ```
    pub fn mapping(&mut self, text: impl AsRef<[u8]>) -> Result<(), Refused> {
        let text = text.as_ref();
        // SAFETY: valid: the parts are whole arrays and `text` is a slice, each with its own length, and the words are aligned as `u64`; apart: the parts are
        // three fields, and by `&mut self` `text` is not of them; alone: `&mut self`.
        written(unsafe { lend!(bq_mapping, write self, text.as_ptr(), text.len()) })
    }
}

/// Look-ups of mappings.
impl Table {
    /// The mapping of a label, if it has one.
    ///
    /// Refused with: 0 Damaged, 3 BadLabel.
    ///
    /// ```
    /// use balqirven::{Refusal, Refused, Table};
    ///
    /// let mut table = Table::fresh();
    /// table.mapping("Desk 9 184 100")?;
    /// let mapping = table.by_label("Desk")?.unwrap();
    /// assert_eq!((mapping.level, mapping.count), (9, 2));
    /// assert_eq!(mapping.set.categories().collect::<Vec<_>>(), [100, 184]);
    /// assert_eq!(table.by_label("Archive")?, None);
    /// assert_eq!(table.by_label("Archive/2026"), Err(Refused { refusal: Refusal::BadLabel, place: Some(7) }));
    /// # Ok::<(), balqirven::Refused>(())
    /// ```
    pub fn by_label(&self, label: impl AsRef<[u8]>) -> Result<Option<Mapping>, Refused> {
        let label = label.as_ref();
        // SAFETY: valid: the parts are whole arrays and `label` is a slice, each with its own length, and the words are aligned as `u64`; apart: nothing is
        // written; alone: table and label are borrowed, so nobody writes them.
        mapped(unsafe { lend!(bq_by_label, read self, label.as_ptr(), label.len()) })
    }

    /// The lowest-numbered label whose mapping has this level and this set, if there is one: its number, for [`Table::label`].
    ///
    /// Refused with: 0 Damaged, 9 BadLevelOrCategory. The last is for a level over 255 and for a set with a bit that is no category.
    ///
    /// ```
    /// use balqirven::{Refusal, Set, Table};
    ///
    /// let mut table = Table::fresh();
    /// table.mapping("Archive 9 1 63")?;
    /// table.mapping("Desk 9 63 1")?;
    /// let number = table.by_level(9, Set::of([1, 63]).unwrap())?.unwrap();
    /// assert_eq!(number, 5);
    /// assert_eq!(table.label(number)?, b"Archive");
    /// assert_eq!(table.by_level(9, Set::of([1]).unwrap())?, None);
    /// assert_eq!(table.by_level(256, Set::empty()).unwrap_err().refusal, Refusal::BadLevelOrCategory);
    /// # Ok::<(), balqirven::Refused>(())
    /// ```
    pub fn by_level(&self, level: u64, set: Set) -> Result<Option<usize>, Refused> {
        // SAFETY: valid: the parts are whole arrays, each with its own length, and the words are aligned as `u64`; apart: nothing is written; alone: the
        // table is borrowed, so nobody writes it.
        found(unsafe { lend!(bq_by_level, read self, level, set.lent()) })
    }
}

/// Questions, and the label of a new object.
impl Table {
    /// May subject have the access that request asks for, one or more of r w x a, either case, to object? `capable`: the asker has the override capability.
    ///
    /// Refused with: 0 Damaged, 3 BadLabel, 8 BadRequest.
    ///
    /// ```
    /// use balqirven::{Decision, Refusal, Refused, Table};
    ///
    /// let mut table = Table::fresh();
    /// table.change("Alarm Air r -")?;
    /// assert_eq!(table.question("Alarm", "Air", "R", false)?, Decision::Granted { rule: 6 });
    /// assert_eq!(table.question("Alarm", "Air", "rw", false)?, Decision::Denied { rule: 7 });
    /// assert_eq!(table.question("Alarm", "Air", "rw", true)?, Decision::Override { rule: 7 });
    /// assert_eq!(table.question("Alarm", "Air", "rt", true), Err(Refused { refusal: Refusal::BadRequest, place: None }));
    /// assert_eq!(table.question("Alarm", "A\"ir", "r", true), Err(Refused { refusal: Refusal::BadLabel, place: Some(1) }));
    /// # Ok::<(), balqirven::Refused>(())
    /// ```
    ///
    /// A question changes nothing, so any number of threads can ask one table at once:
    ///
    /// ```
    /// use balqirven::{Decision, Table};
    ///
    /// let mut table = Table::fresh();
    /// table.change("Alarm Air r -")?;
    /// let (read, write) = std::thread::scope(|threads| {
    ///     let read = threads.spawn(|| table.question("Alarm", "Air", "r", false));
    ///     let write = threads.spawn(|| table.question("Alarm", "Air", "w", false));
    ///     (read.join().unwrap(), write.join().unwrap())
    /// });
    /// assert_eq!(read?, Decision::Granted { rule: 6 });
    /// assert_eq!(write?, Decision::Denied { rule: 7 });
    /// # Ok::<(), balqirven::Refused>(())
    /// ```
    pub fn question(&self, subject: impl AsRef<[u8]>, object: impl AsRef<[u8]>, request: impl AsRef<[u8]>, capable: bool) -> Result<Decision, Refused> {
        let (subject, object, request) = (subject.as_ref(), object.as_ref(), request.as_ref());
        // SAFETY: valid: the parts are whole arrays and the three texts are slices, each with its own length, and the words are aligned as `u64`; apart:
        // nothing is written; alone: table and texts are borrowed, so nobody writes them.
        let answer =
            unsafe { lend!(bq_question, read self, subject.as_ptr(), subject.len(), object.as_ptr(), object.len(), request.as_ptr(), request.len(), capable) };
        decided(answer)
    }

    /// The label of a new object that a process with the label `creator` makes in a folder with the label `folder`. `folder_transmutes`: the folder does
    /// (SMACK64TRANSMUTE); `is_folder`: the new object is a folder itself. Nothing changes, and override is not considered.
    ///
    /// Refused with: 0 Damaged, 3 BadLabel. The last is for either label, and no place is told: [`Table::question`] for w with the same two labels tells it.
    ///
    /// ```
    /// use balqirven::{NewObject, Refusal, Refused, Table};
    ///
    /// let mut table = Table::fresh();
    /// table.change("Recorder Records rwxt -")?;
    /// table.change("Alarm Records rwx -")?;
    /// assert_eq!(table.new_object("Recorder", "Records", true, false)?, NewObject::FolderLabel { transmutes: false });
    /// assert_eq!(table.new_object("Recorder", "Records", true, true)?, NewObject::FolderLabel { transmutes: true });
    /// assert_eq!(table.new_object("Recorder", "Records", false, true)?, NewObject::CreatorLabel);
    /// assert_eq!(table.new_object("Alarm", "Records", true, true)?, NewObject::CreatorLabel);
    /// assert_eq!(table.new_object("Desk", "Records", true, false)?, NewObject::Denied);
    /// assert_eq!(table.new_object("Alarm/2", "Records", true, false), Err(Refused { refusal: Refusal::BadLabel, place: None }));
    /// # Ok::<(), balqirven::Refused>(())
    /// ```
    pub fn new_object(&self, creator: impl AsRef<[u8]>, folder: impl AsRef<[u8]>, folder_transmutes: bool, is_folder: bool) -> Result<NewObject, Refused> {
        let (creator, folder) = (creator.as_ref(), folder.as_ref());
        // SAFETY: valid: the parts are whole arrays and the two labels are slices, each with its own length, and the words are aligned as `u64`; apart:
        // nothing is written; alone: table and labels are borrowed, so nobody writes them.
        let answer = unsafe { lend!(bq_new_object, read self, creator.as_ptr(), creator.len(), folder.as_ptr(), folder.len(), folder_transmutes, is_folder) };
        labelled(answer)
    }
}

/// Listing.
impl Table {
    /// The rule of this number, from 0, as a line: subject, space, object, space, modes or a dash, newline. It goes to the front of `out`, and the answer is
    /// that front; the rest stays, and on a refusal all of it. [`LONGEST_RULE`] bytes are enough for any rule.
    ///
    /// Refused with: 0 Damaged, 13 NoSuchNumber, 12 OutputTooShort.
    ///
    /// ```
    /// use balqirven::{LONGEST_RULE, Refusal, Table};
    ///
    /// let mut table = Table::fresh();
    /// table.change("Alarm Air tr -")?;
    /// let mut out = [0; LONGEST_RULE];
    /// assert_eq!(table.list_rule(0, &mut out)?, b"Alarm Air rt\n");
    /// assert_eq!(table.list_rule(1, &mut out).unwrap_err().refusal, Refusal::NoSuchNumber);
    /// assert_eq!(table.list_rule(0, &mut out[..12]).unwrap_err().refusal, Refusal::OutputTooShort);
    /// # Ok::<(), balqirven::Refused>(())
    /// ```
    ///
    /// The output cannot be the table's own memory:
    ///
    /// ```compile_fail,E0502
    /// let mut table = balqirven::Table::fresh();
    /// let (labels, _, _) = table.parts_mut();
    /// table.list_rule(0, labels);
    /// ```
    pub fn list_rule<'a>(&self, number: usize, out: &'a mut [u8]) -> Result<&'a [u8], Refused> {
        // SAFETY: valid: the parts are whole arrays and `out` is a slice, each with its own length, and the words are aligned as `u64`; apart: `out` is
        // borrowed by `&mut`, so it is not of the table; alone: the table is borrowed, so nobody writes it, and `out` by `&mut`.
        front(unsafe { lend!(bq_list_rule, read self, number, out.as_mut_ptr(), out.len()) }, out)
    }

    /// Every rule, as [`Table::list_rule`] writes it.
    ///
    /// Refused with: 0 Damaged.
    ///
    /// ```
    /// use balqirven::Table;
    ///
    /// let mut table = Table::fresh();
    /// table.change("Alarm Air r -")?;
    /// table.change("Desk Air - r")?;
    /// let listing: Vec<u8> = table.rules()?.flatten().collect();
    /// assert_eq!(listing, b"Alarm Air r\nDesk Air -\n");
    /// # Ok::<(), balqirven::Refused>(())
    /// ```
    pub fn rules(&self) -> Result<impl Iterator<Item = Vec<u8>>, Refused> {
        self.undamaged()?;
        Ok((0..).map_while(|number| numbered(self.list_rule(number, &mut [0; LONGEST_RULE]).map(<[u8]>::to_vec))))
    }

    /// The label of this number, from 0: the very bytes of the table's label store. A label keeps its number.
    ///
    /// Refused with: 0 Damaged, 13 NoSuchNumber.
    ///
    /// ```
    /// use balqirven::{Refusal, Table};
    ///
    /// let mut table = Table::fresh();
    /// table.change("Alarm Air r -")?;
    /// let label = table.label(5)?.to_vec();
    /// assert_eq!(label, b"Alarm");
    /// assert_eq!(table.revoke(label)?, 1);
    /// assert_eq!(table.label(7).unwrap_err().refusal, Refusal::NoSuchNumber);
    /// # Ok::<(), balqirven::Refused>(())
    /// ```
    ///
    /// Without the copy, the label is of the table, which cannot be changed while it is in use:
    ///
    /// ```compile_fail,E0502
    /// let mut table = balqirven::Table::fresh();
    /// table.change("Alarm Air r -")?;
    /// let label = table.label(5)?;
    /// table.revoke(label)?;
    /// # Ok::<(), balqirven::Refused>(())
    /// ```
    pub fn label(&self, number: usize) -> Result<&[u8], Refused> {
        // SAFETY: valid: the parts are whole arrays, each with its own length, and the words are aligned as `u64`; apart: nothing is written; alone: the
        // table is borrowed, so nobody writes it.
        part(unsafe { lend!(bq_label, read self, number) }, &self.parts.labels)
    }

    /// Every label, as [`Table::label`] has it.
    ///
    /// Refused with: 0 Damaged.
    ///
    /// ```
    /// use balqirven::Table;
    ///
    /// let mut table = Table::fresh();
    /// table.override_list("Desk")?;
    /// assert_eq!(table.labels()?.collect::<Vec<_>>().join(&b' '), b"_ ^ * ? @ Desk");
    /// # Ok::<(), balqirven::Refused>(())
    /// ```
    pub fn labels(&self) -> Result<impl Iterator<Item = &[u8]>, Refused> {
        self.undamaged()?;
        Ok((0..).map_while(|number| numbered(self.label(number))))
    }

    /// What [`Table::label`] would be refused with, without the label.
    ///
    /// Refused with: 0 Damaged, 13 NoSuchNumber.
    ///
    /// ```
    /// use balqirven::{Refusal, Refused, Table};
    ///
    /// let table = Table::fresh();
    /// assert_eq!(table.label_check(4), Ok(()));
    /// assert_eq!(table.label_check(5), Err(Refused { refusal: Refusal::NoSuchNumber, place: None }));
    /// ```
    pub fn label_check(&self, number: usize) -> Result<(), Refused> {
        // SAFETY: valid: the parts are whole arrays, each with its own length, and the words are aligned as `u64`; apart: nothing is written; alone: the
        // table is borrowed, so nobody writes it.
        written(unsafe { lend!(bq_label_check, read self, number) })
    }

    fn undamaged(&self) -> Result<(), Refused> {
        match self.label_check(0) {
            Err(refused) if refused.refusal == Refusal::Damaged => Err(refused),
            _ => Ok(()),
        }
    }
}

/// The packet option, which says a packet's label: the CIPSO option (FIPS 188) with one tag, of type 1. The options of a packet are filled up to a multiple of
/// four bytes: that padding is no part of the option.
impl Table {
    /// The option of a label. It goes to the front of `out`, and the answer is that front; the rest stays, and on a refusal all of it.
    /// [`LONGEST_OPTION`](crate::LONGEST_OPTION) bytes are enough for any. A label with a mapping goes at its level with its categories. Any other, stored or
    /// not, goes at level 250 as its own bits, and has at most 23 bytes.
    ///
    /// Refused with: 0 Damaged, 3 BadLabel, 19 NotInAnOption, 12 OutputTooShort. No place is told.
    ///
    /// ```
    /// use balqirven::{LONGEST_OPTION, Refusal, Table};
    ///
    /// let mut table = Table::fresh();
    /// let mut out = [0; LONGEST_OPTION];
    /// assert_eq!(table.write_option("A", &mut out)?, [134, 12, 0, 0, 0, 3, 1, 6, 0, 250, 32, 128]);
    /// assert_eq!(table.write_option("ClimateProbe_StoreNorth_01_Temp", &mut out).unwrap_err().refusal, Refusal::NotInAnOption);
    /// table.mapping("ClimateProbe_StoreNorth_01_Temp 9 1 8")?;
    /// assert_eq!(table.write_option("ClimateProbe_StoreNorth_01_Temp", &mut out)?, [134, 12, 0, 0, 0, 3, 1, 6, 0, 9, 64, 128]);
    /// # Ok::<(), balqirven::Refused>(())
    /// ```
    pub fn write_option<'a>(&self, label: impl AsRef<[u8]>, out: &'a mut [u8]) -> Result<&'a [u8], Refused> {
        let label = label.as_ref();
        // SAFETY: valid: the parts are whole arrays and `label` and `out` are slices, each with its own length, and the words are aligned as `u64`; apart:
        // `out` is borrowed by `&mut`, so neither the table nor `label` is of it; alone: both are borrowed, so nobody writes them, and `out` by `&mut`.
        front(unsafe { lend!(bq_write_option, read self, label.as_ptr(), label.len(), out.as_mut_ptr(), out.len()) }, out)
    }

    /// The label that an option says. `option` is the one option, without padding. At level 250 it is the label that its own bits make, stored or not; at any
    /// other the lowest-numbered label with this level and these categories.
    ///
    /// Refused with: 0 Damaged, 16 BadOption, 17 OtherDoi, 18 BadOptionCategory, 3 BadLabel, 21 NoSuchMapping. At level 250
    /// it is 3, without a place, and never 21; at any other it is 21, and never 3.
    ///
    /// ```
    /// use balqirven::{Refusal, Table};
    ///
    /// let mut table = Table::fresh();
    /// let option = [134, 12, 0, 0, 0, 3, 1, 6, 0, 9, 64, 128];
    /// assert_eq!(table.read_option(option).unwrap_err().refusal, Refusal::NoSuchMapping);
    /// table.mapping("Archive 9 1 8")?;
    /// assert_eq!(table.read_option(option)?.bytes(), b"Archive");
    /// assert_eq!(table.read_option(&option[..11]).unwrap_err().refusal, Refusal::BadOption);
    /// # Ok::<(), balqirven::Refused>(())
    /// ```
    pub fn read_option(&self, option: impl AsRef<[u8]>) -> Result<PeerLabel, Refused> {
        let option = option.as_ref();
        // SAFETY: valid: the parts are whole arrays and `option` is a slice, each with its own length, and the words are aligned as `u64`; apart: nothing is
        // written; alone: table and option are borrowed, so nobody writes them.
        peer(unsafe { lend!(bq_read_option, read self, option.as_ptr(), option.len()) })
    }
}

impl Default for Table {
    fn default() -> Table {
        Table::fresh()
    }
}

impl fmt::Debug for Table {
    fn fmt(&self, f: &mut fmt::Formatter<'_>) -> fmt::Result {
        f.debug_struct("Table").finish_non_exhaustive()
    }
}

/// What a walk over all numbers makes of an answer: the first number that there is not ends it. An undamaged table that nobody changes has no other refusal.
fn numbered<T>(answer: Result<T, Refused>) -> Option<T> {
    match answer {
        Err(refused) if refused.refusal == Refusal::NoSuchNumber => None,
        answer => Some(answer.expect("an undamaged table is listed")),
    }
}
