//! The refusals: their numbers, what they say, and where the bad byte is.

use std::error::Error;
use std::fmt;

/// Why a call, or a line of rule text, was refused: `enum bq_refusal` of the header, with its numbers. 20 is none of them.
///
/// A later 5.x may add a number, so a `match` has to have an arm for the others.
///
/// ```
/// use balqirven::{Refusal, Table};
///
/// let refused = Table::fresh().change("Alarm Alarm r -").unwrap_err();
/// assert_eq!(refused.refusal, Refusal::SameLabels);
/// assert_eq!(refused.refusal as u8, 5);
/// assert_eq!(format!("{}", refused.refusal), "subject and object are the same label");
/// ```
///
/// These are all of now, and not enough:
///
/// ```compile_fail,E0004
/// use balqirven::Refusal::*;
///
/// match balqirven::Table::fresh().change("").unwrap_err().refusal {
///     Damaged | TooLong | WrongFields | BadLabel | BadAccess | SameLabels | LabelsFull | RulesFull | BadRequest | BadLevelOrCategory | MappingsFull
///     | TooManyOverrides | OutputTooShort | NoSuchNumber | BadRecord | NotInARecord | BadOption | OtherDoi | BadOptionCategory | NotInAnOption
///     | NoSuchMapping => (),
/// }
/// ```
#[non_exhaustive]
#[repr(u8)]
#[derive(Clone, Copy, Debug, PartialEq, Eq, Hash)]
pub enum Refusal {
    /// A count in the table is over its limit, a number in it names no stored label, or it has an unknown mode or category bit (the mode bit of b,
    /// from before version 5, too). This comes before every other refusal.
    Damaged = 0,
    /// A line or a write has over 600 bytes, a mapping write over 1,000.
    TooLong = 1,
    /// The number of fields is not 3 (line), not 4 (change), under 2 (mapping), or there is none (override list).
    WrongFields = 2,
    /// A label is not well formed; a packet option at level 250 does not make one.
    BadLabel = 3,
    /// An access field has a byte that is not allowed there; an access byte of an old record is neither a dash nor the letter of its place.
    BadAccess = 4,
    /// Subject equals object.
    SameLabels = 5,
    /// There are more new labels than free label places.
    LabelsFull = 6,
    /// 256 rules are stored, and the pair has none.
    RulesFull = 7,
    /// The request is empty or has another byte than r w x a, either case.
    BadRequest = 8,
    /// A level is not 0 to 255 or a category not 1 to 184; in a write each is 1 to 3 digits; a mapping write is at level 250; a set that is sought has a
    /// bit that is no category.
    BadLevelOrCategory = 9,
    /// 32 mappings are stored, and the label has none.
    MappingsFull = 10,
    /// An override list has over 8 different labels.
    TooManyOverrides = 11,
    /// The output is too short.
    OutputTooShort = 12,
    /// There is no rule or label of that number.
    NoSuchNumber = 13,
    /// An old record has not 53 bytes, or a label place in it is all spaces, has another byte after a space or does not end in a space.
    BadRecord = 14,
    /// A line has a label over 23 bytes, which no old record can hold.
    NotInARecord = 15,
    /// A packet option has another layout than the header tells.
    BadOption = 16,
    /// A packet option has another DOI than 3.
    OtherDoi = 17,
    /// A packet option has category 0 or one above 184.
    BadOptionCategory = 18,
    /// A label has no mapping and over 23 bytes, which no packet option can hold.
    NotInAnOption = 19,
    /// No label is mapped to the level and the categories of a packet option.
    NoSuchMapping = 21,
}

use Refusal::*;

const ALL: [Refusal; 21] = [
    Damaged,
    TooLong,
    WrongFields,
    BadLabel,
    BadAccess,
    SameLabels,
    LabelsFull,
    RulesFull,
    BadRequest,
    BadLevelOrCategory,
    MappingsFull,
    TooManyOverrides,
    OutputTooShort,
    NoSuchNumber,
    BadRecord,
    NotInARecord,
    BadOption,
    OtherDoi,
    BadOptionCategory,
    NotInAnOption,
    NoSuchMapping,
];

impl Refusal {
    /// Its number in the header.
    ///
    /// ```
    /// assert_eq!(balqirven::Refusal::NoSuchMapping.number(), 21);
    /// ```
    pub const fn number(self) -> u8 {
        self as u8
    }

    /// The refusal with this number in the header, or `None` where there is none.
    ///
    /// ```
    /// use balqirven::Refusal;
    ///
    /// assert_eq!(Refusal::from_number(0), Some(Refusal::Damaged));
    /// assert_eq!(Refusal::from_number(19), Some(Refusal::NotInAnOption));
    /// assert_eq!(Refusal::from_number(20), None);
    /// assert_eq!(Refusal::from_number(21), Some(Refusal::NoSuchMapping));
    /// assert_eq!((0..=255).filter_map(Refusal::from_number).count(), 21);
    /// ```
    pub fn from_number(number: u8) -> Option<Refusal> {
        ALL.into_iter().find(|refusal| refusal.number() == number)
    }

    /// What it says to a person, in a sentence that is true of every call that can be refused so. `Display` writes the same.
    ///
    /// ```
    /// use balqirven::Refusal;
    ///
    /// assert_eq!(Refusal::OtherDoi.sentence(), "it has another DOI than 3");
    /// assert_eq!(Refusal::OtherDoi.to_string(), Refusal::OtherDoi.sentence());
    /// ```
    #[rustfmt::skip]
    pub const fn sentence(self) -> &'static str {
        match self {
            Damaged => "the state in memory is damaged",
            TooLong => "it is too long: a line or a write has at most 600 bytes, a mapping 1,000",
            WrongFields => "the number of fields is wrong: a line has 3, a change 4, a mapping 2 or more, an override list 1 or more",
            BadLabel => "a label is not well formed",
            BadAccess => "an access byte is not allowed where it stands",
            SameLabels => "subject and object are the same label",
            LabelsFull => "the table has no room for the new labels",
            RulesFull => "the table has no room for one more rule",
            BadRequest => "the request is empty or has something else than the letters r, w, x and a",
            BadLevelOrCategory => "a level or a category is wrong: levels are 0 to 255 (in a mapping not 250), categories 1 to 184; in a write each has 1 to 3 digits",
            MappingsFull => "the table has no room for one more mapping",
            TooManyOverrides => "the override list has over 8 different labels",
            OutputTooShort => "the buffer that was lent for the output is too short",
            NoSuchNumber => "the rules, or the labels, end before that number",
            BadRecord => "it does not have 53 bytes, or a label place is all spaces, has another byte after a space or does not end in a space",
            NotInARecord => "a label has over 23 bytes; no old record holds that, and a label is never cut",
            BadOption => "it is not laid out as one packet option with one tag of type 1 and nothing behind it",
            OtherDoi => "it has another DOI than 3",
            BadOptionCategory => "it has category 0 or one above 184",
            NotInAnOption => "a label without a mapping has over 23 bytes; no packet option holds that, and a label is never cut",
            NoSuchMapping => "no label has a mapping with its level and categories",
        }
    }
}

impl fmt::Display for Refusal {
    fn fmt(&self, f: &mut fmt::Formatter<'_>) -> fmt::Result {
        f.write_str(self.sentence())
    }
}

/// The error of every call: the refusal, and where the call tells it, the place of the bad byte. A call that is refused has changed nothing.
///
/// ```
/// use balqirven::{Refusal, Refused, Table};
///
/// let mut table = Table::fresh();
/// let refused = table.change("Alarm Archive/2026 r -").unwrap_err();
/// assert_eq!(refused, Refused { refusal: Refusal::BadLabel, place: Some(13) });
/// assert_eq!(refused.to_string(), "refused 3: a label is not well formed, at byte 14 counted from 1");
///
/// let refused = table.write_option("Archive/2026", &mut [0; 34]).unwrap_err();
/// assert_eq!(refused, Refused { refusal: Refusal::BadLabel, place: None });
///
/// let error: Box<dyn std::error::Error> = table.mapping("Alarm 250").unwrap_err().into();
/// assert!(error.to_string().starts_with("refused 9: a level or a category is wrong"));
/// ```
#[derive(Clone, Copy, Debug, PartialEq, Eq, Hash)]
pub struct Refused {
    /// Why.
    pub refusal: Refusal,
    /// Where the first bad byte of the first bad label stands, from 0: in the line or the write, or in the label where that itself is lent; in a question
    /// in the subject or, where that is well formed, in the object. At that place stands a byte that no label may have, or a dash that the label begins
    /// with, or the first byte too many; an empty label has place 0.
    ///
    /// It is there with [`Refusal::BadLabel`] alone, and not from [`Table::new_object`](crate::Table::new_object),
    /// [`Table::write_option`](crate::Table::write_option), [`Table::read_option`](crate::Table::read_option), [`record_to_line`](crate::record_to_line) and
    /// [`line_to_record`](crate::line_to_record), which tell no place.
    pub place: Option<usize>,
}

impl Refused {
    /// Of a call that tells no place. A number that the header does not have is no refusal that could be told, and panics.
    pub(crate) fn without_place(number: u8) -> Refused {
        let refusal = Refusal::from_number(number);
        Refused { refusal: refusal.unwrap_or_else(|| panic!("libbalqirven.a gave refusal {number}, which the header does not have")), place: None }
    }

    /// Of a call that tells a place beside 3.
    pub(crate) fn with_place(number: u8, place: usize) -> Refused {
        let refused = Refused::without_place(number);
        Refused { place: (refused.refusal == BadLabel).then_some(place), ..refused }
    }
}

impl fmt::Display for Refused {
    fn fmt(&self, f: &mut fmt::Formatter<'_>) -> fmt::Result {
        write!(f, "refused {}: {}", self.refusal.number(), self.refusal)?;
        self.place.map_or(Ok(()), |place| write!(f, ", at byte {} counted from 1", place + 1))
    }
}

impl Error for Refused {}
