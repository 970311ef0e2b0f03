//! The library of the paper, as plainly as it can be said.
//!
//! Words in quotes are the paper's. The order of this file is the paper's:
//! labels, modes, rule text, single writes, look-ups, questions, listing; then
//! request One of 02, old fixed records, request Five, the packet option, and
//! request Seven, the label of a new object. The places of request Three, the
//! categories of request Four and what request Six left of b stand with the labels,
//! fields and calls that they belong to.
//! A table here is never damaged; see `raw` for lent memory and refusal 0.

/// "The label table holds 64 labels".
pub const LABEL_PLACES: usize = 64;
/// "the rule table, which holds 256 rules".
pub const RULE_PLACES: usize = 256;
/// "There are 32 mappings."
pub const MAPPING_PLACES: usize = 32;
/// "Override list: 1 to 8 different labels".
pub const OVERRIDE_PLACES: usize = 8;
/// "A label has 1 to 255 bytes".
pub const LABEL_LIMIT: usize = 255;
/// "A line has at most 600 bytes before its newline"; a single write "at most 600 bytes".
pub const LINE_LIMIT: usize = 600;
/// "A mapping write may have 1,000 bytes."
pub const MAPPING_WRITE_LIMIT: usize = 1000;
/// "Later kernels allow 1 to 184".
pub const HIGHEST_CATEGORY: u64 = 184;
/// "Each number is the true one or 4,294,967,295, whichever is smaller."
pub const REPORT_LIMIT: u64 = 4_294_967_295;

/// "The refusal numbers". The number of each case is given by `number`.
#[derive(Clone, Copy, PartialEq, Eq, Debug)]
pub enum Refusal {
    /// "the lent state" is damaged. Given only by the calls of `raw`.
    Damaged,
    /// "a line or write has over 600 bytes"; "1 for a mapping write over 1,000 bytes".
    TooLong,
    /// "wrong number of fields".
    WrongFields,
    /// "a label is not well formed"; beside the number goes the place "in the
    /// line, write or lent label, for the first bad label in order". No other
    /// refusal has a place.
    BadLabel { place: usize },
    /// "an access field has a byte not allowed there".
    BadAccess,
    /// "subject equals object".
    SameLabels,
    /// "more new labels than free label places".
    NoLabelPlace,
    /// "the pair has no rule and 256 are stored".
    NoRulePlace,
    /// "the request is empty or has another byte".
    BadRequest,
    /// "a level or category is not as above"; "9 for category 0 or above 184"; "a
    /// mapping write at level 250 gets 9".
    BadLevelOrCategory,
    /// "the label has no mapping and 32 are stored".
    NoMappingPlace,
    /// "over 8 different labels in an override list".
    TooManyOverrideLabels,
    /// "lent output too short".
    OutputTooShort,
    /// "no rule or label of that number".
    NoSuchNumber,
    /// "a length other than 53, a label place that is all spaces, has another
    /// byte after a space or doesn't end in a space".
    BadRecord,
    /// "a label over 23 bytes"; "or a b" went with Six: "Line-to-record conversion
    /// drops b".
    NotInARecord,
    /// "any other layout" of an option.
    BadOption,
    /// "another DOI".
    OtherDoi,
    /// "category 0 or above 184" in an option's bitmap.
    BadOptionCategory,
    /// "an unmapped label over 23 bytes".
    UnmappedTooLong,
    /// "no mapping matches".
    NoMappingMatches,
}

impl Refusal {
    /// The number that the paper gives to this refusal.
    pub fn number(self) -> u8 {
        match self {
            Refusal::Damaged => 0,
            Refusal::TooLong => 1,
            Refusal::WrongFields => 2,
            Refusal::BadLabel { .. } => 3,
            Refusal::BadAccess => 4,
            Refusal::SameLabels => 5,
            Refusal::NoLabelPlace => 6,
            Refusal::NoRulePlace => 7,
            Refusal::BadRequest => 8,
            Refusal::BadLevelOrCategory => 9,
            Refusal::NoMappingPlace => 10,
            Refusal::TooManyOverrideLabels => 11,
            Refusal::OutputTooShort => 12,
            Refusal::NoSuchNumber => 13,
            Refusal::BadRecord => 14,
            Refusal::NotInARecord => 15,
            Refusal::BadOption => 16,
            Refusal::OtherDoi => 17,
            Refusal::BadOptionCategory => 18,
            Refusal::UnmappedTooLong => 19,
            Refusal::NoMappingMatches => 21,
        }
    }

    /// The place beside the number: 0 for every number but 3.
    pub fn place(self) -> usize {
        match self {
            Refusal::BadLabel { place } => place,
            _ => 0,
        }
    }
}

// ---------------------------------------------------------------------------
// Labels
// ---------------------------------------------------------------------------

/// "The class of each of the 256 byte values (label byte, blank, newline, other)".
#[derive(Clone, Copy, PartialEq, Eq, Debug)]
pub enum Class {
    Label,
    Blank,
    Newline,
    Other,
}

/// "newline is 10".
pub const NEWLINE: u8 = 10;

/// "Blanks are space (32) and tab (9); newline is 10." A label byte is "from 33
/// to 126, none of / \ ' "". "The dash is a label byte, though never the first."
const fn class_by_rule(byte: u8) -> Class {
    match byte {
        32 | 9 => Class::Blank,
        NEWLINE => Class::Newline,
        b'/' | b'\\' | b'\'' | b'"' => Class::Other,
        33..=126 => Class::Label,
        _ => Class::Other,
    }
}

/// "The class of each of the 256 byte values", as that rule gives it.
const CLASSES: [Class; 256] = {
    let mut classes = [Class::Other; 256];
    let mut byte = 0;
    while byte < 256 {
        classes[byte] = class_by_rule(byte as u8);
        byte += 1;
    }
    classes
};

/// The class of this byte.
pub fn class_of(byte: u8) -> Class {
    CLASSES[usize::from(byte)]
}

fn is_blank(byte: u8) -> bool {
    class_of(byte) == Class::Blank
}

/// "A label has 1 to 255 bytes, each from 33 to 126, none of / \ ' ", and
/// doesn't begin with -."
pub fn is_well_formed(label: &[u8]) -> bool {
    if label.is_empty() || label.len() > LABEL_LIMIT {
        return false;
    }
    if label[0] == b'-' {
        return false;
    }
    label.iter().all(|&byte| class_of(byte) == Class::Label)
}

/// Whether two labels are the same bytes. Most that differ do so in their length or
/// in their last byte, which is soon seen.
fn is_same(one: &[u8], other: &[u8]) -> bool {
    one.len() == other.len() && one.last() == other.last() && one == other
}

/// Of a label that is not well formed, "the place of its first bad byte": "0 for
/// a leading dash, 255 for a label that is too long with no earlier fault, 0 for
/// an empty one".
fn first_bad_byte(label: &[u8]) -> usize {
    if label.is_empty() || label[0] == b'-' {
        return 0;
    }
    let allowed = label.iter().take(LABEL_LIMIT);
    let good = allowed.take_while(|&&byte| class_of(byte) == Class::Label);
    // Where all of the first 255 are good, the label is too long.
    good.count()
}

/// The label check of a label that begins at `start` of a line or write, or at 0
/// of a lent label. Refusal 3.
pub fn check_label(label: &[u8], start: usize) -> Result<(), Refusal> {
    if is_well_formed(label) {
        return Ok(());
    }
    let place = start + first_bad_byte(label);
    Err(Refusal::BadLabel { place })
}

// ---------------------------------------------------------------------------
// Modes
// ---------------------------------------------------------------------------

pub const R: u8 = 32;
pub const W: u8 = 16;
pub const X: u8 = 8;
pub const A: u8 = 4;
pub const T: u8 = 2;

/// "One table of letters and their bits serves reading and writing alike";
/// "the fixed order r, w, x, a, t". "Stored modes, listings and answers have no b".
pub const LETTERS: [(u8, u8); 5] = [(b'r', R), (b'w', W), (b'x', X), (b'a', A), (b't', T)];

/// Every letter of a mode: no other bit is known.
pub const MODE_LETTERS: u8 = R | W | X | A | T;
/// Letters of a request: "r w x a".
pub const REQUEST_LETTERS: u8 = R | W | X | A;

/// What stands for no letter in the access field of a line: "A dash is a
/// placeholder", and "b or B in a line's access field counts as a placeholder".
pub const LINE_PLACEHOLDERS: &[u8] = b"-bB";
/// And in the two of a change, which "still refuses" b "with 4".
pub const CHANGE_PLACEHOLDERS: &[u8] = b"-";

/// The bit of a letter, "either case".
fn bit_of_letter(byte: u8) -> Option<u8> {
    let small = byte.to_ascii_lowercase();
    for (letter, bit) in LETTERS {
        if letter == small {
            return Some(bit);
        }
    }
    None
}

/// An access field: letters, "either case, repeats allowed", and the placeholders
/// of such a field. None where the field "has a byte not allowed there".
pub fn read_access(field: &[u8], placeholders: &[u8]) -> Option<u8> {
    let mut modes = 0;
    for &byte in field {
        if !placeholders.contains(&byte) {
            modes |= bit_of_letter(byte)?;
        }
    }
    Some(modes)
}

/// Whether a line's access field held the letter that goes: "b or B".
fn holds_b(field: &[u8]) -> bool {
    field.iter().any(|byte| byte.eq_ignore_ascii_case(&b'b'))
}

/// "The request is a non-empty set of r w x a, in the letters of a mode without
/// t, b or dash." None where it "is empty or has another byte".
pub fn read_request(request: &[u8]) -> Option<u8> {
    if request.is_empty() {
        return None;
    }
    let mut modes = 0;
    for &byte in request {
        let bit = bit_of_letter(byte)?;
        if bit & REQUEST_LETTERS == 0 {
            return None;
        }
        modes |= bit;
    }
    Some(modes)
}

/// "Letters are written out in the fixed order"; "modes or a dash".
pub fn write_modes(modes: u8) -> Vec<u8> {
    let mut text = Vec::new();
    for (letter, bit) in LETTERS {
        if modes & bit != 0 {
            text.push(letter);
        }
    }
    if text.is_empty() {
        text.push(b'-');
    }
    text
}

// ---------------------------------------------------------------------------
// Categories
// ---------------------------------------------------------------------------

/// A set of categories, each 1 to 184: of each number whether it is in the set. 0 never
/// is. "equality and counts read over all 184": two are equal where they have the same
/// members.
#[derive(Clone, PartialEq, Eq)]
pub struct Categories {
    has: [bool; HIGHEST_CATEGORY as usize + 1],
}

impl Categories {
    /// The set of no categories.
    pub fn new() -> Categories {
        Categories {
            has: [false; HIGHEST_CATEGORY as usize + 1],
        }
    }

    /// The category, 1 to 184, is in the set from now on.
    pub fn insert(&mut self, category: u64) {
        assert!(category != 0);
        self.has[category as usize] = true;
    }

    /// Whether the number is in the set. What is no category never is.
    pub fn contains(&self, number: u64) -> bool {
        number <= HIGHEST_CATEGORY && self.has[number as usize]
    }

    /// The members, the lowest first.
    pub fn iter(&self) -> impl Iterator<Item = u64> + '_ {
        (1..HIGHEST_CATEGORY + 1).filter(|&category| self.contains(category))
    }

    /// How many they are.
    pub fn len(&self) -> usize {
        self.has.iter().filter(|&&has| has).count()
    }

    pub fn is_empty(&self) -> bool {
        self.len() == 0
    }
}

impl Default for Categories {
    fn default() -> Categories {
        Categories::new()
    }
}

impl<const COUNT: usize> From<[u64; COUNT]> for Categories {
    fn from(members: [u64; COUNT]) -> Categories {
        let mut set = Categories::new();
        for category in members {
            set.insert(category);
        }
        set
    }
}

/// By its members.
impl std::fmt::Debug for Categories {
    fn fmt(&self, formatter: &mut std::fmt::Formatter<'_>) -> std::fmt::Result {
        formatter.debug_set().entries(self.iter()).finish()
    }
}

/// How a set is said in memory, in a sought set and in a record of a run: three
/// words. What has a bit that is no category is no set.
pub type Words = [u64; 3];

/// The word of category n, (n-1)/64, and its bit there, 63 - (n-1) mod 64:
/// category 1 is the top bit of the first word, 65 of the second, 129 of the third.
pub fn category_bit(category: u64) -> (usize, u64) {
    let before = category - 1;
    ((before / 64) as usize, 1 << (63 - before % 64))
}

/// The words that say this set.
pub fn words_of(set: &Categories) -> Words {
    let mut words = [0; 3];
    for category in set.iter() {
        let (word, bit) = category_bit(category);
        words[word] |= bit;
    }
    words
}

/// Three words have 192 bits, and there is no category above 184: whether one of
/// the eight last is in them.
pub fn has_unknown_bit(words: &Words) -> bool {
    (HIGHEST_CATEGORY + 1..=192).any(|number| {
        let (word, bit) = category_bit(number);
        words[word] & bit != 0
    })
}

/// The set that these words say. None where a bit is no category.
pub fn set_of(words: &Words) -> Option<Categories> {
    if has_unknown_bit(words) {
        return None;
    }
    let mut set = Categories::new();
    for (word, &bits) in words.iter().enumerate() {
        // The highest bits first, so the lowest categories.
        let mut left = bits;
        while left != 0 {
            let from_top = u64::from(left.leading_zeros());
            set.insert(64 * word as u64 + from_top + 1);
            left &= !(1 << (63 - from_top));
        }
    }
    Some(set)
}

/// "Numbers are 1 to 3 digits, leading zeros allowed."
pub fn read_number(field: &[u8]) -> Option<u64> {
    if field.is_empty() || field.len() > 3 {
        return None;
    }
    let mut number = 0;
    for &byte in field {
        if !byte.is_ascii_digit() {
            return None;
        }
        number = number * 10 + u64::from(byte - b'0');
    }
    Some(number)
}

/// "Level 0 to 255".
fn read_level(field: &[u8]) -> Option<u8> {
    let number = read_number(field)?;
    if number > 255 {
        return None;
    }
    Some(number as u8)
}

/// A category, 1 to 184.
fn read_category(field: &[u8]) -> Option<u64> {
    let number = read_number(field)?;
    if !(1..=HIGHEST_CATEGORY).contains(&number) {
        return None;
    }
    Some(number)
}

// ---------------------------------------------------------------------------
// Fields
// ---------------------------------------------------------------------------

/// A field, and the place of its first byte in the line or write.
#[derive(Clone, Copy, PartialEq, Eq, Debug)]
pub struct Field<'a> {
    pub bytes: &'a [u8],
    pub start: usize,
}

impl Field<'_> {
    /// The label check, its place told "as a place in the line, write".
    fn check_label(&self) -> Result<(), Refusal> {
        check_label(self.bytes, self.start)
    }
}

/// "fields with one or more blanks between; blanks before and after are
/// allowed": a field is a longest run of bytes that are not blanks. They come in order.
pub fn fields(line: &[u8]) -> impl Iterator<Item = Field<'_>> {
    let mut at = 0;
    std::iter::from_fn(move || {
        while at < line.len() && is_blank(line[at]) {
            at += 1;
        }
        let start = at;
        while at < line.len() && !is_blank(line[at]) {
            at += 1;
        }
        let bytes = &line[start..at];
        (!bytes.is_empty()).then_some(Field { bytes, start })
    })
}

/// The fields of a line or write that has to have so many. None where it has fewer or
/// more.
pub fn fields_exactly<const COUNT: usize>(line: &[u8]) -> Option<[Field<'_>; COUNT]> {
    let mut found = [Field {
        bytes: &[],
        start: 0,
    }; COUNT];
    let mut all = fields(line);
    for field in &mut found {
        *field = all.next()?;
    }
    match all.next() {
        None => Some(found),
        Some(_) => None,
    }
}

// ---------------------------------------------------------------------------
// The tables
// ---------------------------------------------------------------------------

/// One CIPSO mapping: a label's number, its level and its set of categories.
#[derive(Clone, PartialEq, Eq, Debug)]
pub struct Mapping {
    pub label: usize,
    pub level: u8,
    pub set: Categories,
}

/// "the tables (labels, rules and mappings in order, override list)".
#[derive(Clone, PartialEq, Eq, Debug)]
pub struct Table {
    pub labels: Vec<Vec<u8>>,
    /// Subject's number, object's number, modes.
    pub rules: Vec<(usize, usize, u8)>,
    pub mappings: Vec<Mapping>,
    /// Label numbers.
    pub override_list: Vec<usize>,
}

/// A pair of labels as a table knows it: the number of each that is stored, and the
/// place of their rule, where they have one.
#[derive(Clone, Copy, PartialEq, Eq, Debug)]
pub struct Pair {
    pub subject: Option<usize>,
    pub object: Option<usize>,
    pub rule: Option<usize>,
}

impl Table {
    /// "A fresh table has the five labels alone": "_ ^ * ? @".
    pub fn fresh() -> Table {
        Table {
            labels: vec![
                b"_".to_vec(),
                b"^".to_vec(),
                b"*".to_vec(),
                b"?".to_vec(),
                b"@".to_vec(),
            ],
            rules: Vec::new(),
            mappings: Vec::new(),
            override_list: Vec::new(),
        }
    }

    /// A table with nothing in it, not even the five labels.
    pub fn empty() -> Table {
        Table {
            labels: Vec::new(),
            rules: Vec::new(),
            mappings: Vec::new(),
            override_list: Vec::new(),
        }
    }

    /// "a label means its first number".
    pub fn number_of(&self, label: &[u8]) -> Option<usize> {
        self.labels.iter().position(|stored| is_same(stored, label))
    }

    /// The place of the rule with these two numbers: "the first counts".
    fn place_of_rule(&self, subject: usize, object: usize) -> Option<usize> {
        self.rules
            .iter()
            .position(|rule| rule.0 == subject && rule.1 == object)
    }

    /// What the table knows of a pair. A label that is not stored has no rules.
    fn pair_of(&self, subject: &[u8], object: &[u8]) -> Pair {
        let subject = self.number_of(subject);
        let object = self.number_of(object);
        let rule = match (subject, object) {
            (Some(subject), Some(object)) => self.place_of_rule(subject, object),
            _ => None,
        };
        Pair {
            subject,
            object,
            rule,
        }
    }

    /// The modes of the pair's rule, where the pair has one.
    fn modes_of_pair(&self, subject: &[u8], object: &[u8]) -> Option<u8> {
        let place = self.pair_of(subject, object).rule?;
        Some(self.rules[place].2)
    }

    /// The place of the mapping of the label with this number: "the first counts".
    fn place_of_mapping(&self, label: usize) -> Option<usize> {
        self.mappings
            .iter()
            .position(|mapping| mapping.label == label)
    }

    /// The different labels among these that are not in the table yet.
    fn new_labels<'a>(&self, labels: &[&'a [u8]]) -> Vec<&'a [u8]> {
        let mut new: Vec<&'a [u8]> = Vec::new();
        for &label in labels {
            if self.number_of(label).is_none() && !new.contains(&label) {
                new.push(label);
            }
        }
        new
    }

    /// "more new labels than free label places".
    fn lacks_label_places(&self, labels: &[&[u8]]) -> bool {
        let free = LABEL_PLACES - self.labels.len();
        self.new_labels(labels).len() > free
    }

    /// "A label enters ... in the order written, and never leaves." Gives the
    /// label's number, old or new.
    fn enter_label(&mut self, label: &[u8]) -> usize {
        let number = self.number_of(label);
        self.enter_unless(number, label)
    }

    /// The label enters unless it has a number.
    fn enter_unless(&mut self, number: Option<usize>, label: &[u8]) -> usize {
        match number {
            Some(number) => number,
            None => {
                self.labels.push(label.to_vec());
                self.labels.len() - 1
            }
        }
    }

    /// The refusals 5 6 7 of a rule and of a change, in that order.
    fn check_pair(&self, subject: &[u8], object: &[u8]) -> Result<Pair, Refusal> {
        if subject == object {
            return Err(Refusal::SameLabels);
        }
        let pair = self.pair_of(subject, object);
        // They are different, so each that has no number is a label of its own.
        let new = usize::from(pair.subject.is_none()) + usize::from(pair.object.is_none());
        if new > LABEL_PLACES - self.labels.len() {
            return Err(Refusal::NoLabelPlace);
        }
        if pair.rule.is_none() && self.rules.len() >= RULE_PLACES {
            return Err(Refusal::NoRulePlace);
        }
        Ok(pair)
    }

    /// "new labels enter, subject first, and its pair is set": a pair seen
    /// first "takes the next place in the rule table". Gives the place of its rule.
    fn set_pair(&mut self, pair: Pair, subject: &[u8], object: &[u8], modes: u8) -> usize {
        match pair.rule {
            Some(place) => {
                self.rules[place].2 = modes;
                place
            }
            None => {
                let subject = self.enter_unless(pair.subject, subject);
                let object = self.enter_unless(pair.object, object);
                self.rules.push((subject, object, modes));
                self.rules.len() - 1
            }
        }
    }
}

// ---------------------------------------------------------------------------
// Rule text
// ---------------------------------------------------------------------------

/// What a line comes to: "skipped, refused by the first number that holds, or
/// accepted".
#[derive(Clone, Copy, PartialEq, Eq, Debug)]
pub enum Line<'a> {
    Skipped,
    Refused(Refusal),
    Accepted(Rule<'a>, Pair),
}

/// What a line says, and whether its access field "held" a b, which says nothing.
#[derive(Clone, Copy, PartialEq, Eq, Debug)]
pub struct Rule<'a> {
    pub subject: &'a [u8],
    pub object: &'a [u8],
    pub modes: u8,
    pub held_b: bool,
}

/// "A line of 0 to 600 blanks and no other byte is skipped."
fn is_skipped(line: &[u8]) -> bool {
    line.len() <= LINE_LIMIT && line.iter().all(|&byte| is_blank(byte))
}

impl Table {
    /// "A line that ends is counted and judged by its bytes and these tables".
    pub fn judge_line<'a>(&self, line: &'a [u8]) -> Line<'a> {
        if is_skipped(line) {
            return Line::Skipped;
        }
        match self.judge_rule(line) {
            Ok((rule, pair)) => Line::Accepted(rule, pair),
            Err(refusal) => Line::Refused(refusal),
        }
    }

    /// "the first in this order is given: rule 1 2 3 4 5 6 7".
    fn judge_rule<'a>(&self, line: &'a [u8]) -> Result<(Rule<'a>, Pair), Refusal> {
        let rule = read_rule(line)?;
        let pair = self.check_pair(rule.subject, rule.object)?;
        Ok((rule, pair))
    }
}

/// A rule: "subject, object, access". The refusals 1 2 3 4, which no table is
/// asked for.
fn read_rule(line: &[u8]) -> Result<Rule<'_>, Refusal> {
    if line.len() > LINE_LIMIT {
        return Err(Refusal::TooLong);
    }
    let Some([subject, object, access]) = fields_exactly(line) else {
        return Err(Refusal::WrongFields);
    };
    subject.check_label()?;
    object.check_label()?;
    let Some(modes) = read_access(access.bytes, LINE_PLACEHOLDERS) else {
        return Err(Refusal::BadAccess);
    };
    Ok(Rule {
        subject: subject.bytes,
        object: object.bytes,
        modes,
        held_b: holds_b(access.bytes),
    })
}

/// The plain reader's loader: "a kept line of any length and the report's true
/// numbers". The first refused line is number 0 with reason 0 "where none", and
/// place 0.
#[derive(Clone, PartialEq, Eq, Debug)]
pub struct Loader {
    pub line: Vec<u8>,
    pub lines: u64,
    pub accepted: u64,
    pub skipped: u64,
    pub refused: u64,
    pub first_line: u64,
    pub first_reason: u64,
    pub first_place: u64,
    pub bringup: u64,
}

/// "The report: lines, accepted, skipped, refused, and the number (from 1) and
/// reason of the first refused line." "The report ... keeps" the place too "for
/// the first refused line, 0 if that isn't a 3". A place is no count and has no
/// limit of its own. Last, by Six, "a count of accepted lines that held" a b.
#[derive(Clone, Copy, PartialEq, Eq, Debug)]
pub struct Report {
    pub lines: u32,
    pub accepted: u32,
    pub skipped: u32,
    pub refused: u32,
    pub first_line: u32,
    pub first_reason: u32,
    pub first_place: u64,
    pub bringup: u32,
}

/// "Each number is the true one or 4,294,967,295, whichever is smaller."
pub fn limited(number: u64) -> u32 {
    number.min(REPORT_LIMIT) as u32
}

impl Loader {
    /// "a fresh loader an empty kept line and a report of zeros".
    pub fn fresh() -> Loader {
        Loader {
            line: Vec::new(),
            lines: 0,
            accepted: 0,
            skipped: 0,
            refused: 0,
            first_line: 0,
            first_reason: 0,
            first_place: 0,
            bringup: 0,
        }
    }

    /// The report so far, its numbers limited.
    pub fn report(&self) -> Report {
        Report {
            lines: limited(self.lines),
            accepted: limited(self.accepted),
            skipped: limited(self.skipped),
            refused: limited(self.refused),
            first_line: limited(self.first_line),
            first_reason: limited(self.first_reason),
            first_place: self.first_place,
            bringup: limited(self.bringup),
        }
    }

    /// The kept line ends: it "is counted and judged", and "the next begins
    /// empty". "A refused line does nothing" but enter the counts. Gives the place of
    /// the rule that an accepted line sets.
    fn end_line(&mut self, table: &mut Table) -> Option<usize> {
        self.lines += 1;
        let mut set = None;
        match table.judge_line(&self.line) {
            Line::Skipped => self.skipped += 1,
            Line::Refused(refusal) => {
                if self.refused == 0 {
                    self.first_line = self.lines;
                    self.first_reason = u64::from(refusal.number());
                    self.first_place = refusal.place() as u64;
                }
                self.refused += 1;
            }
            Line::Accepted(rule, pair) => {
                // "An accepted line sets its pair's modes wholly."
                set = Some(table.set_pair(pair, rule.subject, rule.object, rule.modes));
                self.accepted += 1;
                // Once a line, however often the letter stands in it.
                self.bringup += u64::from(rule.held_b);
            }
        }
        self.line.clear();
        set
    }

    /// "Piece: each byte but a newline joins the kept line; a newline ends it,
    /// and the next begins empty. The answer is done."
    pub fn piece(&mut self, table: &mut Table, bytes: &[u8]) {
        self.piece_telling(table, bytes, |_, _| {});
    }

    /// The same; tells of each newline where it stands in the piece, and of the line
    /// that it ends the place of the rule that is set, if one is.
    pub fn piece_telling(
        &mut self,
        table: &mut Table,
        bytes: &[u8],
        mut tell: impl FnMut(usize, Option<usize>),
    ) {
        let mut start = 0;
        while let Some(length) = bytes[start..].iter().position(|&byte| byte == NEWLINE) {
            let end = start + length;
            self.line.extend_from_slice(&bytes[start..end]);
            let rule = self.end_line(table);
            tell(end, rule);
            start = end + 1;
        }
        self.line.extend_from_slice(&bytes[start..]);
    }

    /// "End call: ends a kept line that has a byte; then answers the report,
    /// its numbers limited as above, and begins a fresh loader with the tables
    /// kept."
    pub fn end(&mut self, table: &mut Table) -> Report {
        if !self.line.is_empty() {
            self.end_line(table);
        }
        let report = self.report();
        *self = Loader::fresh();
        report
    }
}

// ---------------------------------------------------------------------------
// Single writes
// ---------------------------------------------------------------------------

impl Table {
    /// "Change: subject, object, allow, deny." Refusals 1 2 3 4 5 6 7.
    pub fn change(&mut self, write: &[u8]) -> Result<(), Refusal> {
        self.set_rule(write).map(|_| ())
    }

    /// The same; gives the place of the rule that was set.
    pub fn set_rule(&mut self, write: &[u8]) -> Result<usize, Refusal> {
        if write.len() > LINE_LIMIT {
            return Err(Refusal::TooLong);
        }
        let Some([subject, object, allow, deny]) = fields_exactly(write) else {
            return Err(Refusal::WrongFields);
        };
        subject.check_label()?;
        object.check_label()?;
        let Some(allow) = read_access(allow.bytes, CHANGE_PLACEHOLDERS) else {
            return Err(Refusal::BadAccess);
        };
        let Some(deny) = read_access(deny.bytes, CHANGE_PLACEHOLDERS) else {
            return Err(Refusal::BadAccess);
        };
        let pair = self.check_pair(subject.bytes, object.bytes)?;
        // "A pair with no rule starts from none".
        let old = match pair.rule {
            Some(place) => self.rules[place].2,
            None => 0,
        };
        // "New modes are (old modes or allow) without deny."
        Ok(self.set_pair(pair, subject.bytes, object.bytes, (old | allow) & !deny))
    }

    /// "Revoke: one label, with no blanks. Every rule with that subject gets no
    /// modes and keeps its place. The answer is how many rules have that
    /// subject; an unknown label gives 0." Refusals 1 3. The whole buffer is
    /// the label.
    pub fn revoke(&mut self, write: &[u8]) -> Result<usize, Refusal> {
        if write.len() > LINE_LIMIT {
            return Err(Refusal::TooLong);
        }
        check_label(write, 0)?;
        let Some(subject) = self.number_of(write) else {
            return Ok(0);
        };
        let mut count = 0;
        for rule in &mut self.rules {
            if rule.0 == subject {
                rule.2 = 0;
                count += 1;
            }
        }
        Ok(count)
    }

    /// "Override list: 1 to 8 different labels, or a lone dash to clear.
    /// Repeats count once. The write replaces the list." Refusals 1 2 3 11 6.
    pub fn override_write(&mut self, write: &[u8]) -> Result<(), Refusal> {
        if write.len() > LINE_LIMIT {
            return Err(Refusal::TooLong);
        }
        if fields(write).next().is_none() {
            return Err(Refusal::WrongFields);
        }
        if fields_exactly(write).is_some_and(|[field]| field.bytes == b"-") {
            self.override_list.clear();
            return Ok(());
        }
        let mut different: Vec<&[u8]> = Vec::with_capacity(OVERRIDE_PLACES);
        for field in fields(write) {
            field.check_label()?;
            if !different.contains(&field.bytes) {
                different.push(field.bytes);
            }
        }
        if different.len() > OVERRIDE_PLACES {
            return Err(Refusal::TooManyOverrideLabels);
        }
        if self.lacks_label_places(&different) {
            return Err(Refusal::NoLabelPlace);
        }
        self.override_list.clear();
        for label in different {
            let number = self.enter_label(label);
            self.override_list.push(number);
        }
        Ok(())
    }

    /// "Mapping: label, level, then no or more categories." Refusals 1 2 3 9 6 10;
    /// "a mapping write at level 250 gets 9".
    pub fn mapping(&mut self, write: &[u8]) -> Result<(), Refusal> {
        self.set_mapping(write).map(|_| ())
    }

    /// The same; gives the place of the mapping that was set.
    pub fn set_mapping(&mut self, write: &[u8]) -> Result<usize, Refusal> {
        if write.len() > MAPPING_WRITE_LIMIT {
            return Err(Refusal::TooLong);
        }
        let mut fields = fields(write);
        let (Some(label), Some(level)) = (fields.next(), fields.next()) else {
            return Err(Refusal::WrongFields);
        };
        label.check_label()?;
        let label = label.bytes;
        let Some(level) = read_level(level.bytes) else {
            return Err(Refusal::BadLevelOrCategory);
        };
        if level == LABEL_LEVEL {
            return Err(Refusal::BadLevelOrCategory);
        }
        let mut set = Categories::new();
        for field in fields {
            let Some(category) = read_category(field.bytes) else {
                return Err(Refusal::BadLevelOrCategory);
            };
            set.insert(category);
        }
        if self.lacks_label_places(&[label]) {
            return Err(Refusal::NoLabelPlace);
        }
        let former = match self.number_of(label) {
            Some(number) => self.place_of_mapping(number),
            None => None,
        };
        if former.is_none() && self.mappings.len() >= MAPPING_PLACES {
            return Err(Refusal::NoMappingPlace);
        }
        let number = self.enter_label(label);
        let mapping = Mapping {
            label: number,
            level,
            set,
        };
        // "It replaces the label's former mapping in its place; a new one goes last."
        match former {
            Some(place) => {
                self.mappings[place] = mapping;
                Ok(place)
            }
            None => {
                self.mappings.push(mapping);
                Ok(self.mappings.len() - 1)
            }
        }
    }
}

// ---------------------------------------------------------------------------
// Looking mappings up
// ---------------------------------------------------------------------------

/// "A mapping looked up by label gives level, set and how many categories are
/// in the set."
#[derive(Clone, PartialEq, Eq, Debug)]
pub struct Found {
    pub level: u8,
    pub set: Categories,
    pub count: usize,
}

/// One record of a lent run: "a label number, a level and a set", "of any
/// length and content". Every number is wide, so that any content can be said.
#[derive(Clone, Copy, PartialEq, Eq, Debug)]
pub struct Record {
    pub label: u64,
    pub level: u64,
    pub set: Words,
}

/// The set that is sought. The 9 of a look-up: a level over 255, or a bit that is
/// no category.
fn sought_set(level: u64, set: &Words) -> Result<Categories, Refusal> {
    if level > 255 {
        return Err(Refusal::BadLevelOrCategory);
    }
    set_of(set).ok_or(Refusal::BadLevelOrCategory)
}

impl Table {
    /// "An unmapped label gives none." Refusal 3.
    pub fn by_label(&self, label: &[u8]) -> Result<Option<Found>, Refusal> {
        check_label(label, 0)?;
        let Some(number) = self.number_of(label) else {
            return Ok(None);
        };
        let Some(place) = self.place_of_mapping(number) else {
            return Ok(None);
        };
        let mapping = &self.mappings[place];
        Ok(Some(Found {
            level: mapping.level,
            set: mapping.set.clone(),
            count: mapping.set.len(),
        }))
    }

    /// "Looked up by level and set, it gives the lowest-numbered label whose
    /// both are equal, or none." Refusal 9.
    pub fn by_level(&self, level: u64, set: &Words) -> Result<Option<usize>, Refusal> {
        let set = sought_set(level, set)?;
        Ok(self.lowest_with(level, &set))
    }

    /// "the lowest-numbered label whose both are equal, or none". Where a label or
    /// a mapping is stored twice "the first counts": a number counts only if it is
    /// its label's first, and only by its first mapping.
    fn lowest_with(&self, level: u64, set: &Categories) -> Option<usize> {
        let mut lowest: Option<usize> = None;
        for (place, mapping) in self.mappings.iter().enumerate() {
            if u64::from(mapping.level) != level || &mapping.set != set {
                continue;
            }
            let number = mapping.label;
            let is_first_mapping = self.place_of_mapping(number) == Some(place);
            let is_first_number = self.number_of(&self.labels[number]) == Some(number);
            if !is_first_mapping || !is_first_number {
                continue;
            }
            match lowest {
                Some(other) if other <= number => {}
                _ => lowest = Some(number),
            }
        }
        lowest
    }
}

/// "The host can also search a lent run of records ...: the lowest label number
/// whose level and set both match, or none." Refusal 9. "A run is no part of
/// the state and never gets 0." A record with a bit that is no category has no
/// set, so it matches none.
pub fn search_run(run: &[Record], level: u64, set: &Words) -> Result<Option<u64>, Refusal> {
    let set = sought_set(level, set)?;
    let mut lowest: Option<u64> = None;
    for record in run {
        if record.level != level || set_of(&record.set).as_ref() != Some(&set) {
            continue;
        }
        match lowest {
            Some(label) if label <= record.label => {}
            _ => lowest = Some(record.label),
        }
    }
    Ok(lowest)
}

// ---------------------------------------------------------------------------
// Questions
// ---------------------------------------------------------------------------

/// "The answer is one of: granted, with the rule number ...; denied, with 1 or 7;
/// granted by override, with the rule that would have denied; refused, with its
/// number." "answers have no b": "P10 then reads granted 6".
#[derive(Clone, Copy, PartialEq, Eq, Debug)]
pub enum Answer {
    Granted { rule: u8 },
    Denied { rule: u8 },
    Override { rule: u8 },
    Refused(Refusal),
}

impl Table {
    /// The seven rules: "The first that applies decides". The labels are
    /// compared as bytes, so that it does not matter what is stored.
    fn seven_rules(&self, subject: &[u8], object: &[u8], request: u8) -> Answer {
        let only_r_and_x = request & !(R | X) == 0;
        // 1. "Subject is *: denied."
        if subject == b"*" {
            return Answer::Denied { rule: 1 };
        }
        // 2. "Subject is ^ and the request has only r and x: granted."
        if subject == b"^" && only_r_and_x {
            return Answer::Granted { rule: 2 };
        }
        // 3. "Object is _ and the request has only r and x: granted."
        if object == b"_" && only_r_and_x {
            return Answer::Granted { rule: 3 };
        }
        // 4. "Object is *: granted."
        if object == b"*" {
            return Answer::Granted { rule: 4 };
        }
        // 5. "Subject equals object: granted."
        if subject == object {
            return Answer::Granted { rule: 5 };
        }
        // 6. "The pair has a rule whose modes hold every requested letter: granted."
        if let Some(modes) = self.modes_of_pair(subject, object) {
            if modes & request == request {
                return Answer::Granted { rule: 6 };
            }
        }
        // 7. "Denied."
        Answer::Denied { rule: 7 }
    }

    /// "the list is empty or holds the subject".
    fn override_reaches(&self, subject: &[u8]) -> bool {
        if self.override_list.is_empty() {
            return true;
        }
        match self.number_of(subject) {
            Some(number) => self.override_list.contains(&number),
            None => false,
        }
    }

    /// "A question is a subject, an object, a request and whether the asker has
    /// the override capability." Refusals 3 8; the place of 3 is one in the
    /// subject, or in the object where the subject is well formed. "A question
    /// changes nothing."
    pub fn question(
        &self,
        subject: &[u8],
        object: &[u8],
        request: &[u8],
        has_override: bool,
    ) -> Answer {
        for label in [subject, object] {
            if let Err(refusal) = check_label(label, 0) {
                return Answer::Refused(refusal);
            }
        }
        let Some(request) = read_request(request) else {
            return Answer::Refused(Refusal::BadRequest);
        };
        let answer = self.seven_rules(subject, object, request);
        // "Override counts only if the asker has it and the list is empty or
        // holds the subject, and only after a denial."
        if let Answer::Denied { rule } = answer {
            if has_override && self.override_reaches(subject) {
                return Answer::Override { rule };
            }
        }
        answer
    }
}

// ---------------------------------------------------------------------------
// Listing
// ---------------------------------------------------------------------------

/// "subject, space, object, space, modes or a dash, newline".
fn rule_text(subject: &[u8], object: &[u8], modes: u8) -> Vec<u8> {
    let mut text = Vec::with_capacity(subject.len() + object.len() + 8);
    text.extend_from_slice(subject);
    text.push(b' ');
    text.extend_from_slice(object);
    text.push(b' ');
    text.extend_from_slice(&write_modes(modes));
    text.push(b'\n');
    text
}

/// "It goes to the front of a lent buffer, the rest of which is unchanged; the
/// length is answered." Refusal 12: "lent output too short".
fn write_to_front(text: &[u8], buffer: &mut [u8]) -> Result<usize, Refusal> {
    if text.len() > buffer.len() {
        return Err(Refusal::OutputTooShort);
    }
    buffer[..text.len()].copy_from_slice(text);
    Ok(text.len())
}

impl Table {
    /// "Rule number k (from 0, in table order)". Refusals 13 12.
    pub fn list(&self, k: u64, buffer: &mut [u8]) -> Result<usize, Refusal> {
        if k >= self.rules.len() as u64 {
            return Err(Refusal::NoSuchNumber);
        }
        let (subject, object, modes) = self.rules[k as usize];
        let text = rule_text(&self.labels[subject], &self.labels[object], modes);
        write_to_front(&text, buffer)
    }

    /// "A label can also be asked for by number: the answer is the very part
    /// ... that holds it, empty on a refusal".
    pub fn label(&self, k: u64) -> &[u8] {
        match self.label_check(k) {
            Ok(()) => &self.labels[k as usize],
            Err(_) => &[],
        }
    }

    /// "a call beside it answers done or the refusal's number". Refusal 13.
    pub fn label_check(&self, k: u64) -> Result<(), Refusal> {
        if k >= self.labels.len() as u64 {
            return Err(Refusal::NoSuchNumber);
        }
        Ok(())
    }
}

// ---------------------------------------------------------------------------
// Old fixed records (02, One)
// ---------------------------------------------------------------------------

/// "53-byte records": "two 24-byte labels and five access bytes".
pub const FIXED_RECORD: usize = 53;
/// The place of a label in a record.
pub const FIXED_PLACE: usize = 24;
/// "A label is 1 to 23 bytes at the left, filled with spaces."
pub const FIXED_LABEL_LIMIT: usize = 23;

/// The label at the left of a place. None where the place "is all spaces, has
/// another byte after a space or doesn't end in a space". Only a space fills:
/// a tab is a byte like others.
fn label_of_place(place: &[u8]) -> Option<&[u8]> {
    // A place without any space does not end in one.
    let length = place.iter().position(|&byte| byte == b' ')?;
    let (label, filling) = place.split_at(length);
    // What begins with a space is all spaces, or has another byte after one.
    if label.is_empty() || filling.iter().any(|&byte| byte != b' ') {
        return None;
    }
    Some(label)
}

/// The five access bytes, "r, w, x, a, t in their own places": each is "the letter
/// of its place", "either case, or a dash". None where one is neither. A record is
/// no line: b is a placeholder in none.
fn read_fixed_access(bytes: &[u8]) -> Option<u8> {
    let mut modes = 0;
    for (&byte, (letter, bit)) in bytes.iter().zip(LETTERS) {
        if byte.to_ascii_lowercase() == letter {
            modes |= bit;
        } else if byte != b'-' {
            return None;
        }
    }
    Some(modes)
}

/// A record turned into a rule line: "The line is written in the listing's
/// form"; "the length written to a lent output is answered". Refusals 14 3 4 5
/// 12; 14 of either place comes before 3 of either label. These calls are not 01's,
/// so no place is told beside their 3: it is 0 here.
pub fn record_to_line(record: &[u8], output: &mut [u8]) -> Result<usize, Refusal> {
    if record.len() != FIXED_RECORD {
        return Err(Refusal::BadRecord);
    }
    let (subject_place, rest) = record.split_at(FIXED_PLACE);
    let (object_place, access) = rest.split_at(FIXED_PLACE);
    let Some(subject) = label_of_place(subject_place) else {
        return Err(Refusal::BadRecord);
    };
    let Some(object) = label_of_place(object_place) else {
        return Err(Refusal::BadRecord);
    };
    if !is_well_formed(subject) || !is_well_formed(object) {
        return Err(Refusal::BadLabel { place: 0 });
    }
    let Some(modes) = read_fixed_access(access) else {
        return Err(Refusal::BadAccess);
    };
    if subject == object {
        return Err(Refusal::SameLabels);
    }
    write_to_front(&rule_text(subject, object, modes), output)
}

/// A rule line turned into a record. The line is "read with or without one
/// closing newline; another is a bad byte": any other newline is a byte of the
/// field that it is in. Nothing is skipped here. "Line-to-record conversion drops
/// b." Refusals 1 2 3 4 5 15 12; the place is 0 here too.
pub fn line_to_record(line: &[u8], output: &mut [u8]) -> Result<usize, Refusal> {
    let line = match line.split_last() {
        Some((b'\n', before)) => before,
        _ => line,
    };
    let rule = read_rule(line).map_err(|refusal| match refusal {
        Refusal::BadLabel { .. } => Refusal::BadLabel { place: 0 },
        other => other,
    })?;
    if rule.subject == rule.object {
        return Err(Refusal::SameLabels);
    }
    if rule.subject.len() > FIXED_LABEL_LIMIT || rule.object.len() > FIXED_LABEL_LIMIT {
        return Err(Refusal::NotInARecord);
    }
    let mut record = Vec::with_capacity(FIXED_RECORD);
    for label in [rule.subject, rule.object] {
        record.extend_from_slice(label);
        record.resize(record.len() + FIXED_PLACE - label.len(), b' ');
    }
    for (letter, bit) in LETTERS {
        record.push(if rule.modes & bit != 0 { letter } else { b'-' });
    }
    write_to_front(&record, output)
}

// ---------------------------------------------------------------------------
// The packet option (02, Five)
// ---------------------------------------------------------------------------

/// The option begins with "byte 134".
pub const OPTION_TYPE: u8 = 134;
/// "four bytes of DOI (always 3, high byte first)".
pub const OPTION_DOI: [u8; 4] = [0, 0, 0, 3];
/// "one tag of type 1".
pub const TAG_TYPE: u8 = 1;
/// The bytes before the tag: 134, total length, DOI.
pub const BEFORE_TAG: usize = 6;
/// The bytes before the bitmap: those, then "1, tag length, 0, level".
pub const BEFORE_BITMAP: usize = 10;
/// "the reader takes them, up to 30 bitmap bytes".
pub const BITMAP_LIMIT: usize = 30;
/// "at level 250 as its own bits".
pub const LABEL_LEVEL: u8 = 250;
/// "An unmapped label of at most 23 bytes".
pub const OWN_BITS_LIMIT: usize = 23;

/// "Category n is bit 0x80 shifted right by n mod 8, in bitmap byte n/8 rounded
/// down": the byte, and the bit in it.
fn bitmap_place(category: u64) -> (usize, u8) {
    ((category / 8) as usize, 0x80 >> (category % 8))
}

/// The bitmap of a set: as long as its highest category wants, so there are "no
/// trailing zero bytes".
fn bitmap_of(set: &Categories) -> Vec<u8> {
    let mut bitmap = Vec::with_capacity(BITMAP_LIMIT);
    for category in set.iter() {
        let (byte, bit) = bitmap_place(category);
        if bitmap.len() <= byte {
            bitmap.resize(byte + 1, 0);
        }
        bitmap[byte] |= bit;
    }
    bitmap
}

/// The set that a bitmap says. None where a bit is "category 0 or above 184".
fn set_of_bitmap(bitmap: &[u8]) -> Option<Categories> {
    let mut set = Categories::new();
    for category in 0..8 * bitmap.len() as u64 {
        let (byte, bit) = bitmap_place(category);
        if bitmap[byte] & bit == 0 {
            continue;
        }
        if category == 0 || category > HIGHEST_CATEGORY {
            return None;
        }
        set.insert(category);
    }
    Some(set)
}

/// A label's "own bits: bit j, from the top, of byte i is category 8i+j+1". The label
/// has at most 23 bytes.
pub fn own_bits(label: &[u8]) -> Categories {
    let mut set = Categories::new();
    for (i, byte) in label.iter().enumerate() {
        for j in 0..8 {
            if byte & (0x80 >> j) != 0 {
                set.insert(8 * i as u64 + j + 1);
            }
        }
    }
    set
}

/// "the reader rebuilds the label, dropping trailing zero bytes": 23 bytes made of
/// the set, bit by bit as above, without the zero bytes at their end. They need
/// not be a label.
fn bytes_of_bits(set: &Categories) -> Vec<u8> {
    let mut bytes = Vec::new();
    for i in 0..OWN_BITS_LIMIT as u64 {
        let mut byte = 0;
        for j in 0..8 {
            if set.contains(8 * i + j + 1) {
                byte |= 0x80 >> j;
            }
        }
        bytes.push(byte);
    }
    while bytes.last() == Some(&0) {
        bytes.pop();
    }
    bytes
}

/// "byte 134, total length, four bytes of DOI (always 3, high byte first), 1, tag
/// length, 0, level, bitmap". The tag length is that of all from the 1 on.
pub fn option_bytes(level: u8, set: &Categories) -> Vec<u8> {
    let bitmap = bitmap_of(set);
    let total = BEFORE_BITMAP + bitmap.len();
    let mut option = Vec::with_capacity(total);
    option.extend_from_slice(&[OPTION_TYPE, total as u8]);
    option.extend_from_slice(&OPTION_DOI);
    option.extend_from_slice(&[TAG_TYPE, (total - BEFORE_TAG) as u8, 0, level]);
    option.extend_from_slice(&bitmap);
    option
}

/// Whether the bytes are laid out as an option is, whatever its DOI: the rest is
/// "any other layout".
fn is_laid_out(option: &[u8]) -> bool {
    let total = option.len();
    if !(BEFORE_BITMAP..=BEFORE_BITMAP + BITMAP_LIMIT).contains(&total) {
        return false;
    }
    option[0] == OPTION_TYPE
        && usize::from(option[1]) == total
        && option[6] == TAG_TYPE
        && usize::from(option[7]) == total - BEFORE_TAG
        && option[8] == 0
}

impl Table {
    /// The writer: "A mapped label uses its mapping. An unmapped label of at most 23
    /// bytes goes at level 250 as its own bits"; "the length written to a lent output
    /// is answered". Refusals 3 19 12. This call is not 01's, so no place is told
    /// beside its 3: it is 0 here.
    pub fn write_option(&self, label: &[u8], output: &mut [u8]) -> Result<usize, Refusal> {
        if !is_well_formed(label) {
            return Err(Refusal::BadLabel { place: 0 });
        }
        let option = match self.by_label(label)? {
            Some(found) => option_bytes(found.level, &found.set),
            None if label.len() > OWN_BITS_LIMIT => return Err(Refusal::UnmappedTooLong),
            None => option_bytes(LABEL_LEVEL, &own_bits(label)),
        };
        write_to_front(&option, output)
    }

    /// The reader: gives the label's bytes. "It answers by value and stores
    /// nothing." Refusals "16 for any other layout, then 17 for another DOI, then 18
    /// for category 0 or above 184, then 3 where level 250 doesn't rebuild a label,
    /// else 21 where no mapping matches". The place is 0 here too.
    pub fn read_option(&self, option: &[u8]) -> Result<Vec<u8>, Refusal> {
        if !is_laid_out(option) {
            return Err(Refusal::BadOption);
        }
        if option[2..BEFORE_TAG] != OPTION_DOI {
            return Err(Refusal::OtherDoi);
        }
        let Some(set) = set_of_bitmap(&option[BEFORE_BITMAP..]) else {
            return Err(Refusal::BadOptionCategory);
        };
        let level = option[9];
        if level == LABEL_LEVEL {
            let label = bytes_of_bits(&set);
            if !is_well_formed(&label) {
                return Err(Refusal::BadLabel { place: 0 });
            }
            return Ok(label);
        }
        // By its stored bytes, whatever they are.
        match self.lowest_with(u64::from(level), &set) {
            Some(number) => Ok(self.labels[number].clone()),
            None => Err(Refusal::NoMappingMatches),
        }
    }
}

// ---------------------------------------------------------------------------
// The label of a new object (02, Seven)
// ---------------------------------------------------------------------------

/// What is said of a new object: the label that it gets, "denied", or refused with
/// its number. "a new folder then transmutes too" is said of the folder's label
/// alone; with the creator's label "it doesn't transmute".
#[derive(Clone, Copy, PartialEq, Eq, Debug)]
pub enum NewObject {
    CreatorLabel,
    FolderLabel { transmutes: bool },
    Denied,
    Refused(Refusal),
}

impl Table {
    /// "the label of a new object: given creator, folder label, whether the folder
    /// transmutes, and whether the new object is a folder". Refusal 3, for the creator
    /// or the folder's label. This call is not 01's, so no place is told beside its 3:
    /// it is 0 here. Nothing changes.
    pub fn new_object(
        &self,
        creator: &[u8],
        folder: &[u8],
        folder_transmutes: bool,
        is_folder: bool,
    ) -> NewObject {
        if !is_well_formed(creator) || !is_well_formed(folder) {
            return NewObject::Refused(Refusal::BadLabel { place: 0 });
        }
        // "If the creator may not write to the folder by rules 1 to 7, say denied;
        // override isn't considered here."
        let Answer::Granted { rule } = self.seven_rules(creator, folder, W) else {
            return NewObject::Denied;
        };
        // "The folder's label is given when the folder transmutes and rule 6 granted
        // the write by a rule with t; a new folder then transmutes too."
        if folder_transmutes && rule == 6 && self.rule_has_t(creator, folder) {
            return NewObject::FolderLabel {
                transmutes: is_folder,
            };
        }
        // "Otherwise it's the creator's label, and it doesn't transmute."
        NewObject::CreatorLabel
    }

    /// Whether the rule that rule 6 goes by is "a rule with t".
    fn rule_has_t(&self, subject: &[u8], object: &[u8]) -> bool {
        match self.modes_of_pair(subject, object) {
            Some(modes) => modes & T != 0,
            None => false,
        }
    }
}
