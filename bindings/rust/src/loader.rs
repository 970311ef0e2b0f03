//! Rule text: its loader and its report.

use crate::header::{bq_end, bq_fresh_loader, bq_loader, bq_piece, bq_report};
use crate::{LINE, Refused, Table};
use std::fmt;

/// What has become of rule text. Each number is the true one or 4294967295, whichever is smaller.
///
/// ```
/// use balqirven::{FirstRefused, Loader, Refusal, Refused, Report, Table};
///
/// let (mut table, mut loader) = (Table::fresh(), Loader::fresh());
/// loader.piece(&mut table, "Alarm Air rB\n\nAlarm Archive/2026 r\nAlarm Alarm r\n")?;
/// let reason = Refused { refusal: Refusal::BadLabel, place: Some(13) };
/// let first = Some(FirstRefused { line: 3, reason });
/// assert_eq!(loader.end(&mut table)?, Report { lines: 4, accepted: 1, skipped: 1, refused: 2, first, bringup: 1 });
/// # Ok::<(), balqirven::Refused>(())
/// ```
#[derive(Clone, Copy, Debug, Default, PartialEq, Eq)]
pub struct Report {
    /// Lines read.
    pub lines: u32,
    /// Lines accepted.
    pub accepted: u32,
    /// Lines skipped: nothing but blanks, and at most 600 of them.
    pub skipped: u32,
    /// Lines refused.
    pub refused: u32,
    /// The first refused line, if there is one.
    pub first: Option<FirstRefused>,
    /// How many of the accepted lines held b or B in their access field, the retired bring-up letter, which was dropped there. Each line counts once.
    pub bringup: u32,
}

/// The first refused line of a [`Report`].
///
/// ```
/// use balqirven::{Loader, Refusal, Refused, Table};
///
/// let (mut table, mut loader) = (Table::fresh(), Loader::fresh());
/// loader.piece(&mut table, "Alarm Air r\nAlarm Air\n")?;
/// let first = loader.report().first.unwrap();
/// assert_eq!(first.line, 2);
/// assert_eq!(first.reason, Refused { refusal: Refusal::WrongFields, place: None });
/// # Ok::<(), balqirven::Refused>(())
/// ```
#[derive(Clone, Copy, Debug, PartialEq, Eq)]
pub struct FirstRefused {
    /// Its number, from 1.
    pub line: u32,
    /// What it was refused for. A place counts from the line's first byte, however the text was cut.
    pub reason: Refused,
}

impl Report {
    /// Of the header's report.
    pub(crate) fn of(r: bq_report) -> Report {
        assert!((r.first == 0) == (r.refused == 0), "libbalqirven.a reported {} refused lines, and line {} as the first", r.refused, r.first);
        let first = (r.first > 0).then(|| FirstRefused { line: r.first, reason: Refused::with_place(r.reason, r.place) });
        Report { lines: r.lines, accepted: r.accepted, skipped: r.skipped, refused: r.refused, first, bringup: r.bringup }
    }
}

/// Rule text on its way into a table: the line under way, and the report so far.
///
/// ```
/// use balqirven::{Loader, Table};
///
/// let (mut table, mut loader) = (Table::fresh(), Loader::fresh());
/// for byte in b"Alarm Air r\nRecorder Air ra" {
///     loader.piece(&mut table, [*byte])?;
/// }
/// assert_eq!(loader.report().lines, 1, "the second line has not ended");
/// assert_eq!(loader.end(&mut table)?.accepted, 2);
/// assert_eq!(table.rules()?.last().unwrap(), b"Recorder Air ra\n");
/// # Ok::<(), balqirven::Refused>(())
/// ```
///
/// A line under way is in one loader, and is not copied unseen, only by `clone`:
///
/// ```compile_fail,E0382
/// let loader = balqirven::Loader::fresh();
/// let other = loader;
/// loader.report();
/// ```
#[derive(Clone)]
pub struct Loader {
    line: [u8; LINE],
    state: bq_loader,
}

impl Loader {
    /// A fresh loader: no byte of a line kept, a report of zeros.
    ///
    /// ```
    /// use balqirven::{Loader, Report};
    ///
    /// assert_eq!(Loader::fresh().report(), Report { lines: 0, accepted: 0, skipped: 0, refused: 0, first: None, bringup: 0 });
    /// ```
    pub fn fresh() -> Loader {
        // SAFETY: the call gets no pointer.
        Loader { line: [0; LINE], state: unsafe { bq_fresh_loader() } }
    }

    /// Takes a piece of rule text, cut anywhere, of any length. Each line (subject, object, access) is judged at its newline, whole, against the table as it
    /// then is. A refused line does nothing but enter the report: the piece is done all the same.
    ///
    /// Refused with: 0 Damaged. Then the loader is as it was.
    ///
    /// ```
    /// use balqirven::{Loader, Refusal, Table};
    ///
    /// let (mut table, mut loader) = (Table::fresh(), Loader::fresh());
    /// loader.piece(&mut table, "Alarm Air r\nAlarm Ai")?;
    /// loader.piece(&mut table, "r w\nAlarm Air q\n")?;
    /// assert_eq!(table.rules()?.collect::<Vec<_>>(), [b"Alarm Air w\n"]);
    /// assert_eq!(loader.report().accepted, 2);
    /// assert_eq!(loader.report().first.unwrap().reason.refusal, Refusal::BadAccess);
    /// # Ok::<(), balqirven::Refused>(())
    /// ```
    ///
    /// While one thread takes a piece, no other can ask the table:
    ///
    /// ```compile_fail,E0502
    /// # use balqirven::{Loader, Table};
    /// let (mut table, mut loader) = (Table::fresh(), Loader::fresh());
    /// std::thread::scope(|threads| {
    ///     threads.spawn(|| loader.piece(&mut table, "Alarm Air r\n"));
    ///     threads.spawn(|| table.question("Alarm", "Air", "r", false));
    /// });
    /// ```
    ///
    /// nor take one into the same table, with a loader of its own:
    ///
    /// ```compile_fail,E0499
    /// # use balqirven::{Loader, Table};
    /// let mut table = Table::fresh();
    /// std::thread::scope(|threads| {
    ///     threads.spawn(|| Loader::fresh().piece(&mut table, "Alarm Air r\n"));
    ///     threads.spawn(|| Loader::fresh().piece(&mut table, "Alarm Air w\n"));
    /// });
    /// ```
    pub fn piece(&mut self, table: &mut Table, text: impl AsRef<[u8]>) -> Result<(), Refused> {
        let (line, text) = (&mut self.line, text.as_ref());
        // SAFETY: valid: the parts and the line are whole arrays and `text` is a slice, each with its own length, and the words are aligned as `u64`; apart:
        // the parts are three fields, and the table and the loader are borrowed by `&mut`, so neither is of the other and `text` of neither; alone: `&mut`.
        let answer = unsafe { lend!(bq_piece, write table, line.as_mut_ptr(), line.len(), self.state, text.as_ptr(), text.len()) };
        self.state = answer.loader;
        if answer.refused { Err(Refused::without_place(answer.number)) } else { Ok(()) }
    }

    /// Ends the text: bytes after the last newline are one more line. Answers the report, and the loader is fresh again; the table stays.
    ///
    /// Refused with: 0 Damaged. Then the loader is as it was.
    ///
    /// ```
    /// use balqirven::{Loader, Table};
    ///
    /// let (mut table, mut loader) = (Table::fresh(), Loader::fresh());
    /// loader.piece(&mut table, "Alarm Air r\nRecorder Air a")?;
    /// let report = loader.end(&mut table)?;
    /// assert_eq!((report.lines, report.accepted), (2, 2));
    /// assert_eq!(loader.end(&mut table)?.lines, 0, "the next text begins");
    /// # Ok::<(), balqirven::Refused>(())
    /// ```
    pub fn end(&mut self, table: &mut Table) -> Result<Report, Refused> {
        let line = &mut self.line;
        // SAFETY: valid: the parts and the line are whole arrays, each with its own length, and the words are aligned as `u64`; apart: the parts are three
        // fields, and the table and the loader are borrowed by `&mut`, so neither is of the other; alone: `&mut`.
        let answer = unsafe { lend!(bq_end, write table, line.as_mut_ptr(), line.len(), self.state) };
        self.state = answer.loader;
        if answer.refused { Err(Refused::without_place(answer.number)) } else { Ok(Report::of(answer.report)) }
    }

    /// The report so far, of the lines that have ended.
    ///
    /// ```
    /// use balqirven::{Loader, Table};
    ///
    /// let (mut table, mut loader) = (Table::fresh(), Loader::fresh());
    /// loader.piece(&mut table, "Alarm Air r\n  \t\nAlarm Ai")?;
    /// let report = loader.report();
    /// assert_eq!((report.lines, report.accepted, report.skipped), (2, 1, 1));
    /// # Ok::<(), balqirven::Refused>(())
    /// ```
    pub fn report(&self) -> Report {
        Report::of(self.state.report)
    }
}

impl Default for Loader {
    fn default() -> Loader {
        Loader::fresh()
    }
}

impl fmt::Debug for Loader {
    fn fmt(&self, f: &mut fmt::Formatter<'_>) -> fmt::Result {
        f.debug_struct("Loader").field("kept", &self.state.kept).field("report", &self.report()).finish_non_exhaustive()
    }
}
