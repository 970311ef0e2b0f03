//! What the structs that the header's calls answer are in Rust. lib.rs says which answers are checked; the checks are here, in loader.rs (a report) and in
//! refusal.rs (a refusal's number).

use crate::header::*;
use crate::{Decision, LONGEST_LABEL, Mapping, NewObject, PeerLabel, Refused, Set};

/// What a write answered.
pub(crate) fn written(answer: bq_written) -> Result<(), Refused> {
    if answer.refused { Err(Refused::with_place(answer.number, answer.place)) } else { Ok(()) }
}

/// How many rules were revoked.
pub(crate) fn counted(answer: bq_counted) -> Result<usize, Refused> {
    if answer.refused { Err(Refused::with_place(answer.number, answer.place)) } else { Ok(answer.count) }
}

/// What a call wrote, at the front of its output.
pub(crate) fn front(answer: bq_length, out: &[u8]) -> Result<&[u8], Refused> {
    if answer.refused {
        return Err(Refused::without_place(answer.number));
    }
    Ok(out.get(..answer.length).unwrap_or_else(|| panic!("libbalqirven.a says that it wrote {} bytes to an output of {}", answer.length, out.len())))
}

/// What a look-up by label found.
pub(crate) fn mapped(answer: bq_mapped) -> Result<Option<Mapping>, Refused> {
    match answer.kind {
        BQ_MAPPED => Ok(Some(Mapping { level: answer.level, set: Set::from_words(answer.set.word), count: answer.count })),
        BQ_UNMAPPED => Ok(None),
        BQ_LOOKUP_REFUSED => Err(Refused::with_place(answer.number, answer.place)),
        kind => unknown_kind("look-up", kind),
    }
}

/// What a search found.
pub(crate) fn found(answer: bq_lowest) -> Result<Option<usize>, Refused> {
    match answer.kind {
        BQ_LABEL => Ok(Some(answer.label)),
        BQ_NO_LABEL => Ok(None),
        BQ_SEARCH_REFUSED => Err(Refused::without_place(answer.number)),
        kind => unknown_kind("search", kind),
    }
}

/// How a question was decided.
pub(crate) fn decided(answer: bq_decision) -> Result<Decision, Refused> {
    let rule = answer.number;
    match (answer.kind, rule) {
        (BQ_GRANTED, 2..=6) => Ok(Decision::Granted { rule }),
        (BQ_DENIED, 1 | 7) => Ok(Decision::Denied { rule }),
        (BQ_OVERRIDE, 1 | 7) => Ok(Decision::Override { rule }),
        (BQ_REFUSED, number) => Err(Refused::with_place(number, answer.place)),
        (kind @ (BQ_GRANTED | BQ_DENIED | BQ_OVERRIDE), _) => {
            panic!("libbalqirven.a answered a question by kind {kind} and rule {rule}, which do not go together")
        }
        (kind, _) => unknown_kind("question", kind),
    }
}

/// Which label a new object gets.
pub(crate) fn labelled(answer: bq_labelled) -> Result<NewObject, Refused> {
    match answer.kind {
        BQ_CREATOR_LABEL => Ok(NewObject::CreatorLabel),
        BQ_CREATION_DENIED => Ok(NewObject::Denied),
        BQ_FOLDER_LABEL => Ok(NewObject::FolderLabel { transmutes: answer.transmutes }),
        BQ_CREATION_REFUSED => Err(Refused::without_place(answer.number)),
        kind => unknown_kind("new object", kind),
    }
}

/// The label that stands in a label store.
pub(crate) fn part(answer: bq_part, store: &[u8]) -> Result<&[u8], Refused> {
    if answer.refused {
        return Err(Refused::without_place(answer.number));
    }
    let label = store.get(answer.start..).and_then(|rest| rest.get(..answer.length));
    Ok(label.expect("libbalqirven.a says that a label stands outside of the label store"))
}

/// The label that an option said.
pub(crate) fn peer(answer: bq_peer) -> Result<PeerLabel, Refused> {
    if answer.refused {
        return Err(Refused::without_place(answer.number));
    }
    assert!(answer.length <= LONGEST_LABEL, "libbalqirven.a gave a label of {} bytes", answer.length);
    Ok(PeerLabel { length: answer.length, bytes: answer.bytes })
}

/// For an answer of a kind that the header does not have.
fn unknown_kind(call: &str, kind: u8) -> ! {
    panic!("libbalqirven.a answered a {call} by kind {kind}, which the header does not have")
}

/// What the fields of an answer hold is handed on whole, also where no table is so large.
#[cfg(test)]
mod whole {
    use super::*;
    use crate::Refusal;

    #[test]
    fn every_field() {
        const MOST: usize = usize::MAX;
        let (bad, other) = (|place| Refused { refusal: Refusal::BadLabel, place }, Refused { refusal: Refusal::NoSuchMapping, place: None });
        assert_eq!(written(bq_written { refused: true, number: 3, place: MOST }), Err(bad(Some(MOST))));
        assert_eq!(written(bq_written { refused: true, number: 21, place: 0 }), Err(other));
        assert_eq!(counted(bq_counted { count: MOST, ..Default::default() }), Ok(MOST));
        assert_eq!(counted(bq_counted { refused: true, number: 3, place: MOST, count: 0 }), Err(bad(Some(MOST))));
        assert_eq!(found(bq_lowest { kind: BQ_LABEL, number: 0, label: MOST }), Ok(Some(MOST)));
        assert_eq!(found(bq_lowest { kind: BQ_NO_LABEL, number: 0, label: 0 }), Ok(None));
        assert_eq!(found(bq_lowest { kind: BQ_SEARCH_REFUSED, number: 21, label: 0 }), Err(other));

        let words = [u64::MAX, u64::MAX - 1, u64::MAX - 2];
        let answer = bq_mapped { kind: BQ_MAPPED, number: 0, level: 255, count: u32::MAX, set: bq_set { word: words }, place: 0 };
        assert_eq!(mapped(answer), Ok(Some(Mapping { level: 255, set: Set::from_words(words), count: u32::MAX })));
        assert_eq!(mapped(bq_mapped { kind: BQ_UNMAPPED, ..Default::default() }), Ok(None));
        assert_eq!(mapped(bq_mapped { kind: BQ_LOOKUP_REFUSED, number: 3, place: MOST, ..Default::default() }), Err(bad(Some(MOST))));

        assert_eq!(decided(bq_decision { kind: BQ_REFUSED, number: 3, place: MOST }), Err(bad(Some(MOST))));
        assert_eq!(labelled(bq_labelled { kind: BQ_CREATION_REFUSED, number: 3, transmutes: false }), Err(bad(None)));
        assert_eq!(labelled(bq_labelled { kind: BQ_CREATION_DENIED, number: 0, transmutes: false }), Ok(NewObject::Denied));

        let store: [u8; 255] = std::array::from_fn(|k| k as u8);
        assert_eq!(part(bq_part { refused: false, number: 0, start: 250, length: 5 }, &store), Ok(&store[250..]));
        assert_eq!(peer(bq_peer { refused: false, number: 0, length: 255, bytes: store }).unwrap().bytes(), store);
        assert_eq!(peer(bq_peer { refused: true, number: 21, length: 0, bytes: store }), Err(other));
    }

    /// Each kind of decision takes the rule numbers that the header names beside it, tells them, and panics on all others.
    #[test]
    fn the_rules_of_each_kind() {
        type Kind = (u8, &'static [u8], fn(u8) -> Decision);
        let kinds: [Kind; 3] = [
            (BQ_GRANTED, &[2, 3, 4, 5, 6], |rule| Decision::Granted { rule }),
            (BQ_DENIED, &[1, 7], |rule| Decision::Denied { rule }),
            (BQ_OVERRIDE, &[1, 7], |rule| Decision::Override { rule }),
        ];
        for (kind, rules, decision) in kinds {
            for number in 0..=255 {
                let answer = std::panic::catch_unwind(|| decided(bq_decision { kind, number, place: 0 }));
                assert_eq!(answer.ok(), rules.contains(&number).then(|| Ok(decision(number))), "kind {kind}, rule {number}");
            }
        }
    }
}

/// No right library gives these answers, so no call reaches them.
#[cfg(test)]
mod answers_that_cannot_be {
    use super::*;

    #[test]
    #[should_panic = "libbalqirven.a answered a look-up by kind 3, which the header does not have"]
    fn a_kind_of_look_up() {
        let _ = mapped(bq_mapped { kind: 3, ..Default::default() });
    }

    #[test]
    #[should_panic = "libbalqirven.a answered a search by kind 3, which the header does not have"]
    fn a_kind_of_search() {
        let _ = found(bq_lowest { kind: 3, ..Default::default() });
    }

    #[test]
    #[should_panic = "libbalqirven.a answered a question by kind 4, which the header does not have"]
    fn a_kind_of_question() {
        let _ = decided(bq_decision { kind: 4, number: 6, place: 0 });
    }

    #[test]
    #[should_panic = "libbalqirven.a answered a new object by kind 4, which the header does not have"]
    fn a_kind_of_new_object() {
        let _ = labelled(bq_labelled { kind: 4, ..Default::default() });
    }

    #[test]
    #[should_panic = "libbalqirven.a answered a question by kind 0 and rule 7, which do not go together"]
    fn a_rule() {
        let _ = decided(bq_decision { kind: BQ_GRANTED, number: 7, place: 0 });
    }

    #[test]
    #[should_panic = "libbalqirven.a gave refusal 20, which the header does not have"]
    fn a_refusal() {
        let _ = found(bq_lowest { kind: BQ_SEARCH_REFUSED, number: 20, label: 0 });
    }

    #[test]
    #[should_panic = "libbalqirven.a says that it wrote 5 bytes to an output of 4"]
    fn a_length() {
        let _ = front(bq_length { refused: false, number: 0, length: 5 }, &[0; 4]);
    }

    #[test]
    #[should_panic = "libbalqirven.a says that a label stands outside of the label store"]
    fn a_part() {
        let _ = part(bq_part { refused: false, number: 0, start: 2, length: 3 }, &[0; 4]);
    }

    #[test]
    #[should_panic = "libbalqirven.a gave a label of 256 bytes"]
    fn a_label() {
        let _ = peer(bq_peer { refused: false, number: 0, length: 256, bytes: [b'A'; LONGEST_LABEL] });
    }

    #[test]
    #[should_panic = "libbalqirven.a reported 1 refused lines, and line 0 as the first"]
    fn a_report() {
        let _ = crate::Report::of(bq_report { refused: 1, ..Default::default() });
    }
}
