//! Lent memory: what is damage and what is only odd, refusal 0 before every
//! other, and which bytes a call leaves.

mod common;

use second::plain::*;
use second::raw::{self, *};

/// A state with three rules, two mappings and two override labels.
/// Labels 5 to 8 are A B C D.
fn some_state() -> RawState {
    let mut state = RawState::fresh();
    let mut loader = RawLoader::fresh();
    raw::piece(&mut state, &mut loader, b"A B r\nB C wt\nA C x\n").unwrap();
    raw::mapping(&mut state, b"A 9 1 63").unwrap();
    raw::mapping(&mut state, b"D 9 2").unwrap();
    raw::override_write(&mut state, b"B D").unwrap();
    state
}

/// Every call that takes the tables gets 0 here, with the worst of inputs, and
/// leaves every byte.
fn assert_every_call_gets_0(state: &RawState) {
    assert!(raw_is_damaged(state));
    let mut copy = state.clone();
    let mut loader = RawLoader::fresh();
    loader.numbers = [3, 9, 4, 3, 2, 1, 5, 77, 6];
    loader.line[..3].copy_from_slice(b"A B");
    let loader_before = loader.clone();
    let long = vec![b'/'; 700];
    for text in [&b""[..], b"\n", b"A B r\n", &long] {
        let answer = raw::piece(&mut copy, &mut loader, text);
        assert_eq!(answer, Err(Refusal::Damaged));
        assert_eq!(raw::change(&mut copy, text), Err(Refusal::Damaged));
        assert_eq!(raw::revoke(&mut copy, text), Err(Refusal::Damaged));
        assert_eq!(raw::override_write(&mut copy, text), Err(Refusal::Damaged));
        assert_eq!(raw::mapping(&mut copy, text), Err(Refusal::Damaged));
        assert_eq!(raw::by_label(&copy, text), Err(Refusal::Damaged));
        assert_eq!(
            raw::write_option(&copy, text, &mut []),
            Err(Refusal::Damaged)
        );
        assert_eq!(raw::read_option(&copy, text), Err(Refusal::Damaged));
        for capability in [false, true] {
            assert_eq!(
                raw::question(&copy, text, b"B", b"r", capability),
                Answer::Refused(Refusal::Damaged)
            );
            assert_eq!(
                raw::new_object(&copy, text, text, capability, !capability),
                NewObject::Refused(Refusal::Damaged)
            );
        }
    }
    assert_eq!(raw::end(&mut copy, &mut loader), Err(Refusal::Damaged));
    for good in [&b"A B r w"[..], b"A", b"-", b"A 1"] {
        assert_eq!(raw::change(&mut copy, good), Err(Refusal::Damaged));
        assert_eq!(raw::revoke(&mut copy, good), Err(Refusal::Damaged));
        assert_eq!(raw::override_write(&mut copy, good), Err(Refusal::Damaged));
        assert_eq!(raw::mapping(&mut copy, good), Err(Refusal::Damaged));
    }
    assert_eq!(
        raw::question(&copy, b"A", b"A", b"r", true),
        Answer::Refused(Refusal::Damaged)
    );
    for (creator, folder) in [(b"B", b"C"), (b"A", b"A"), (b"*", b"*"), (b"A", b"*")] {
        assert_eq!(
            raw::new_object(&copy, creator, folder, true, true),
            NewObject::Refused(Refusal::Damaged)
        );
    }
    assert_eq!(raw::by_label(&copy, b"A"), Err(Refusal::Damaged));
    assert_eq!(raw::by_level(&copy, 9, &[2, 0, 0]), Err(Refusal::Damaged));
    assert_eq!(raw::by_level(&copy, 256, &[0, 0, 1]), Err(Refusal::Damaged));
    let mut buffer = [7; 40];
    let option = [134, 12, 0, 0, 0, 3, 1, 6, 0, 250, 32, 128];
    assert_eq!(
        raw::write_option(&copy, b"A", &mut buffer),
        Err(Refusal::Damaged)
    );
    assert_eq!(raw::read_option(&copy, &option), Err(Refusal::Damaged));
    for k in [0, 1, 999, u64::MAX] {
        assert_eq!(raw::list(&copy, k, &mut buffer), Err(Refusal::Damaged));
        assert_eq!(raw::list(&copy, k, &mut []), Err(Refusal::Damaged));
        assert_eq!(raw::label_check(&copy, k), Err(Refusal::Damaged));
        assert_eq!(raw::label(&copy, k), b"");
    }
    assert_eq!(buffer, [7; 40]);
    assert_eq!(&copy, state);
    assert_eq!(loader, loader_before);
    // "A run is no part of the state and never gets 0."
    assert_eq!(raw::by_run(&[], 9, &[2, 0, 0]), Ok(None));
}

#[test]
fn a_part_not_of_its_full_size() {
    for size in [0, 1, 256, 16383, 16385, 32768] {
        let mut state = some_state();
        state.label_store.resize(size, 0);
        assert_every_call_gets_0(&state);
    }
    for size in [0, 1, 839, 841] {
        let mut state = some_state();
        state.entries.resize(size, 0);
        assert_every_call_gets_0(&state);
    }
    for size in [0, 3, 4, 36, 68, 99, 101] {
        let mut state = some_state();
        state.words.resize(size, 0);
        assert_every_call_gets_0(&state);
    }
}

#[test]
fn a_count_over_its_limit() {
    for (index, limit) in [(0, 64), (1, 256), (2, 32), (3, 8)] {
        for value in [limit + 1, limit + 256, 1 << 32, u64::MAX] {
            let mut state = some_state();
            state.words[index] = value;
            assert_every_call_gets_0(&state);
        }
        // At the limit itself there are zeros, which name label 0.
        let mut state = some_state();
        state.words[index] = limit;
        assert!(!raw_is_damaged(&state), "{index}");
    }
}

#[test]
fn a_number_that_names_no_stored_label() {
    let places = [
        (SUBJECTS, 3),
        (OBJECTS, 3),
        (MAPPING_LABELS, 2),
        (OVERRIDES, 2),
    ];
    for (row, count) in places {
        for k in 0..count {
            for value in [9, 10, 64, 255] {
                let mut state = some_state();
                state.entries[row + k] = value;
                assert_every_call_gets_0(&state);
            }
            let mut state = some_state();
            state.entries[row + k] = 8;
            assert!(!raw_is_damaged(&state));
        }
        // Nothing is stored behind the count.
        let mut state = some_state();
        state.entries[row + count] = 255;
        assert!(!raw_is_damaged(&state));
    }
    // Fewer labels than the numbers need.
    let mut state = some_state();
    state.words[LABEL_COUNT] = 8;
    assert_every_call_gets_0(&state);
}

#[test]
fn an_unknown_mode_bit() {
    for k in 0..3 {
        // The lowest of them stored b once.
        for bit in [1, 64, 128] {
            let mut state = some_state();
            state.entries[MODES + k] |= bit;
            assert_every_call_gets_0(&state);
            state.entries[MODES + k] = bit;
            assert_every_call_gets_0(&state);
        }
        let mut state = some_state();
        state.entries[MODES + k] = 62;
        assert!(!raw_is_damaged(&state));
    }
    // Just the sets of r w x a t are known.
    for modes in 0..=255 {
        let mut state = some_state();
        state.entries[MODES + 1] = modes;
        let is_known = modes < 64 && modes % 2 == 0;
        assert_eq!(raw_is_damaged(&state), !is_known, "{modes}");
        // Behind the count nothing matters.
        let mut state = some_state();
        state.entries[MODES + 3] = modes;
        assert!(!raw_is_damaged(&state));
    }
}

#[test]
fn an_unknown_category_bit() {
    for k in 0..2 {
        for word in [1, 2, 4, 8, 16, 32, 64, 128, 257, u64::MAX] {
            let mut state = some_state();
            state.words[SETS[2] + k] = word;
            assert_every_call_gets_0(&state);
        }
        // All other bits are categories.
        let mut state = some_state();
        state.words[SETS[0] + k] = u64::MAX;
        state.words[SETS[1] + k] = u64::MAX;
        state.words[SETS[2] + k] = u64::MAX - 255;
        assert!(!raw_is_damaged(&state));
    }
    // Behind the count nothing matters.
    let mut state = some_state();
    for row in SETS {
        state.words[row + 2] = u64::MAX;
    }
    assert!(!raw_is_damaged(&state));
}

#[test]
fn a_damaged_loader() {
    let mut broken = Vec::new();
    for size in [0, 599, 601] {
        let mut loader = RawLoader::fresh();
        loader.line.resize(size, 0);
        broken.push(loader);
    }
    for kept in [602, 1000, u64::from(u32::MAX), 1 << 32, u64::MAX] {
        let mut loader = RawLoader::fresh();
        loader.numbers[KEPT] = kept;
        broken.push(loader);
    }
    for loader in broken {
        assert!(raw_loader_is_damaged(&loader));
        let mut state = some_state();
        let mut copy = loader.clone();
        for text in [&b""[..], b"A B w\n"] {
            let answer = raw::piece(&mut state, &mut copy, text);
            assert_eq!(answer, Err(Refusal::Damaged));
        }
        assert_eq!(raw::end(&mut state, &mut copy), Err(Refusal::Damaged));
        assert_eq!(copy, loader);
        assert_eq!(state, some_state());
    }
    // Numbers that do not add up are not damage.
    let mut loader = RawLoader::fresh();
    loader.numbers = [601, 1, 2, 3, 4, 5, 99, u64::MAX, 6];
    assert!(!raw_loader_is_damaged(&loader));
}

#[test]
fn a_state_of_zeros_is_not_damaged() {
    let mut state = RawState {
        label_store: vec![0; STORE_SIZE],
        entries: vec![0; ENTRIES_SIZE],
        words: vec![0; WORDS_SIZE],
    };
    assert!(!raw_is_damaged(&state));
    // The rules of _ ^ * go by the labels' bytes, not by numbers.
    let ask = |state: &RawState, subject: &[u8], object: &[u8], request: &[u8]| {
        raw::question(state, subject, object, request, false)
    };
    assert_eq!(ask(&state, b"*", b"_", b"r"), common::denied(1));
    assert_eq!(ask(&state, b"^", b"A", b"r"), common::granted(2));
    assert_eq!(ask(&state, b"A", b"_", b"r"), common::granted(3));
    assert_eq!(ask(&state, b"A", b"*", b"w"), common::granted(4));
    raw::change(&mut state, b"A B w -").unwrap();
    assert_eq!(&state.words[..4], [2, 1, 0, 0]);
    assert_eq!(&state.label_store[..3], b"\x01A\0");
    assert_eq!(ask(&state, b"A", b"B", b"w"), common::granted(6));
    // Number 0 is A here, and no special label.
    assert_eq!(ask(&state, b"B", b"A", b"r"), common::denied(7));
    // Now _ enters like any other.
    raw::mapping(&mut state, b"_ 3").unwrap();
    assert_eq!(raw::label(&state, 2), b"_");
}

#[test]
fn ill_formed_stored_labels_are_not_damage() {
    let mut state = some_state();
    state.label_store[5 * PLACE] = 0; // A is now empty
    state.label_store[6 * PLACE + 1] = b'-'; // B is now a dash
    assert!(!raw_is_damaged(&state));
    assert_eq!(raw::label(&state, 5), b"");
    assert_eq!(raw::label_check(&state, 5), Ok(()));
    assert_eq!(raw::label(&state, 6), b"-");
    let mut buffer = [7; 6];
    assert_eq!(raw::list(&state, 0, &mut buffer), Ok(5));
    assert_eq!(&buffer, b" - r\n\x07");
    // No well-formed label means them.
    assert_eq!(raw::revoke(&mut state, b"A"), Ok(0));
    assert_eq!(
        raw::question(&state, b"A", b"C", b"x", false),
        common::denied(7)
    );
    assert_eq!(raw::by_label(&state, b"A"), Ok(None));
    // A enters anew.
    raw::change(&mut state, b"A C w -").unwrap();
    assert_eq!(raw::label(&state, 9), b"A");
    assert_eq!(state.words[RULE_COUNT], 4);
}

#[test]
fn a_label_stored_twice_means_its_first_number() {
    let mut state = some_state();
    // D (8) becomes a second A; its mapping and its place in the list are lost.
    state.label_store[8 * PLACE + 1] = b'A';
    assert!(!raw_is_damaged(&state));
    assert_eq!(
        raw::by_label(&state, b"A").unwrap().unwrap().set,
        Categories::from([1, 63])
    );
    assert_eq!(raw::by_level(&state, 9, &[1 << 62, 0, 0]), Ok(None));
    let one_and_63 = [(1 << 63) | 2, 0, 0];
    assert_eq!(raw::by_level(&state, 9, &one_and_63), Ok(Some(5)));
    assert_eq!(
        raw::question(&state, b"A", b"B", b"w", true),
        common::denied(7)
    );
    // A rule stored under the second number is found by no label.
    state.entries[SUBJECTS] = 8;
    assert_eq!(
        raw::question(&state, b"A", b"B", b"r", false),
        common::denied(7)
    );
    assert_eq!(raw::revoke(&mut state, b"A"), Ok(1));
    assert_eq!(&state.entries[MODES..MODES + 3], [R, W | T, 0]);
    // Listing and label by number still show it.
    assert_eq!(raw::label(&state, 8), b"A");
    let mut buffer = [0; 6];
    assert_eq!(raw::list(&state, 0, &mut buffer), Ok(6));
    assert_eq!(&buffer, b"A B r\n");
    // A new rule goes by the first number.
    raw::change(&mut state, b"A B a -").unwrap();
    assert_eq!(state.entries[SUBJECTS + 3], 5);
}

#[test]
fn a_pair_stored_twice() {
    let mut state = some_state();
    // Rule 2 becomes a second A B, with x.
    state.entries[OBJECTS + 2] = 6;
    let ask = |state: &RawState, request: &[u8]| raw::question(state, b"A", b"B", request, false);
    assert_eq!(ask(&state, b"r"), common::granted(6));
    assert_eq!(ask(&state, b"x"), common::denied(7));
    let mut loader = RawLoader::fresh();
    raw::piece(&mut state, &mut loader, b"A B w\n").unwrap();
    assert_eq!(&state.entries[MODES..MODES + 3], [W, W | T, X]);
    raw::change(&mut state, b"A B a -").unwrap();
    assert_eq!(&state.entries[MODES..MODES + 3], [W | A, W | T, X]);
    assert_eq!(raw::revoke(&mut state, b"A"), Ok(2));
    assert_eq!(&state.entries[MODES..MODES + 3], [0, W | T, 0]);
}

#[test]
fn a_mapping_stored_twice() {
    let mut state = some_state();
    // The second mapping is now A's too.
    state.entries[MAPPING_LABELS + 1] = 5;
    assert_eq!(raw::by_label(&state, b"A").unwrap().unwrap().count, 2);
    assert_eq!(raw::by_level(&state, 9, &[1 << 62, 0, 0]), Ok(None));
    let one_and_63 = [(1 << 63) | 2, 0, 0];
    assert_eq!(raw::by_level(&state, 9, &one_and_63), Ok(Some(5)));
    raw::mapping(&mut state, b"A 1").unwrap();
    assert_eq!(&state.entries[LEVELS..LEVELS + 2], [1, 9]);
    assert_eq!(&state.words[SETS[0]..SETS[0] + 2], [0, 1 << 62]);
    assert_eq!(state.words[MAPPING_COUNT], 2);
}

#[test]
fn an_override_label_stored_twice() {
    let mut state = some_state();
    state.entries[OVERRIDES + 1] = 6;
    assert!(!raw_is_damaged(&state));
    let by_override = Answer::Override { rule: 7 };
    assert_eq!(raw::question(&state, b"B", b"A", b"r", true), by_override);
    assert_eq!(
        raw::question(&state, b"D", b"A", b"r", true),
        common::denied(7)
    );
}

// --- Which bytes a call leaves --------------------------------------------------

/// The state with every byte that is not in use set to 0xee.
fn with_unused_filled(state: &RawState) -> RawState {
    let mut filled = RawState {
        label_store: vec![0xee; STORE_SIZE],
        entries: vec![0xee; ENTRIES_SIZE],
        words: vec![0xeeee; WORDS_SIZE],
    };
    write_table(&table_of(state).unwrap(), &mut filled);
    filled
}

#[test]
fn the_model_and_the_way_back() {
    let state = some_state();
    let filled = with_unused_filled(&state);
    assert!(!raw_is_damaged(&filled));
    assert_eq!(table_of(&filled), table_of(&state));
    let mut again = filled.clone();
    write_table(&table_of(&filled).unwrap(), &mut again);
    assert_eq!(again, filled);
}

#[test]
fn an_accepted_change_writes_its_entry_and_the_counts() {
    let mut state = with_unused_filled(&some_state());
    let mut expected = state.clone();
    raw::change(&mut state, b"D Long w -").unwrap();
    expected.label_store[9 * PLACE..9 * PLACE + 5].copy_from_slice(b"\x04Long");
    expected.entries[SUBJECTS + 3] = 8;
    expected.entries[OBJECTS + 3] = 9;
    expected.entries[MODES + 3] = W;
    expected.words[LABEL_COUNT] = 10;
    expected.words[RULE_COUNT] = 4;
    assert_eq!(state, expected);
    assert_eq!(state.label_store[9 * PLACE + 5], 0xee);
}

#[test]
fn an_accepted_mapping_writes_its_entry_and_the_counts() {
    let mut state = with_unused_filled(&some_state());
    let mut expected = state.clone();
    raw::mapping(&mut state, b"B 7 63 128 184").unwrap();
    expected.entries[MAPPING_LABELS + 2] = 6;
    expected.entries[LEVELS + 2] = 7;
    expected.words[4 + 2] = 2;
    expected.words[36 + 2] = 1;
    expected.words[68 + 2] = 256;
    expected.words[MAPPING_COUNT] = 3;
    assert_eq!(state, expected);
}

#[test]
fn a_shorter_override_list_leaves_the_bytes_behind_it() {
    let mut state = with_unused_filled(&some_state());
    raw::override_write(&mut state, b"A").unwrap();
    let row = [5, 8, 0xee, 0xee, 0xee, 0xee, 0xee, 0xee];
    assert_eq!(&state.entries[OVERRIDES..], row);
    assert_eq!(state.words[OVERRIDE_COUNT], 1);
    raw::override_write(&mut state, b"-").unwrap();
    assert_eq!(&state.entries[OVERRIDES..], row);
    assert_eq!(state.words[OVERRIDE_COUNT], 0);
}

#[test]
fn a_refusal_leaves_every_byte() {
    let state = with_unused_filled(&some_state());
    let mut copy = state.clone();
    let long = [b'A'; 601];
    for write in [&b"A"[..], b"A/ B r w", b"A B q w", b"A A r w", &long] {
        assert!(raw::change(&mut copy, write).is_err());
    }
    assert!(raw::revoke(&mut copy, b"A ").is_err());
    assert!(raw::override_write(&mut copy, b"New /").is_err());
    assert!(raw::mapping(&mut copy, b"New 1 185").is_err());
    assert_eq!(copy, state);
}

#[test]
fn the_kept_line_is_stored_as_it_comes() {
    let mut state = RawState::fresh();
    let mut loader = RawLoader::fresh();
    loader.line.fill(0xee);
    raw::piece(&mut state, &mut loader, b"A B r\nAir").unwrap();
    assert_eq!(&loader.line[..6], b"Air r\xee");
    assert_eq!(loader.numbers, [3, 1, 1, 0, 0, 0, 0, 0, 0]);
    raw::piece(&mut state, &mut loader, b"\n").unwrap();
    assert_eq!(&loader.line[..6], b"Air r\xee");
    assert_eq!(loader.numbers, [0, 2, 1, 0, 1, 2, 2, 0, 0]);
    // The end call clears the numbers, not the bytes.
    raw::piece(&mut state, &mut loader, b"X").unwrap();
    let report = raw::end(&mut state, &mut loader).unwrap();
    assert_eq!((report.lines, report.refused, report.first_line), (3, 2, 2));
    assert_eq!(&loader.line[..6], b"Xir r\xee");
    assert_eq!(loader.numbers, [0; 9]);
}

#[test]
fn an_over_long_line_keeps_its_first_600_bytes() {
    let mut state = RawState::fresh();
    let mut loader = RawLoader::fresh();
    raw::piece(&mut state, &mut loader, &[b' '; 599]).unwrap();
    assert_eq!(loader.numbers[KEPT], 599);
    raw::piece(&mut state, &mut loader, b"x").unwrap();
    assert_eq!(loader.numbers[KEPT], 600);
    assert_eq!(loader.line[599], b'x');
    let full = loader.line.clone();
    raw::piece(&mut state, &mut loader, b"y").unwrap();
    assert_eq!(loader.numbers[KEPT], 601);
    raw::piece(&mut state, &mut loader, &[b'z'; 2000]).unwrap();
    assert_eq!(loader.numbers[KEPT], 601);
    assert_eq!(loader.line, full);
    raw::piece(&mut state, &mut loader, b"\nA B r\n").unwrap();
    assert_eq!(&loader.line[..6], b"A B r ");
    assert_eq!(loader.numbers, [0, 2, 1, 0, 1, 1, 1, 0, 0]);
}

#[test]
fn a_newline_in_a_lent_kept_line_is_a_bad_byte_of_its_field() {
    let mut state = RawState::fresh();
    for (line, reason) in [
        (&b"A\nB C r"[..], 3),
        (b"A B r\n", 4),
        (b"A B r \n", 2),
        (b"\n", 2),
        (b" \n ", 2),
    ] {
        let mut loader = RawLoader::fresh();
        loader.line[..line.len()].copy_from_slice(line);
        loader.numbers[KEPT] = line.len() as u64;
        let report = raw::end(&mut state, &mut loader).unwrap();
        assert_eq!((report.lines, report.refused), (1, 1));
        assert_eq!(report.first_reason, reason, "{line:?}");
    }
}

#[test]
fn the_lent_numbers_stop_at_their_limit() {
    let mut state = RawState::fresh();
    let mut loader = RawLoader::fresh();
    let most = u64::from(u32::MAX);
    loader.numbers = [0, most, most - 1, most, 0, 0, 0, 0, most - 1];
    raw::piece(&mut state, &mut loader, b"A B rb\nA B wB\n\nA A r\n").unwrap();
    assert_eq!(loader.numbers, [0, most, most, most, 1, most, 5, 0, most]);
}

#[test]
fn a_label_is_the_very_part_of_the_lent_store() {
    let state = some_state();
    let part = raw::label(&state, 7);
    assert_eq!(part, b"C");
    assert_eq!(part.as_ptr(), state.label_store[7 * PLACE + 1..].as_ptr());
}

#[test]
fn the_raw_calls_and_the_model_agree() {
    let mut state = RawState::fresh();
    let mut loader = RawLoader::fresh();
    let mut table = Table::fresh();
    let mut model = Loader::fresh();
    for piece in [
        &b"A B r\nC"[..],
        b" D w\n\nA A",
        b" r\n",
        b"C D b\nC D q",
        b"",
        b"b\nX Y rwxatb",
    ] {
        raw::piece(&mut state, &mut loader, piece).unwrap();
        model.piece(&mut table, piece);
        assert_eq!(table_of(&state).unwrap(), table);
        assert_eq!(loader_of(&loader).unwrap(), model);
    }
    assert_eq!(
        raw::end(&mut state, &mut loader).unwrap(),
        model.end(&mut table)
    );
    assert_eq!(table_of(&state).unwrap(), table);
    assert_eq!(loader_of(&loader).unwrap(), model);
}

#[test]
fn a_fresh_table_in_memory_of_any_contents() {
    let mut state = RawState {
        label_store: vec![0xaa; 16384],
        entries: vec![0xbb; 840],
        words: vec![u64::MAX; 100],
    };
    raw::fresh_table(&mut state).unwrap();
    assert_eq!(raw::table_of(&state).unwrap(), Table::fresh());
    // The five labels and the four counts are written, and no other byte.
    assert_eq!(state.words[..4], [5, 0, 0, 0]);
    assert!(state.words[4..].iter().all(|&word| word == u64::MAX));
    assert!(state.entries.iter().all(|&byte| byte == 0xbb));
    for (at, &byte) in state.label_store.iter().enumerate() {
        let is_of_a_label = at / 256 < 5 && at % 256 < 2;
        assert_eq!(byte != 0xaa, is_of_a_label, "{at}");
    }
    // Refused with 0 only where a part has another size; then nothing changes.
    for part in 0..3 {
        for larger in [false, true] {
            let mut state = RawState::fresh();
            state.words[0] = 65;
            match (part, larger) {
                (0, false) => state.label_store.truncate(16383),
                (0, true) => state.label_store.push(0),
                (1, false) => state.entries.truncate(839),
                (1, true) => state.entries.push(0),
                (_, false) => state.words.truncate(99),
                (_, true) => state.words.push(0),
            }
            let before = state.clone();
            assert_eq!(raw::fresh_table(&mut state), Err(Refusal::Damaged));
            assert_eq!(state, before);
        }
    }
}
