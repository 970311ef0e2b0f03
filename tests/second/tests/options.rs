//! The packet option (02, Five): the bytes that are written, each refusal of both
//! calls, their order, both sides of each limit, and there and back; and the
//! mapping write at level 250.

mod common;

use common::*;
use second::plain::*;
use second::raw::{self, *};

/// 134, total length, DOI, 1, tag length, 0, level, and these bitmap bytes. Both
/// lengths are right, as far as a byte says them.
fn option(level: u8, bitmap: &[u8]) -> Vec<u8> {
    let total = 10 + bitmap.len();
    let (total, tag) = (total as u8, (total - 6) as u8);
    let mut bytes = vec![134, total, 0, 0, 0, 3, 1, tag, 0, level];
    bytes.extend_from_slice(bitmap);
    bytes
}

/// A table with these mapping writes.
fn mapped(writes: &[&str]) -> Table {
    let mut table = Table::fresh();
    for write in writes {
        assert_eq!(table.mapping(write.as_bytes()), Ok(()), "{write}");
    }
    table
}

/// What is written for the label. The rest of the output stays.
fn written(table: &Table, label: &[u8]) -> Vec<u8> {
    let mut output = [0xee; 50];
    let length = table.write_option(label, &mut output).unwrap();
    assert!(output[length..].iter().all(|&byte| byte == 0xee));
    output[..length].to_vec()
}

/// The number of the writer's refusal, with room and without. Each output stays,
/// and no place is told.
fn refused_write(table: &Table, label: &[u8]) -> u8 {
    let mut output = [0xee; 50];
    let refusal = table.write_option(label, &mut output).unwrap_err();
    assert_eq!(output, [0xee; 50]);
    assert_eq!(table.write_option(label, &mut []), Err(refusal));
    assert_eq!(refusal.place(), 0);
    refusal.number()
}

/// The number of the reader's refusal. No place is told.
fn refused_read(table: &Table, option: &[u8]) -> u8 {
    let refusal = table.read_option(option).unwrap_err();
    assert_eq!(refusal.place(), 0);
    refusal.number()
}

/// The label that is read.
fn peer(table: &Table, option: &[u8]) -> Vec<u8> {
    table.read_option(option).unwrap()
}

/// The bitmap with just these bits, this many bytes long.
fn bits(numbers: &[usize], length: usize) -> Vec<u8> {
    let mut bitmap = vec![0; length];
    for number in numbers {
        bitmap[number / 8] |= 128 >> (number % 8);
    }
    bitmap
}

// --- The bytes -------------------------------------------------------------------

#[test]
fn the_example_of_02() {
    let table = Table::fresh();
    let a = [134, 12, 0, 0, 0, 3, 1, 6, 0, 250, 32, 128];
    assert_eq!(written(&table, b"A"), a);
    assert_eq!(peer(&table, &a), b"A");
    // The reader stores nothing: nor is A stored for it.
    assert_eq!(table, Table::fresh());
}

#[test]
fn options_of_mappings() {
    let hands: [(&str, Vec<u8>); 12] = [
        ("9", vec![134, 10, 0, 0, 0, 3, 1, 4, 0, 9]),
        ("0", vec![134, 10, 0, 0, 0, 3, 1, 4, 0, 0]),
        ("255", vec![134, 10, 0, 0, 0, 3, 1, 4, 0, 255]),
        ("1 1", vec![134, 11, 0, 0, 0, 3, 1, 5, 0, 1, 64]),
        ("1 7", vec![134, 11, 0, 0, 0, 3, 1, 5, 0, 1, 1]),
        ("1 8", vec![134, 12, 0, 0, 0, 3, 1, 6, 0, 1, 0, 128]),
        ("1 15", vec![134, 12, 0, 0, 0, 3, 1, 6, 0, 1, 0, 1]),
        ("1 16", vec![134, 13, 0, 0, 0, 3, 1, 7, 0, 1, 0, 0, 128]),
        ("2 1 2 3 4 5 6 7 8 9", option(2, &[127, 192])),
        ("9 63 1", option(9, &[64, 0, 0, 0, 0, 0, 0, 1])),
        ("9 64 1", option(9, &[64, 0, 0, 0, 0, 0, 0, 0, 128])),
        ("7 184", option(7, &bits(&[184], 24))),
    ];
    for (mapping, bytes) in hands {
        let table = mapped(&[&format!("Map {mapping}")]);
        assert_eq!(written(&table, b"Map"), bytes, "{mapping}");
        assert_eq!(peer(&table, &bytes), b"Map", "{mapping}");
    }
    // The longest: 34 bytes.
    let last = option(7, &bits(&[184], 24));
    assert_eq!((last.len(), last[1], last[7]), (34, 34, 28));
    assert_eq!(last[33], 128);
}

#[test]
fn every_level_and_every_category() {
    for level in (0..=255).filter(|&level| level != 250) {
        let table = mapped(&[&format!("Map {level} 5")]);
        let bytes = option(level as u8, &[4]);
        assert_eq!(written(&table, b"Map"), bytes);
        assert_eq!(peer(&table, &bytes), b"Map");
    }
    for category in 1..=184 {
        let table = mapped(&[&format!("Map 9 {category}")]);
        let bytes = option(9, &bits(&[category], category / 8 + 1));
        assert_eq!(written(&table, b"Map"), bytes, "{category}");
        assert_eq!(peer(&table, &bytes), b"Map", "{category}");
    }
    let all: Vec<String> = (1..=184).map(|category| category.to_string()).collect();
    let table = mapped(&[&format!("Map 9 {}", all.join(" "))]);
    let mut bitmap = vec![255; 24];
    bitmap[0] = 127;
    bitmap[23] = 128;
    assert_eq!(written(&table, b"Map"), option(9, &bitmap));
    assert_eq!(peer(&table, &option(9, &bitmap)), b"Map");
}

#[test]
fn options_of_unmapped_labels() {
    let table = Table::fresh();
    // By hand: ! is 0010 0001, ~ is 0111 1110, @ is 0100 0000, B is 0100 0010.
    for (label, bitmap) in [
        ("!", &[16, 128][..]),
        ("~", &[63]),
        ("@", &[32]),
        ("AB", &[32, 161]),
        ("A@", &[32, 160]),
        ("@@@", &[32, 32, 32]),
    ] {
        let bytes = option(250, bitmap);
        assert_eq!(written(&table, label.as_bytes()), bytes, "{label}");
        assert_eq!(peer(&table, &bytes), label.as_bytes(), "{label}");
    }
    // A label that ends in a 1 bit wants a byte more: 24 for 23.
    assert_eq!(written(&table, &[b'L'; 23]).len(), 33);
    assert_eq!(written(&table, &[b'M'; 23]).len(), 34);
    assert_eq!(written(&table, &[b'M'; 23])[33], 128);
    assert_eq!(written(&table, b"L").len(), 11);
    assert_eq!(written(&table, b"M").len(), 12);
    // Each label byte, alone and at the end of 23.
    for byte in (0..=255).filter(|&byte| class_of(byte) == Class::Label && byte != b'-') {
        for length in [1, 2, 22, 23] {
            let mut label = vec![b'L'; length];
            label[length - 1] = byte;
            let bytes = written(&table, &label);
            assert_eq!(bytes[9], 250);
            assert_ne!(bytes.last(), Some(&0));
            assert_eq!(peer(&table, &bytes), label);
        }
    }
    // The five are unmapped like others; a dash may stand behind.
    for label in ["_", "^", "*", "?", "@", "a-", "a--b"] {
        let bytes = written(&table, label.as_bytes());
        assert_eq!(peer(&table, &bytes), label.as_bytes());
    }
}

// --- writer 3 19 12 --------------------------------------------------------------

#[test]
fn writer_3() {
    let table = mapped(&["A 9 1"]);
    for label in [
        "", "-", "-A", "A/", "\\", "A'B", "\"", " A", "A ", "A\n", "\0", "A\0", "A\u{7f}",
    ] {
        assert_eq!(refused_write(&table, label.as_bytes()), 3, "{label:?}");
    }
    // However long: never 1.
    for length in [256, 257, 600, 601, 1000, 1001, 70000] {
        assert_eq!(refused_write(&table, &vec![b'A'; length]), 3, "{length}");
    }
}

#[test]
fn writer_19() {
    let mut table = Table::fresh();
    for length in [1, 22, 23] {
        assert_eq!(
            peer(&table, &written(&table, &vec![b'L'; length])),
            vec![b'L'; length]
        );
    }
    for length in [24, 25, 46, 254, 255] {
        assert_eq!(refused_write(&table, &vec![b'L'; length]), 19, "{length}");
    }
    // A stored label that has no mapping is unmapped too.
    let long = vec![b'L'; 24];
    table.override_write(&long).unwrap();
    assert_eq!(refused_write(&table, &long), 19);
    // Mapped, a label of any length uses its mapping.
    for length in [1, 23, 24, 255] {
        let label = "L".repeat(length);
        table.mapping(format!("{label} 9 1").as_bytes()).unwrap();
        assert_eq!(written(&table, label.as_bytes()), option(9, &[64]));
    }
    // One that shares its beginning is another label.
    assert_eq!(refused_write(&table, &[b'L'; 25]), 19);
}

#[test]
fn writer_12() {
    let table = mapped(&["Map 9 8", "None 9"]);
    for (label, exact) in [(&b"Map"[..], 12), (b"None", 10), (b"A", 12), (b"~", 11)] {
        let bytes = written(&table, label);
        assert_eq!(bytes.len(), exact);
        for length in 0..exact {
            let mut output = vec![0xee; length];
            let short = Err(Refusal::OutputTooShort);
            assert_eq!(table.write_option(label, &mut output), short);
            assert_eq!(output, vec![0xee; length]);
        }
        for length in [exact, exact + 1, 34, 40] {
            let mut output = vec![0xee; length];
            assert_eq!(table.write_option(label, &mut output), Ok(exact));
            assert_eq!(output[..exact], bytes);
            assert!(output[exact..].iter().all(|&byte| byte == 0xee));
        }
    }
    let longest = [b'M'; 23];
    assert_eq!(table.write_option(&longest, &mut [0; 34]), Ok(34));
    let short = Err(Refusal::OutputTooShort);
    assert_eq!(table.write_option(&longest, &mut [0; 33]), short);
}

#[test]
fn writer_neighbours() {
    let table = mapped(&["A 9 1"]);
    // 3 before 19: over 23 bytes and no label. `refused_write` lends no byte too, so
    // 3 and 19 come before 12.
    assert_eq!(refused_write(&table, &[b'/'; 24]), 3);
    assert_eq!(refused_write(&table, &[b'L'; 256]), 3);
    assert_eq!(refused_write(&table, b"-"), 3);
    assert_eq!(refused_write(&table, &[b'L'; 24]), 19);
    assert_eq!(
        table.write_option(b"A", &mut []),
        Err(Refusal::OutputTooShort)
    );
}

// --- reader 16 17 18 3 21 --------------------------------------------------------

#[test]
fn reader_16() {
    let table = mapped(&["Map 9 1", "None 0"]);
    let good = option(9, &[64]);
    assert_eq!(peer(&table, &good), b"Map");
    // Cut or longer, whatever lengths it says.
    for length in 0..good.len() {
        assert_eq!(refused_read(&table, &good[..length]), 16, "{length}");
    }
    for total in 0..10 {
        let mut short = good[..total].to_vec();
        if total > 1 {
            short[1] = total as u8;
        }
        if total > 7 {
            short[7] = total as u8 - 6;
        }
        assert_eq!(refused_read(&table, &short), 16, "{total}");
    }
    assert_eq!(peer(&table, &option(0, &[])), b"None");
    // Each byte that says something of the layout, with each other value.
    for at in [0, 1, 6, 7, 8] {
        for byte in (0..=255).filter(|&byte| byte != good[at]) {
            let mut wrong = good.clone();
            wrong[at] = byte;
            assert_eq!(refused_read(&table, &wrong), 16, "{at} {byte}");
        }
    }
    // Padding is no part of an option; nor is there a second tag.
    for more in [&[0][..], &[0, 0], &[1], &[1, 4, 0, 9], &good] {
        let mut longer = [&good[..], more].concat();
        assert_eq!(refused_read(&table, &longer), 16);
        longer[1] = longer.len() as u8;
        assert_eq!(refused_read(&table, &longer), 16);
        longer[1] = good[1];
        longer[7] = longer.len() as u8 - 6;
        assert_eq!(refused_read(&table, &longer), 16);
    }
}

#[test]
fn trailing_zero_bytes() {
    let table = mapped(&["Map 9 1", "None 9", "High 9 184"]);
    for length in 0..=250 {
        let none = option(9, &bits(&[], length));
        match length {
            0..=30 => assert_eq!(peer(&table, &none), b"None", "{length}"),
            _ => assert_eq!(refused_read(&table, &none), 16, "{length}"),
        }
        if length >= 1 {
            let one = option(9, &bits(&[1], length));
            match length {
                1..=30 => assert_eq!(peer(&table, &one), b"Map", "{length}"),
                _ => assert_eq!(refused_read(&table, &one), 16, "{length}"),
            }
        }
        if length >= 24 {
            let high = option(9, &bits(&[184], length));
            match length {
                24..=30 => assert_eq!(peer(&table, &high), b"High", "{length}"),
                _ => assert_eq!(refused_read(&table, &high), 16, "{length}"),
            }
        }
        if length >= 2 {
            let own = option(250, &bits(&[2, 8], length));
            match length {
                2..=30 => assert_eq!(peer(&table, &own), b"A", "{length}"),
                _ => assert_eq!(refused_read(&table, &own), 16, "{length}"),
            }
        }
    }
    // 40 bytes in all are taken, 41 are not; over 255 no length fits.
    assert_eq!(option(9, &[0; 30]).len(), 40);
    let mut long = option(9, &[0; 246]);
    for total in [0, 255] {
        long[1] = total;
        assert_eq!(refused_read(&table, &long), 16);
    }
}

#[test]
fn reader_17() {
    let table = mapped(&["Map 9 1"]);
    let good = option(9, &[64]);
    for at in 2..6 {
        for byte in (0..=255).filter(|&byte| byte != good[at]) {
            let mut other = good.clone();
            other[at] = byte;
            assert_eq!(refused_read(&table, &other), 17, "{at} {byte}");
        }
    }
    let mut turned = good.clone();
    turned[2..6].copy_from_slice(&[3, 0, 0, 0]);
    assert_eq!(refused_read(&table, &turned), 17);
}

#[test]
fn reader_18() {
    let table = mapped(&["Map 9 1 184", "None 9"]);
    assert_eq!(peer(&table, &option(9, &bits(&[1, 184], 24))), b"Map");
    for level in [0, 9, 249, 250, 251, 255] {
        for length in 1..=30 {
            for number in 0..8 * length {
                let bytes = option(level, &bits(&[number], length));
                let is_category = (1..=184).contains(&number);
                let is_18 = table.read_option(&bytes) == Err(Refusal::BadOptionCategory);
                assert_eq!(is_18, !is_category, "{level} {length} {number}");
            }
        }
    }
    // Beside categories that are right too.
    assert_eq!(
        refused_read(&table, &option(9, &bits(&[0, 1, 184], 24))),
        18
    );
    for number in 185..240 {
        let bitmap = bits(&[1, 184, number], 30);
        assert_eq!(refused_read(&table, &option(9, &bitmap)), 18);
    }
}

#[test]
fn reader_3() {
    let table = mapped(&["Map 9 1"]);
    // What the bytes of a label say at level 250.
    let own = |bytes: &[u8]| {
        let mut numbers = Vec::new();
        for (i, byte) in bytes.iter().enumerate() {
            for j in 0..8 {
                if byte & (128 >> j) != 0 {
                    numbers.push(8 * i + j + 1);
                }
            }
        }
        option(250, &bits(&numbers, 24))
    };
    assert_eq!(peer(&table, &own(b"A")), b"A");
    assert_eq!(peer(&table, &own(&[b'L'; 23])), [b'L'; 23]);
    // No byte at all, with and without a bitmap.
    assert_eq!(refused_read(&table, &own(b"")), 3);
    assert_eq!(refused_read(&table, &option(250, &[])), 3);
    // An inner zero byte, wherever: the label is not cut there.
    for at in 0..22 {
        let mut bytes = [b'L'; 23];
        bytes[at] = 0;
        assert_eq!(refused_read(&table, &own(&bytes)), 3, "{at}");
    }
    assert_eq!(refused_read(&table, &own(b"\0A")), 3);
    assert_eq!(refused_read(&table, &own(b"A\0A")), 3);
    assert_eq!(refused_read(&table, &own(b"A\0\0\0A")), 3);
    // Zero bytes at the end are dropped.
    for length in 1..23 {
        let mut bytes = [0; 23];
        bytes[..length].fill(b'L');
        assert_eq!(peer(&table, &own(&bytes)), &bytes[..length]);
    }
    // Every byte, first, inside and last.
    for byte in 1..=255 {
        let is_label_byte = class_of(byte) == Class::Label;
        for (bytes, is_label) in [
            ([byte, b'A', b'A'], is_label_byte && byte != b'-'),
            ([b'A', byte, b'A'], is_label_byte),
            ([b'A', b'A', byte], is_label_byte),
        ] {
            match is_label {
                true => assert_eq!(peer(&table, &own(&bytes)), bytes),
                false => assert_eq!(refused_read(&table, &own(&bytes)), 3, "{bytes:?}"),
            }
        }
    }
    assert_eq!(refused_read(&table, &own(b"-")), 3);
    assert_eq!(refused_read(&table, &own(b"-A")), 3);
}

#[test]
fn reader_21() {
    let table = mapped(&["Map 9 1 100"]);
    assert_eq!(peer(&table, &option(9, &bits(&[1, 100], 13))), b"Map");
    // Another level, another set: none of them 3.
    assert_eq!(refused_read(&table, &option(8, &bits(&[1, 100], 13))), 21);
    assert_eq!(refused_read(&table, &option(9, &bits(&[1], 13))), 21);
    assert_eq!(refused_read(&table, &option(9, &bits(&[2, 100], 13))), 21);
    assert_eq!(
        refused_read(&table, &option(9, &bits(&[1, 100, 184], 24))),
        21
    );
    assert_eq!(refused_read(&table, &option(9, &[])), 21);
    assert_eq!(refused_read(&table, &option(0, &[])), 21);
    // A's bits at the levels beside 250.
    for level in [249, 251] {
        assert_eq!(refused_read(&table, &option(level, &[32, 128])), 21);
    }
    // Nothing is mapped at all.
    assert_eq!(refused_read(&Table::fresh(), &option(9, &[64])), 21);
}

#[test]
fn reader_neighbours() {
    let table = mapped(&["Map 9 1"]);
    let with = |mut bytes: Vec<u8>, at: usize, byte: u8| {
        bytes[at] = byte;
        bytes
    };
    // 16 before 17, by each of its reasons.
    let other = with(option(9, &[64]), 5, 4);
    assert_eq!(refused_read(&table, &other), 17);
    for at in [0, 1, 6, 7, 8] {
        let wrong = other[at] ^ 2;
        assert_eq!(refused_read(&table, &with(other.clone(), at, wrong)), 16);
    }
    assert_eq!(refused_read(&table, &with(option(9, &[0; 31]), 5, 4)), 16);
    assert_eq!(refused_read(&table, &with(option(9, &[0; 30]), 5, 4)), 17);
    assert_eq!(refused_read(&table, &other[..9]), 16);
    // 16 before 18, 3 and 21
    assert_eq!(refused_read(&table, &option(9, &[128; 31])), 16);
    assert_eq!(refused_read(&table, &with(option(250, &[]), 8, 1)), 16);
    assert_eq!(refused_read(&table, &with(option(9, &[]), 8, 1)), 16);
    // 17 before 18, 3 and 21
    assert_eq!(refused_read(&table, &with(option(9, &[128]), 2, 1)), 17);
    assert_eq!(refused_read(&table, &with(option(250, &[]), 3, 1)), 17);
    assert_eq!(refused_read(&table, &with(option(9, &[]), 4, 1)), 17);
    // 18 before 3 and 21
    assert_eq!(refused_read(&table, &option(250, &[128])), 18);
    assert_eq!(refused_read(&table, &option(250, &bits(&[185], 24))), 18);
    assert_eq!(refused_read(&table, &option(9, &[128])), 18);
    assert_eq!(refused_read(&table, &option(9, &bits(&[239], 30))), 18);
    // 3 and never 21 at level 250, 21 and never 3 at each other.
    for level in 0..=255 {
        let number = if level == 250 { 3 } else { 21 };
        assert_eq!(refused_read(&table, &option(level, &[])), number);
        assert_eq!(refused_read(&table, &option(level, &[0, 1])), number);
    }
}

// --- There and back --------------------------------------------------------------

#[test]
fn reading_what_was_written() {
    let mut table = mapped(&[
        "Vault7 9 1 63",
        "Air 9 1 63",
        "Door 9 1",
        "@ 9 63",
        "_ 9 1",
        "Desk 249 2 8",
        "Probe3 251 2 8",
        "Empty 0",
    ]);
    let long = "L".repeat(255);
    table.mapping(format!("{long} 100 184").as_bytes()).unwrap();
    table.override_write(b"A Stored").unwrap();
    for (label, back) in [
        ("Vault7", "Vault7"),
        // A lower-numbered label has the same mapping.
        ("Air", "Vault7"),
        ("Door", "_"),
        ("_", "_"),
        ("@", "@"),
        ("Desk", "Desk"),
        ("Probe3", "Probe3"),
        ("Empty", "Empty"),
        (&long, &long),
        // Unmapped: stored or not.
        ("A", "A"),
        ("Stored", "Stored"),
        ("New", "New"),
        ("^", "^"),
        ("Exactly23BytesLongLabel", "Exactly23BytesLongLabel"),
    ] {
        let bytes = written(&table, label.as_bytes());
        assert_eq!(peer(&table, &bytes), back.as_bytes(), "{label}");
    }
    // A mapping that changes: the option written before is another's, or nobody's.
    let before = written(&table, b"Vault7");
    table.mapping(b"Vault7 9 2").unwrap();
    assert_eq!(peer(&table, &before), b"Air");
    table.mapping(b"Air 9 2").unwrap();
    assert_eq!(refused_read(&table, &before), 21);
    // A label that gets a mapping is still read by its own bits.
    let before = written(&table, b"A");
    table.mapping(b"A 9 5").unwrap();
    assert_eq!(written(&table, b"A"), option(9, &[4]));
    assert_eq!(peer(&table, &before), b"A");
}

#[test]
fn every_label_of_a_full_table() {
    let mut table = Table::fresh();
    fill_labels(&mut table, 64);
    for k in 0..32 {
        let label = String::from_utf8(table.labels[k].clone()).unwrap();
        let category = 1 + 5 * k;
        let write = format!("{label} {} {category} 184", 240 + k % 10);
        table.mapping(write.as_bytes()).unwrap();
    }
    for label in table.labels.clone() {
        let bytes = written(&table, &label);
        assert_eq!(peer(&table, &bytes), label);
    }
}

// --- The mapping write at level 250 ----------------------------------------------

fn refused_mapping(table: &Table, write: &[u8]) -> u8 {
    let mut copy = table.clone();
    let refusal = copy.mapping(write).unwrap_err();
    assert_eq!(&copy, table);
    refusal.number()
}

#[test]
fn a_mapping_write_at_level_250() {
    let fresh = Table::fresh();
    for write in ["V 250", "V 250 1", " V\t250 ", "V 250 184 1", "_ 250"] {
        assert_eq!(refused_mapping(&fresh, write.as_bytes()), 9, "{write}");
    }
    for level in ["249", "251", "25", "025", "0", "255"] {
        mapped(&[&format!("V {level}")]);
    }
    // Four digits are no level anyhow.
    assert_eq!(refused_mapping(&fresh, b"V 0250"), 9);
    // As a category it is none.
    assert_eq!(refused_mapping(&fresh, b"V 9 250"), 9);
    // The former mapping stays.
    let table = mapped(&["V 9 1"]);
    assert_eq!(refused_mapping(&table, b"V 250 2"), 9);
    assert_eq!(written(&table, b"V"), option(9, &[64]));
}

#[test]
fn the_place_of_9_in_a_mapping_write() {
    let fresh = Table::fresh();
    // 1 2 3 before 9
    let mut long = b"V 250".to_vec();
    long.resize(1001, b' ');
    assert_eq!(refused_mapping(&fresh, &long), 1);
    long.resize(1000, b' ');
    assert_eq!(refused_mapping(&fresh, &long), 9);
    assert_eq!(refused_mapping(&fresh, b"250"), 2);
    assert_eq!(refused_mapping(&fresh, b"V/ 250"), 3);
    // 9 before 6 and 10
    let mut table = Table::fresh();
    fill_labels(&mut table, 64);
    assert_eq!(refused_mapping(&table, b"New 250"), 9);
    assert_eq!(refused_mapping(&table, b"New 249"), 6);
    fill_mappings(&mut table, 32);
    assert_eq!(refused_mapping(&table, b"N40 250"), 9);
    assert_eq!(refused_mapping(&table, b"N40 249"), 10);
}

#[test]
fn look_ups_at_level_250_are_not_refused() {
    let table = mapped(&["V 9 1"]);
    assert_eq!(table.by_level(250, &[0; 3]), Ok(None));
    let record = Record {
        label: 7,
        level: 250,
        set: [1, 0, 0],
    };
    assert_eq!(search_run(&[record], 250, &[1, 0, 0]), Ok(Some(7)));
}

// --- Lent memory -----------------------------------------------------------------

/// Labels 5 to 8 are A B C D; A and B are mapped alike, C with another set.
fn some_state() -> RawState {
    let mut state = RawState::fresh();
    raw::override_write(&mut state, b"A B C D").unwrap();
    raw::mapping(&mut state, b"B 9 1").unwrap();
    raw::mapping(&mut state, b"A 9 1").unwrap();
    raw::mapping(&mut state, b"C 9 2").unwrap();
    state
}

#[test]
fn a_stored_mapping_at_level_250() {
    let mut state = some_state();
    // C's, with the bits of the label AB.
    state.entries[LEVELS + 2] = 250;
    for (row, word) in SETS.iter().zip(words_of(&own_bits(b"AB"))) {
        state.words[row + 2] = word;
    }
    assert!(!raw_is_damaged(&state));
    let mut output = [0; 40];
    // Written as any mapping, and read as a label's bits.
    assert_eq!(raw::write_option(&state, b"C", &mut output), Ok(12));
    assert_eq!(output[..12], option(250, &[32, 161]));
    assert_eq!(raw::read_option(&state, &output[..12]), Ok(b"AB".to_vec()));
    // The look-up goes by the mapping.
    let set = words_of(&own_bits(b"AB"));
    assert_eq!(raw::by_level(&state, 250, &set), Ok(Some(7)));
    // Its bits need not be a label's.
    state.words[SETS[0] + 2] = 1 << 63;
    assert_eq!(raw::write_option(&state, b"C", &mut output), Ok(11));
    assert_eq!(output[..11], option(250, &[64]));
    let bad = Err(Refusal::BadLabel { place: 0 });
    assert_eq!(raw::read_option(&state, &output[..11]), bad);
}

#[test]
fn labels_and_mappings_stored_twice() {
    let mut state = some_state();
    // The lowest number, not the first mapping.
    assert_eq!(
        raw::read_option(&state, &option(9, &[64])),
        Ok(b"A".to_vec())
    );
    // D becomes a second C, with a mapping of its own, which does not count.
    state.label_store[8 * PLACE + 1] = b'C';
    state.words[MAPPING_COUNT] = 4;
    state.entries[MAPPING_LABELS + 3] = 8;
    state.entries[LEVELS + 3] = 7;
    let mut output = [0; 40];
    assert_eq!(raw::write_option(&state, b"C", &mut output), Ok(11));
    assert_eq!(output[..11], option(9, &[32]));
    let none = Err(Refusal::NoMappingMatches);
    assert_eq!(raw::read_option(&state, &option(7, &[])), none);
    // C is mapped twice: the first counts.
    state.entries[MAPPING_LABELS + 3] = 7;
    assert_eq!(raw::read_option(&state, &option(7, &[])), none);
    state.entries[MAPPING_LABELS + 2] = 6;
    assert_eq!(raw::read_option(&state, &option(7, &[])), Ok(b"C".to_vec()));
    // Where the mapping is only the second C's, C is unmapped.
    state.entries[MAPPING_LABELS + 3] = 8;
    assert_eq!(raw::write_option(&state, b"C", &mut output), Ok(12));
    assert_eq!(output[9], 250);
}

#[test]
fn a_stored_label_is_answered_as_it_is() {
    let mut state = some_state();
    let sought = option(9, &[32]);
    for bytes in [&b"-"[..], b"\0", b"A/", b"C\0\0", b"", &[255; 255]] {
        let place = 7 * PLACE;
        state.label_store[place] = bytes.len() as u8;
        state.label_store[place + 1..place + 1 + bytes.len()].copy_from_slice(bytes);
        assert!(!raw_is_damaged(&state));
        assert_eq!(raw::read_option(&state, &sought), Ok(bytes.to_vec()));
    }
    // The writer judges the lent label, so none of these is mapped for it.
    let bad = Err(Refusal::BadLabel { place: 0 });
    assert_eq!(raw::write_option(&state, &[255; 255], &mut []), bad);
    let mut output = [0; 40];
    assert_eq!(raw::write_option(&state, b"C", &mut output), Ok(12));
    assert_eq!(output[9], 250);
}

#[test]
fn zero_comes_first() {
    let mut state = some_state();
    state.words[LABEL_COUNT] = 65;
    let before = state.clone();
    let mut output = [0xee; 40];
    for label in [&b"A"[..], b"", b"-", &[b'L'; 24], &[b'L'; 256]] {
        for length in [0, 40] {
            let answer = raw::write_option(&state, label, &mut output[..length]);
            assert_eq!(answer, Err(Refusal::Damaged));
        }
    }
    assert_eq!(output, [0xee; 40]);
    for bytes in [
        option(9, &[64]),
        option(250, &[32, 128]),
        option(250, &[]),
        option(9, &[]),
        option(9, &[128]),
        option(9, &[0; 31]),
        vec![],
    ] {
        assert_eq!(raw::read_option(&state, &bytes), Err(Refusal::Damaged));
    }
    assert_eq!(state, before);
}
