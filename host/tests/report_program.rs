//! The report program: what it prints for records on its standard input, against the naive report. The command is what the environment
//! variable NAHOKIPE_REPORT says.

use nahokipe_testing::making::{damaged_edition_2, largest_edition_2, random_edition_2};
use nahokipe_testing::making::{damaged_record, largest_record, random_record};
use nahokipe_testing::naive_report::printed;
use nahokipe_testing::seeded::Seeded;
use std::io::{ErrorKind, Write};
use std::process::{Child, ChildStdin, Command, Stdio};
use std::thread::sleep;
use std::time::Duration;

const BRIDGE: [u8; 12] = [5, 5, 1, 2, 3, 4, 5, 4, 0x09, 0x0E, 0x12, 0x15];

// ---- running the program

fn begun() -> Child {
    let command = std::env::var_os("NAHOKIPE_REPORT").expect("NAHOKIPE_REPORT names the program");
    Command::new(command)
        .stdin(Stdio::piped())
        .stdout(Stdio::piped())
        .spawn()
        .expect("the program runs")
}

/// What the program prints for an input that comes in these pieces.
fn printed_for(pieces: &[&[u8]]) -> String {
    let mut program = begun();
    let mut input = program.stdin.take().expect("a pipe");
    for (index, piece) in pieces.iter().enumerate() {
        if index > 0 {
            sleep(Duration::from_millis(1));
        }
        if !is_sent(&mut input, piece) {
            break;
        }
    }
    drop(input);
    let output = program.wait_with_output().expect("the program ends");
    String::from_utf8(output.stdout).expect("a text")
}

/// Sends a piece at once. The program need not read more than it looks at, so its end of the pipe may be closed.
fn is_sent(input: &mut ChildStdin, piece: &[u8]) -> bool {
    match input.write_all(piece).and_then(|()| input.flush()) {
        Ok(()) => true,
        Err(error) if error.kind() == ErrorKind::BrokenPipe => false,
        Err(error) => panic!("{error}"),
    }
}

/// The input whole, and in pieces of any length.
fn compare(seeded: &mut Seeded, bytes: &[u8]) {
    let expected = printed(bytes);
    assert_eq!(printed_for(&[bytes]), expected, "{} bytes", bytes.len());
    let cut = pieces(seeded, bytes);
    assert_eq!(printed_for(&cut), expected, "{} pieces", cut.len());
}

/// The bytes in up to thirty pieces, some of them a single byte.
fn pieces<'a>(seeded: &mut Seeded, bytes: &'a [u8]) -> Vec<&'a [u8]> {
    let most = bytes.len() / 15 + 1;
    let (mut pieces, mut rest) = (Vec::new(), bytes);
    while !rest.is_empty() {
        let length = seeded.pick(&[1, most, most]);
        let length = seeded.between(1, length).min(rest.len());
        let (piece, behind) = rest.split_at(length);
        pieces.push(piece);
        rest = behind;
    }
    pieces
}

// ---- inputs

#[test]
fn random_records() {
    let mut seeded = Seeded::new(180);
    for n in 1..=16 {
        for _ in 0..8 {
            let bytes = random_record(&mut seeded, n);
            compare(&mut seeded, &bytes);
        }
    }
}

#[test]
fn damaged_records() {
    let mut seeded = Seeded::new(181);
    for n in 1..=16 {
        for _ in 0..10 {
            let bytes = damaged_record(&mut seeded, n);
            compare(&mut seeded, &bytes);
        }
    }
}

/// Records of edition 2, accepted and damaged, and the two bytes in front of them with others behind.
#[test]
fn records_of_edition_2() {
    let mut seeded = Seeded::new(185);
    for n in 1..=16 {
        for _ in 0..4 {
            let bytes = random_edition_2(&mut seeded, n);
            compare(&mut seeded, &bytes);
            let bytes = damaged_edition_2(&mut seeded, n);
            compare(&mut seeded, &bytes);
        }
    }
    for bytes in [&[0][..], &[0, 1], &[0, 2], &[0, 2, 0x11], &[0, 0x82, 0]] {
        compare(&mut seeded, bytes);
    }
}

#[test]
fn every_truncation_of_the_bridge() {
    let mut seeded = Seeded::new(182);
    for length in 0..=BRIDGE.len() {
        compare(&mut seeded, &BRIDGE[..length]);
    }
}

/// The bridge a byte at a time.
#[test]
fn one_byte_a_piece() {
    let pieces: Vec<&[u8]> = BRIDGE.chunks(1).collect();
    assert_eq!(printed_for(&pieces), printed(&BRIDGE));
}

/// The largest record, cut off, alone and with bytes behind it, up to and past 40,000 bytes.
#[test]
fn the_largest_record() {
    let mut seeded = Seeded::new(183);
    let bytes = largest_record();
    for length in [8_192, 32_768, 35_728, 35_729] {
        compare(&mut seeded, &bytes[..length]);
    }
    for length in [35_730, 39_999, 40_000, 40_001, 65_536, 200_000] {
        let longer = [bytes.as_slice(), &vec![1; length - bytes.len()]].concat();
        compare(&mut seeded, &longer);
    }
}

/// The same of edition 2, which 40,000 bytes decide too.
#[test]
fn the_largest_record_of_edition_2() {
    let mut seeded = Seeded::new(186);
    let bytes = largest_edition_2();
    for length in [2, 35_731, 35_732, 36_202, 36_203] {
        compare(&mut seeded, &bytes[..length]);
    }
    for length in [36_204, 39_999, 40_000, 40_001, 200_000] {
        let longer = [bytes.as_slice(), &vec![1; length - bytes.len()]].concat();
        compare(&mut seeded, &longer);
    }
}

/// Inputs that are too long for any record are refused where the first bytes say.
#[test]
fn long_inputs() {
    let mut seeded = Seeded::new(184);
    let longer = [&BRIDGE[..], &vec![0; 70_000]].concat();
    assert_eq!(printed_for(&[&longer]), "refused 25 12\n");
    compare(&mut seeded, &longer);
    for byte in [0x00, 0x01, 0x10, 0x80, 0xFF] {
        compare(&mut seeded, &vec![byte; 100_000]);
    }
}

/// Document 01's report.
#[test]
fn the_bridge() {
    let expected = "parts 5 sets 4 mark 5\n\
        order 1 0\norder 2 24\norder 3 72\norder 4 24\norder 5 0\n\
        dom 1 0\ndom 2 2\ndom 3 2\ndom 4 -5\ndom 5 2\n\
        part 1 28\npart 2 28\npart 3 8\npart 4 28\npart 5 28\n";
    assert_eq!(printed_for(&[&BRIDGE]), expected);
    assert_eq!(printed_for(&[]), "refused 21 0\n");
}
