//! The printing program's output, from the library and from `model-replay`.

use crate::common::header_over_the_limit;
use kit::{c, load, read, rs, save, tick, vertical, write};
use kit::{chip_of_round, highest_kind, log_bytes, not_built, Random, NOT_BUILT};
use kit::{LOG_HEADER_BYTES, MOST_EVENTS, MOST_LOG_BYTES};
use model::{printed, Event};
use std::collections::BTreeMap;
use std::io::Write;
use std::process::{Command, Stdio};

fn printed_by_program(input: &[u8]) -> String {
    let mut child = Command::new(env!("CARGO_BIN_EXE_model-replay"))
        .stdin(Stdio::piped())
        .stdout(Stdio::piped())
        .spawn()
        .unwrap();
    child.stdin.take().unwrap().write_all(input).unwrap();
    let output = child.wait_with_output().unwrap();
    assert!(output.status.success());
    String::from_utf8(output.stdout).unwrap()
}

#[test]
fn the_example_of_document_01() {
    let input = [
        0x02, 0x02, 0x00, 0x00, 0x00, 0x00, 0x01, 0x00, 0x05, 0x00, 0x00, 0x00, 0x00, 0x00, 0x00,
        0x00, 0x00, 0x00, 0x00, 0x00, 0x00, 0x00, 0x00,
    ];
    let expected = concat!(
        "000000000000000000000000000000000000\n",
        "000500000000000000000000000000000000\n",
        "020100000305\n"
    );
    assert_eq!(printed(&input), expected);
    assert_eq!(printed_by_program(&input), expected);
}

#[test]
fn digits_are_lowercase_and_every_line_ends_with_a_line_feed() {
    // Chip 1, address FFh, palette ABh CDh EFh, read mask at 04h, command
    // C0h, a tick of five pixels FFh.
    let events = [
        write(0, 0xFF),
        write(1, 0xAB),
        write(1, 0xCD),
        write(1, 0xEF),
        write(0, 4),
        write(2, 0xFF),
        write(0, 6),
        write(2, 0xC0),
        tick([0xFF, 0xFF, 0xFF, 0xFF, 0xFF, 0, 0, 3]),
    ];
    // The triple's last write paints entry 255, the control writes 260 and 262.
    let quiet = "000000000000000000000000000000000000\n";
    let mut expected = quiet.repeat(3);
    expected += "0001ff000000000000000000000000000000\n";
    expected += quiet;
    expected += "000104010000000000000000000000000000\n";
    expected += quiet;
    expected += "000106010000000000000000000000000000\n";
    expected += "000503abcdefabcdefabcdefabcdefabcdef\n";
    // Places 765 to 767, 780 (06h), 782, 783, 784, 786, the last pixel's 789 to
    // 791, and their values.
    expected += "010b00";
    expected += "fd02fe02ff020c030e030f0310031203150316031703";
    expected += "abcdef06abcdffc0abcdef\n";
    assert_eq!(printed(&log_bytes(1, &events)), expected);
}

#[test]
fn an_empty_log_prints_a_fresh_chip() {
    assert_eq!(printed(&[1, 0, 0, 0, 0]), "010000\n");
    assert_eq!(printed(&[2, 0, 0, 0, 0]), "020000\n");
    assert_eq!(printed(&[3, 0, 0, 0, 0]), "030000\n");
    assert_eq!(printed_by_program(&[1, 0, 0, 0, 0]), "010000\n");
}

#[test]
fn a_refused_log_prints_its_number_alone() {
    let mut bad_kind = log_bytes(1, &[vertical()]);
    bad_kind[5] = highest_kind(1) + 1;
    let mut bad_operand = log_bytes(2, &[save()]);
    bad_operand[6] = 1;
    let mut long = log_bytes(1, &[vertical()]);
    long.push(0);
    let cases = [
        (vec![], "refused 10\n"),
        (vec![1, 0, 0, 0], "refused 10\n"),
        (vec![0, 0, 0, 0, 0], "refused 11\n"),
        (vec![NOT_BUILT, 0, 0, 0, 0], "refused 11\n"),
        (header_over_the_limit(2), "refused 12\n"),
        (vec![2, 1, 0, 0, 0], "refused 13\n"),
        (long, "refused 13\n"),
        (bad_kind, "refused 14\n"),
        (bad_operand, "refused 15\n"),
    ];
    for (input, expected) in cases {
        assert_eq!(printed(&input), expected);
        assert_eq!(printed_by_program(&input), expected);
    }
}

#[test]
fn a_log_of_a_chip_that_is_not_built_prints_11() {
    for chip in not_built() {
        assert_eq!(printed(&[chip, 0, 0, 0, 0]), "refused 11\n");
        assert_eq!(printed(&log_bytes(chip, &[read(0)])), "refused 11\n");
    }
}

#[test]
fn painting_writes_print_what_they_painted() {
    // Address 2, overlay 2's triple, then the blink mask at 05h, then the test
    // register at 07h, which isn't painting.
    let chip_1 = [
        write(0, 2),
        write(3, 1),
        write(3, 2),
        write(3, 3),
        write(0, 5),
        write(2, 0xFF),
        write(0, 7),
        write(2, 0xFF),
    ];
    let expected = concat!(
        "000000000000000000000000000000000000\n",
        "000000000000000000000000000000000000\n",
        "000000000000000000000000000000000000\n",
        "000102010000000000000000000000000000\n",
        "000000000000000000000000000000000000\n",
        "000105010000000000000000000000000000\n",
        "000000000000000000000000000000000000\n",
        "000000000000000000000000000000000000\n",
        // Places 774 to 776, 780, 782, 783, 785 and 787.
        "010800",
        "060307030803",
        "0c03",
        "0e030f03",
        "11031303",
        "010203070102ffff\n"
    );
    assert_eq!(printed(&log_bytes(1, &chip_1)), expected);
    assert_eq!(printed_by_program(&log_bytes(1, &chip_1)), expected);

    // Entry FEh's triple, then the mask, then the mask again.
    let chip_2 = [
        write(0, 0xFE),
        write(1, 1),
        write(1, 2),
        write(1, 3),
        write(2, 0x0F),
        write(2, 0x0F),
    ];
    let expected = concat!(
        "000000000000000000000000000000000000\n",
        "000000000000000000000000000000000000\n",
        "000000000000000000000000000000000000\n",
        "0001fe000000000000000000000000000000\n",
        "000104010000000000000000000000000000\n",
        "000104010000000000000000000000000000\n",
        // Places 762 to 764, 768, 771, 772 and 773.
        "020700",
        "fa02fb02fc02",
        "0003",
        "030304030503",
        "010203ff01020f\n"
    );
    assert_eq!(printed(&log_bytes(2, &chip_2)), expected);
    assert_eq!(printed_by_program(&log_bytes(2, &chip_2)), expected);
}

#[test]
fn refusals_in_answers_are_printed_as_answers() {
    let log = log_bytes(2, &[vertical(), read(1), read(255)]);
    assert_eq!(
        printed(&log),
        concat!(
            "050000000000000000000000000000000000\n",
            "030000000000000000000000000000000000\n",
            "010000000000000000000000000000000000\n",
            "020000\n"
        )
    );
}

#[test]
fn a_log_of_chip_3_prints_its_loads_and_pixels() {
    // Register 0: 10, 11, 12 with EXT. Register 1: 1, 2, 3 with REP. Pixels 1
    // and 0, then 1 and 1, then blanked; a write, a vertical period and a load
    // that are refused.
    let log = log_bytes(
        3,
        &[
            load(10, 1),
            load(11, 12),
            load(1, 2),
            load(2, 3),
            tick([1, 0, 0, 0, 0, 0, 0, 1]),
            tick([1, 1, 0, 0, 0, 0, 0, 1]),
            tick([0, 0, 0, 0, 0, 0, 0, 0]),
            write(0, 0),
            vertical(),
            load(0, 16),
        ],
    );
    let expected = concat!(
        "000000000000000000000000000000000000\n",
        "000000000000000000000000000000000000\n",
        "000000000000000000000000000000000000\n",
        "000000000000000000000000000000000000\n",
        "0002050000000a0b0c000000000000000000\n",
        "0002010a0b0c0a0b0c000000000000000000\n",
        "000200000000000000000000000000000000\n",
        "050000000000000000000000000000000000\n",
        "050000000000000000000000000000000000\n",
        "040000000000000000000000000000000000\n",
        // Places 0 to 3, 5 to 7, 9, 80, 81 and 82.
        "030b00",
        "00000100020003000500060007000900500051005200",
        "0a0b0c0101020301040102\n"
    );
    assert_eq!(printed(&log), expected);
    assert_eq!(printed_by_program(&log), expected);
}

#[test]
fn a_load_on_chips_1_and_2_prints_5_and_kind_6_prints_14() {
    for (chip, end) in [(1, "010000\n"), (2, "020000\n")] {
        let answer = "050000000000000000000000000000000000\n";
        let text = printed(&log_bytes(chip, &[load(1, 2)]));
        assert_eq!(text, [answer, end].concat());
    }
    for chip in [1, 2, 3] {
        let mut log = log_bytes(chip, &[load(1, 2)]);
        log[5] = 6;
        assert_eq!(printed(&log), "refused 14\n");
        log[5] = 5;
        log[8] = 1;
        assert_eq!(printed(&log), "refused 15\n");
    }
}

#[test]
fn the_program_prints_what_the_library_prints() {
    let mut random = Random::seeded(0x5EED_0002);
    for round in 0..21 {
        let chip = chip_of_round(round);
        let log = log_bytes(chip, &random.events(chip, 150));
        let text = printed(&log);
        assert_eq!(text.lines().count(), 151);
        assert_eq!(printed_by_program(&log), text);
    }
}

/// Writes before the ticks of [`grey_log`]: the read mask, the command, the
/// address and 256 triples.
const GREY_WRITES: usize = 2 + 2 + 1 + 3 * 256;

/// A chip 1 log as long as a log may be. It fills every palette entry e with
/// the grey e, e, e; then tick k shows the entries k mod 256 and k / 256, so no
/// two ticks have the same answer.
fn grey_log() -> Vec<u8> {
    let mut events: Vec<Event> = vec![
        write(c::ADDRESS, 4),
        write(c::CONTROL, 0xFF),
        write(c::ADDRESS, 6),
        write(c::CONTROL, 0x40),
        write(c::ADDRESS, 0),
    ];
    events.extend((0..=255).flat_map(|entry| [write(c::PALETTE, entry); 3]));
    assert_eq!(events.len(), GREY_WRITES);
    let ticks = 0..MOST_EVENTS - GREY_WRITES;
    events.extend(ticks.map(|k| tick([k as u8, (k / 256) as u8, 0, 0, 0, 0, 0, 1])));
    log_bytes(1, &events)
}

/// The last line of [`grey_log`]: 769 places. Entries 1 to 255 have their grey
/// at places 3 to 767; the address is back at 0; then 782 and 783 hold FFh, and
/// 784 and 786 have FFh and 40h.
fn grey_end() -> String {
    let mut line = String::from("010103");
    for place in (3..=767).chain([782, 783, 784, 786]) {
        line += &format!("{:02x}{:02x}", place % 256, place / 256);
    }
    for entry in 1..=255 {
        line += &format!("{entry:02x}").repeat(3);
    }
    line + "ffffff40"
}

/// The answer's line of write `index` of [`grey_log`]: the read mask is painted by
/// write 1 and the command by write 3; from write 5 on, every third write paints
/// the next entry.
fn grey_write_line(index: usize) -> String {
    let (entry, position) = match index.checked_sub(5) {
        Some(colour) => (colour / 3, colour % 3),
        None => (0, 0),
    };
    match (index, position) {
        (1, _) => format!("00010401{}", "0".repeat(28)),
        (3, _) => format!("00010601{}", "0".repeat(28)),
        (_, 2) => format!("0001{entry:02x}00{}", "0".repeat(28)),
        _ => "0".repeat(36),
    }
}

#[test]
fn the_longest_log_prints_7001_lines() {
    let log = grey_log();
    assert_eq!(log.len(), MOST_LOG_BYTES);
    let text = printed(&log);
    assert!(text.ends_with('\n'));
    let lines: Vec<&str> = text.lines().collect();
    assert_eq!(lines.len(), 7001);
    for (index, line) in lines[..MOST_EVENTS].iter().enumerate() {
        let expected = match index.checked_sub(GREY_WRITES) {
            None => grey_write_line(index),
            Some(k) => {
                let greys = [k % 256, k / 256].map(|grey| format!("{grey:02x}").repeat(3));
                format!("000401{}{}{}", greys[0], greys[1], "0".repeat(18))
            }
        };
        assert_eq!(*line, expected, "line {index}");
    }
    assert_eq!(lines[MOST_EVENTS], grey_end());
    // Four writes by hand: the blue bytes of entries 0, 1 and 255, and the green
    // byte before the last.
    assert_eq!(lines[7], "000100000000000000000000000000000000");
    assert_eq!(lines[10], "000101000000000000000000000000000000");
    assert_eq!(lines[772], "0001ff000000000000000000000000000000");
    assert_eq!(lines[771], "000000000000000000000000000000000000");
    // Four ticks by hand: 0, 1, 256 and the last, 6,226 (24 x 256 + 82).
    assert_eq!(lines[773], "000401000000000000000000000000000000");
    assert_eq!(lines[774], "000401010101000000000000000000000000");
    assert_eq!(lines[1029], "000401000000010101000000000000000000");
    assert_eq!(lines[6999], "000401525252181818000000000000000000");
    assert!(printed_by_program(&log) == text, "the program's lines");
}

#[test]
fn the_longest_log_of_chip_2_prints_7001_lines() {
    // Line 2i + 1 has the address just written, the low byte of i.
    let events: Vec<Event> = (0..MOST_EVENTS / 2)
        .flat_map(|i| [write(rs::WRITE_MODE, i as u8), read(rs::WRITE_MODE)])
        .collect();
    let log = log_bytes(2, &events);
    let text = printed(&log);
    let lines: Vec<&str> = text.lines().collect();
    assert_eq!(lines.len(), 7001);
    for i in 0..MOST_EVENTS / 2 {
        assert_eq!(lines[2 * i], "0".repeat(36), "line {}", 2 * i);
        let read_line = format!("00{:02x}{}", i % 256, "0".repeat(32));
        assert_eq!(lines[2 * i + 1], read_line, "line {}", 2 * i + 1);
    }
    // The last address: 3,499 is 13 x 256 + 171.
    assert_eq!(lines[6999], "00ab00000000000000000000000000000000");
    assert_eq!(lines[7000], "0201000003ab");
    assert!(printed_by_program(&log) == text, "the program's lines");
}

#[test]
fn one_event_or_one_byte_too_many_prints_12_or_13() {
    let over = log_bytes(1, &vec![vertical(); MOST_EVENTS + 1]);
    let mut long = log_bytes(1, &vec![vertical(); MOST_EVENTS]);
    assert_eq!(printed(&long).lines().count(), 7001);
    long.push(0);
    for (input, expected) in [(over, "refused 12\n"), (long, "refused 13\n")] {
        assert_eq!(printed(&input), expected);
        assert_eq!(printed_by_program(&input), expected);
    }
}

#[test]
fn an_input_longer_than_any_log_prints_the_number_that_its_bytes_give() {
    let [a, b, c, d] = (MOST_EVENTS as u32).to_le_bytes();
    let cases = [
        (vec![NOT_BUILT, a, b, c, d], "refused 11\n"),
        (header_over_the_limit(NOT_BUILT), "refused 11\n"),
        (header_over_the_limit(1), "refused 12\n"),
        (vec![2, a, b, 1, 0], "refused 12\n"),
        (vec![2, a, b, c, d], "refused 13\n"),
        (vec![1, 0, 0, 0, 0], "refused 13\n"),
    ];
    for (header, expected) in cases {
        assert_eq!(header.len(), LOG_HEADER_BYTES);
        for length in [MOST_LOG_BYTES + 1, 65_536, 65_537, 200_000] {
            let mut input = header.clone();
            input.resize(length, 0xFF);
            assert_eq!(printed(&input), expected);
            assert_eq!(printed_by_program(&input), expected);
        }
    }
}

#[test]
fn any_input_prints_a_refusal_or_all_its_answers() {
    let mut random = Random::seeded(0x5EED_0004);
    let mut refused = BTreeMap::new();
    let mut accepted = 0;
    for round in 0..4000 {
        // Good logs with one byte changed, cut or added, now and then.
        let chip = chip_of_round(round);
        let count = random.below(6);
        let mut input = log_bytes(chip, &random.events(chip, count));
        match random.below(4) {
            0 => input.truncate(random.below(input.len())),
            1 => input.push(random.byte()),
            2 => {
                let at = random.below(input.len());
                input[at] = random.byte();
            }
            _ => {}
        }
        let text = printed(&input);
        match text.strip_prefix("refused ") {
            Some(number) => {
                let number: u32 = number.trim_end().parse().unwrap();
                *refused.entry(number).or_insert(0) += 1;
            }
            None => {
                assert_eq!(text.lines().count(), count + 1);
                accepted += 1;
            }
        }
    }
    assert!(refused.keys().eq(&[10, 11, 12, 13, 14, 15]));
    assert!(refused.values().all(|&times| times > 20));
    assert!(accepted > 1000);
}
