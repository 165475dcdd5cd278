//! The report of the program `dayrun`: days by hand, and random days held to
//! the checker's report, from a file and from a pipe in odd pieces.

use checker::day::report;
use compare::dayrun::{check, check_lines, from_file, from_pieces};
use compare::days::{self, framed, messages_end, new_swap, of_length, overlong};
use compare::days::{random_day, wild_day};
use compare::layout::{DAY_ROWS, LARGEST_LENGTH, LENGTH_SIZE, LONGEST_MESSAGE};
use compare::message::Message;
use compare::order;
use compare::random::Random;
use compare::sound::{plain_new, plain_short, uti_of};
use compare::submissions;
use compare::tally::Tally;
use sdr::Answer;
use std::fs;
use std::path::Path;

/// A report: the heading and these lines.
fn lines(lines: &[&str]) -> Vec<u8> {
    let mut text = String::from("message verdict element record\n");
    for line in lines {
        text += line;
        text += "\n";
    }
    text.into_bytes()
}

/// The report on a day from a file is this.
fn check_file(day: &[u8], due: &[u8], what: &str) {
    check(day, &from_file(day), due, what);
}

#[test]
fn the_example_of_the_specification() {
    let day = [0x02, 0x00, 0x00, 0x00];
    let due = b"message verdict element record\n1 6 2 0\nend 1 0\n";
    check_file(&day, due, "from a file");
    check(&day, &from_pieces([&day[..]]), due, "from a pipe");
}

#[test]
fn no_input() {
    check_file(b"", &lines(&["end 0 0"]), "an empty file");
    let ended = from_pieces([]);
    check(b"", &ended, &lines(&["end 0 0"]), "an empty pipe");
}

#[test]
fn lengths_0_and_1() {
    let days: [(&[u8], &[&str]); 6] = [
        (&[0, 0], &["1 5 0 0", "end 1 0"]),
        (&[1, 0], &["cut 0 0"]),
        (&[0], &["cut 0 0"]),
        (&[1, 0, 0], &["1 5 0 0", "end 1 0"]),
        (&[0, 0, 0], &["1 5 0 0", "cut 1 0"]),
        (
            &[0, 0, 1, 0, 9, 0, 0, 2, 0, 0, 0],
            &["1 5 0 0", "2 5 0 0", "3 5 0 0", "4 6 2 0", "end 4 0"],
        ),
    ];
    for (day, due) in days {
        check_file(day, &lines(due), &format!("{day:?}"));
    }
}

/// A MODI of the plain swap that shows another currency.
fn plain_modi() -> Message {
    plain_new().with(2, "MODI").with(21, "EUR")
}

/// Messages of every outcome that the last line counts, and their lines.
fn small_day() -> Vec<(Vec<u8>, &'static str)> {
    let port = plain_short("PRTO", Some("PTNG"));
    let end = plain_short("TERM", Some("ETRM"));
    vec![
        (vec![0, 0], "1 6 2 0"),
        (plain_new().encode(), "2 0 0 1"),
        (vec![], "3 5 0 0"),
        (plain_modi().encode(), "4 0 0 2"),
        (plain_modi().with(14, "POST").encode(), "5 0 0 0"),
        (end.with(6, "x").encode(), "6 8 6 0"),
        (port.encode(), "7 0 0 0"),
        (end.encode(), "8 15 0 0"),
        (new_swap(7), "9 0 0 3"),
    ]
}

#[test]
fn a_day_cut_at_every_byte() {
    let day = small_day();
    let messages: Vec<Vec<u8>> = day.iter().map(|(message, _)| message.clone()).collect();
    let bytes = days::of(&messages);
    // after so many messages, so many lines are on the tape
    let published = [0, 0, 1, 1, 2, 2, 2, 2, 2, 3];
    let (mut judged, mut end) = (0, 0);
    for cut in 0..=bytes.len() {
        if judged < day.len() && cut == end + LENGTH_SIZE + messages[judged].len() {
            judged += 1;
            end = cut;
        }
        let word = if cut == end { "end" } else { "cut" };
        let last = format!("{word} {judged} {}", published[judged]);
        let mut due: Vec<&str> = day[..judged].iter().map(|(_, line)| *line).collect();
        due.push(&last);
        check_file(&bytes[..cut], &lines(&due), &format!("cut at {cut}"));
    }
    assert_eq!((judged, end), (9, bytes.len()));
}

#[test]
fn the_longest_message_and_one_byte_more() {
    // Code 16 is to be 1 to 100 letters or digits: 9 where the layout is right.
    let rest = plain_new().with(16, "").encode().len();
    let longest = plain_new().with(16, "A".repeat(LONGEST_MESSAGE - rest));
    let longer = plain_new().with(16, "A".repeat(LONGEST_MESSAGE + 1 - rest));
    assert_eq!(longest.encode().len(), LONGEST_MESSAGE);
    let day = days::of(&[longest.encode(), longer.encode(), plain_new().encode()]);
    let due = lines(&["1 9 16 0", "2 5 0 0", "3 0 0 1", "end 3 1"]);
    check_file(&day, &due, "the longest and one byte more");
}

#[test]
fn overlong_messages() {
    let longest = LONGEST_MESSAGE;
    for length in [
        longest + 1,
        longest + 2,
        4_096,
        LARGEST_LENGTH - 1,
        LARGEST_LENGTH,
    ] {
        let one = framed(&overlong(length));
        let three = [one.clone(), one.clone(), one.clone(), framed(&new_swap(1))].concat();
        let due = lines(&["1 5 0 0", "2 5 0 0", "3 5 0 0", "4 0 0 1", "end 4 1"]);
        check_file(&three, &due, &format!("three of {length}"));
        for cut in [1, 2, 3, longest + 2, length, length + 1] {
            let what = format!("{length} cut at {cut}");
            check_file(&one[..cut], &lines(&["cut 0 0"]), &what);
            let second = [&one, &one[..cut]].concat();
            check_file(&second, &lines(&["1 5 0 0", "cut 1 0"]), &what);
        }
    }
}

#[test]
fn a_swap_too_many_finds_no_row() {
    let mut day = Vec::new();
    let mut due = String::from("message verdict element record\n");
    let rows = DAY_ROWS as u64;
    for swap in 1..=rows {
        day.extend(framed(&new_swap(swap)));
        due += &format!("{swap} 0 0 {swap}\n");
    }
    let (more, last) = (rows + 1, rows + 2);
    day.extend(framed(&new_swap(more)));
    due += &format!("{more} 17 0 0\n");
    let end = format!("{due}end {more} {rows}\n");
    check_file(&day, end.as_bytes(), "a swap too many");
    // A swap that has a row goes on.
    let known = plain_modi().with(1, uti_of(rows));
    day.extend(framed(&known.encode()));
    let end = format!("{due}{last} 0 0 {more}\nend {last} {more}\n");
    check_file(&day, end.as_bytes(), "a swap too many and a MODI");
}

/// The stored days, seen from this package, and the one that is the program's
/// own input.
const STORED: &str = "../../days";
const OWN: [&str; 2] = ["../../crates/dayrun/stdin", "../../crates/dayrun/stdout"];

#[test]
fn the_stored_days() {
    let here = Path::new(env!("CARGO_MANIFEST_DIR"));
    let mut days = vec![OWN.map(|file| here.join(file))];
    for entry in fs::read_dir(here.join(STORED)).expect("the stored days") {
        let path = entry.expect("a file").path();
        if path.extension().is_some_and(|kind| kind == "day") {
            days.push([path.clone(), path.with_extension("report")]);
        }
    }
    assert!(days.len() > 8, "{} stored days", days.len());
    for [day, due] in days {
        let what = day.display().to_string();
        let day = fs::read(day).expect("the day's bytes");
        let due = fs::read(due).expect("the day's report");
        check_lines(&day, &report(&day), &due, &what);
    }
}

/// Counts what a report says, without its first and last line.
fn count(tally: &mut Tally, report: &[u8]) {
    let text = std::str::from_utf8(report).expect("a report is ASCII");
    let lines: Vec<&str> = text.lines().collect();
    for line in &lines[1..lines.len() - 1] {
        let fields: Vec<u64> = line.split(' ').flat_map(str::parse).collect();
        tally.submission(Answer {
            verdict: fields[1] as u8,
            element: fields[2] as u8,
            identifier: fields[3],
            ..Answer::default()
        });
    }
}

#[test]
fn random_days() {
    let mut random = Random::for_test(601);
    let mut tally = Tally::default();
    let (mut number, mut cuts, mut silent) = (0, 0, 0);
    while tally.submissions < submissions(250_000) {
        let day = any_day(&mut random);
        let due = report(&day);
        check_file(&day, &due, &format!("day {number}"));
        count(&mut tally, &due);
        silent += modifications_without_line(&day, &due);
        number += 1;
        cuts += u32::from(messages_end(&day) < day.len());
    }
    println!(
        "{number} random days, {cuts} of them cut, {silent} modifications without a line: {tally}"
    );
    for verdict in [&[0], order::of_the_message(), &[15, 16, 17]].concat() {
        assert!(tally.verdict(verdict) > 0, "verdict {verdict}");
    }
    assert!(cuts > 0 && cuts < number);
    assert!(silent > tally.verdict(0) / 30, "{silent}");
}

/// How many MODI messages of a day its report tells as accepted without a line.
fn modifications_without_line(day: &[u8], report: &[u8]) -> u64 {
    let text = std::str::from_utf8(report).expect("a report is ASCII");
    let is_one = |(message, line): &(&[u8], &str)| {
        let modi = Message::decode(message).is_some_and(|message| message.text(2) == "MODI");
        modi && line.ends_with(" 0 0 0")
    };
    let told = days::messages(day).into_iter().zip(text.lines().skip(1));
    told.filter(is_one).count() as u64
}

/// A day of up to some thousand messages.
fn any_day(random: &mut Random) -> Vec<u8> {
    if random.once_in(10) {
        let length = random.between(0, 100_000);
        return wild_day(random, length);
    }
    let count = match random.below(4) {
        0 => random.below(12),
        1 => random.below(500),
        _ => random.between(2_000, 6_000),
    };
    random_day(random, count)
}

/// The report on a day fed through a pipe in pieces of these lengths, again
/// and again, is the checker's.
fn check_pieces(day: &[u8], lengths: &[usize], tally: &mut Tally) {
    let mut pieces = Vec::new();
    let mut left = day;
    for &length in lengths.iter().cycle() {
        if left.is_empty() {
            break;
        }
        let (piece, after) = left.split_at(length.min(left.len()));
        pieces.push(piece);
        left = after;
    }
    let due = report(day);
    let first = &lengths[..lengths.len().min(8)];
    let what = format!("pieces of {first:?}");
    check(day, &from_pieces(pieces), &due, &what);
    count(tally, &due);
}

#[test]
fn a_day_in_single_bytes() {
    let mut random = Random::for_test(602);
    let mut tally = Tally::default();
    for _ in 0..4 {
        check_pieces(&random_day(&mut random, 25), &[1], &mut tally);
    }
    println!("single bytes: {tally}");
}

#[test]
fn days_in_pieces_of_one_length() {
    let mut random = Random::for_test(603);
    let mut tally = Tally::default();
    for length in [
        2, 3, 5, 7, 13, 101, 257, 1_021, 2_053, 4_093, 8_191, 32_771, 65_537,
    ] {
        let count = 20 + length.min(1_000);
        check_pieces(&random_day(&mut random, count), &[length], &mut tally);
    }
    println!("pieces of one length: {tally}");
}

#[test]
fn days_in_random_pieces() {
    let mut random = Random::for_test(604);
    let mut tally = Tally::default();
    while tally.submissions < submissions(30_000) {
        let most = *random.pick(&[3, 40, 700, 5_000, 70_000]);
        let lengths: Vec<usize> = (0..50).map(|_| random.between(1, most)).collect();
        let count = random.between(1, 200 + most / 20);
        check_pieces(&random_day(&mut random, count), &lengths, &mut tally);
    }
    println!("random pieces: {tally}");
}

#[test]
fn pieces_that_end_at_65_536_and_beside() {
    let mut random = Random::for_test(605);
    let mut tally = Tally::default();
    for first in 65_533..=65_539 {
        // Whole messages up to there, and messages that lie across.
        let mut whole = of_length(first);
        whole.extend(of_length(first));
        whole.extend(framed(&new_swap(900)));
        check_pieces(&whole, &[first], &mut tally);
        let across = random_day(&mut random, 900);
        check_pieces(&across, &[first], &mut tally);
        check_pieces(&across, &[65_536, first, 65_536, 1, 1], &mut tally);
    }
    println!("pieces of 65,536 bytes: {tally}");
}

#[test]
fn pieces_that_end_at_lengths_and_messages() {
    let mut random = Random::for_test(606);
    let mut tally = Tally::default();
    for _ in 0..6 {
        let day = random_day(&mut random, 400);
        let messages: Vec<usize> = days::messages(&day).iter().map(|one| one.len()).collect();
        let apart = messages
            .iter()
            .flat_map(|&length| [LENGTH_SIZE, length])
            .collect();
        let together = messages
            .iter()
            .map(|&length| LENGTH_SIZE + length)
            .collect();
        let inside = messages
            .iter()
            .flat_map(|&length| [1, 1 + length])
            .collect();
        for lengths in [apart, together, inside] {
            check_boundaries(&day, lengths, &mut tally);
        }
    }
    println!("pieces by messages: {tally}");
}

/// As `check_pieces`, for lengths of which none or many may be 0.
fn check_boundaries(day: &[u8], lengths: Vec<usize>, tally: &mut Tally) {
    let mut lengths: Vec<usize> = lengths.into_iter().filter(|&length| length > 0).collect();
    lengths.push(7);
    check_pieces(day, &lengths, tally);
}
