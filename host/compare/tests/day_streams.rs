//! How the program `dayrun` reads and writes: lines are not held back, calls
//! are few, and reads or writes that fail end the run.

use checker::day::report;
use compare::calls::{Calls, Library};
use compare::dayrun::{check, check_lines, program, Running, Temporary};
use compare::days::{self, framed, new_swap, of_length, overlong, random_day};
use compare::layout::{LARGEST_LENGTH, LENGTH_SIZE, LONGEST_MESSAGE};
use compare::random::Random;
use std::fs::File;
use std::process::{Command, Stdio};

/// The heading and the lines of the whole messages so far; nothing where no
/// message is whole.
fn due_so_far(sent: &[u8]) -> Vec<u8> {
    let mut due = report(sent);
    due.pop();
    let last = due.iter().rposition(|&byte| byte == b'\n');
    due.truncate(last.expect("a report has two lines or more") + 1);
    if days::messages(sent).is_empty() {
        due.clear();
    }
    due
}

/// Sends a day in pieces that end at these places. The lines of all whole
/// messages have to come after each piece, before the next is sent.
fn check_stops(day: &[u8], stops: &[usize], what: &str) {
    check_stops_of(Running::on_pipe(), day, stops, what);
}

fn check_stops_of(mut running: Running, day: &[u8], stops: &[usize], what: &str) {
    let mut start = 0;
    for &stop in stops.iter().filter(|&&stop| stop <= day.len()) {
        running.send(&day[start..stop]);
        start = stop;
        let due = due_so_far(&day[..stop]);
        running.wait_for(&due);
        // Whether the heading comes before the first line is left open.
        if !due.is_empty() {
            let what = format!("{what}, input kept open after {stop} bytes");
            check_lines(day, &running.received, &due, &what);
        }
    }
    running.send(&day[start..]);
    check(day, &running.end(), &report(day), what);
}

#[test]
fn lines_come_after_every_byte() {
    let mut random = Random::for_test(701);
    let mut day = random_day(&mut random, 12);
    // A day can be cut short, or have overlong messages.
    while !(1_000..8_000).contains(&day.len()) {
        day = random_day(&mut random, 12);
    }
    let stops: Vec<usize> = (1..=day.len()).collect();
    check_stops(&day, &stops, "single bytes");
}

#[test]
fn lines_come_after_random_pieces() {
    let mut random = Random::for_test(702);
    for number in 0..12 {
        let day = random_day(&mut random, 600);
        let most = *random.pick(&[500, 3_000, 60_000]);
        let mut stops = vec![random.between(1, most)];
        while stops[stops.len() - 1] < day.len() {
            stops.push(stops[stops.len() - 1] + random.between(1, most));
        }
        check_stops(&day, &stops, &format!("day {number}"));
    }
}

/// Numbers of bytes after which a buffer of a usual length is just full.
const EDGES: [usize; 6] = [
    4_096,
    8_192,
    32_768,
    65_536,
    65_536 + LENGTH_SIZE + LONGEST_MESSAGE,
    131_072,
];

#[test]
fn lines_come_where_a_buffer_is_just_full() {
    for edge in EDGES {
        // Whole messages end at the edge or some bytes before or after it.
        for end in edge - 3..=edge + 3 {
            let day = [of_length(end), framed(&new_swap(0)), framed(&[])].concat();
            let what = format!("messages end at {end}");
            check_stops(&day, &[edge, edge + 1, end + 4], &what);
            check_stops(&day, &[end], &what);
        }
    }
}

#[test]
fn lines_come_where_a_buffer_is_just_full_again_and_again() {
    let mut random = Random::for_test(703);
    for step in [65_535, 65_536, 65_537] {
        let mut day = random_day(&mut random, 1_200);
        day.extend(of_length(3 * 65_536));
        let stops: Vec<usize> = (1..=5).map(|n| n * step).collect();
        check_stops(&day, &stops, &format!("pieces of {step}"));
    }
}

#[test]
fn lines_come_from_a_socket_where_a_buffer_is_just_full() {
    for edge in [65_536, 131_072] {
        for end in edge - 3..=edge + 3 {
            let day = [of_length(end), of_length(end), framed(&new_swap(0))].concat();
            let what = format!("messages end at {end}");
            let stops = [end, 2 * end, 2 * end + 1];
            check_stops_of(Running::on_socket(), &day, &stops, &what);
        }
    }
}

#[test]
fn lines_come_while_an_overlong_message_is_half_sent() {
    for length in [LONGEST_MESSAGE + 1, 30_000, LARGEST_LENGTH] {
        let before = of_length(1_000);
        let start = before.len() + LENGTH_SIZE;
        let long = framed(&overlong(length));
        let day = [before, long, framed(&new_swap(0)), framed(&[])].concat();
        for part in [0, 1, LONGEST_MESSAGE - 1, LONGEST_MESSAGE, length - 1] {
            let stops = [start - 1, start + part, start + length, day.len() - 1];
            let what = format!("{part} of {length} bytes sent");
            check_stops(&day, &stops, &what);
        }
    }
}

#[test]
fn lines_come_between_overlong_messages() {
    let long = framed(&overlong(LARGEST_LENGTH));
    let day = [
        framed(&new_swap(0)),
        long.repeat(3),
        framed(&new_swap(1)),
        long,
    ]
    .concat();
    let first = framed(&new_swap(0)).len();
    let stops: Vec<usize> = (0..20).map(|n| first + n * 16_384).collect();
    check_stops(&day, &stops, "overlong messages");
}

/// One read gives up to so many bytes of a file.
const READ: usize = 65_536;
/// One write takes at least so many bytes where so many are due.
const WRITE: usize = 32_768;

/// A command that runs the day run on a file.
fn on_file(file: &Temporary) -> Command {
    let mut command = Command::new(program());
    command.stdin(file.as_input());
    command
}

/// Runs a day from a file and holds the calls to their bounds: a read for each
/// 64 KiB of input and two more, a write for each 32 KiB of output and two
/// more.
fn check_calls(library: &Library, day: &[u8], what: &str) {
    let file = Temporary::holding(day);
    let (ended, calls) = library.run(on_file(&file));
    check(day, &ended, &report(day), what);
    let Calls { reads, writes } = calls;
    let (input, output) = (day.len(), ended.output.len());
    println!("{what}: {input} bytes in {reads} reads, {output} bytes in {writes} writes");
    let most_reads = input.div_ceil(READ) + 2;
    let most_writes = output.div_ceil(WRITE) + 2;
    assert!(
        reads <= most_reads,
        "{what}: {reads} reads, at most {most_reads}"
    );
    assert!(
        writes <= most_writes,
        "{what}: {writes} writes, at most {most_writes}"
    );
}

#[test]
fn calls_are_few() {
    let mut random = Random::for_test(704);
    let library = Library::compile();
    check_calls(&library, b"", "no input");
    for length in [60_000, READ, READ + 1, 1_000_000] {
        check_calls(&library, &of_length(length), "typical messages");
    }
    for count in [10_000, 32_768, 200_000] {
        check_calls(&library, &vec![0; 2 * count], "length 0");
    }
    for length in [LONGEST_MESSAGE + 1, LARGEST_LENGTH] {
        let day = framed(&overlong(length)).repeat(2_000_000 / length);
        check_calls(&library, &day, "overlong messages");
    }
    let day = random_day(&mut random, 4_000);
    check_calls(&library, &day, "a random day");
}

#[test]
fn reads_that_give_less_than_was_asked_for() {
    let mut random = Random::for_test(705);
    let library = Library::compile();
    let sizes = [
        "1",
        "2",
        "3",
        "1,2",
        "7",
        "2,289",
        "2049",
        "2050,1",
        "4096",
        "65535",
        "65535,1,1",
        "100,1,60000,5",
    ];
    for size in sizes {
        let small = if size.len() == 1 { 60 } else { 700 };
        let mut day = random_day(&mut random, small);
        day.extend(framed(&overlong(LARGEST_LENGTH)));
        day.extend(of_length(3_000));
        let file = Temporary::holding(&day);
        let mut command = on_file(&file);
        command.env("CALLS_SIZES", size);
        let (ended, _) = library.run(command);
        check(
            &day,
            &ended,
            &report(&day),
            &format!("reads of {size} bytes"),
        );
    }
}

#[test]
fn writes_that_take_only_a_part() {
    let mut random = Random::for_test(706);
    let library = Library::compile();
    let day = random_day(&mut random, 5_000);
    for size in ["7", "1000", "4095"] {
        let file = Temporary::holding(&day);
        let mut command = on_file(&file);
        command.env("CALLS_WRITE", size);
        let (ended, calls) = library.run(command);
        let what = format!("writes of {size} bytes");
        check(&day, &ended, &report(&day), &what);
        assert!(calls.writes > 10, "{what}: {calls:?}");
    }
}

/// Days with little output and with much.
fn days_to_write() -> [Vec<u8>; 3] {
    [Vec::new(), of_length(100_000), vec![0; 400_000]]
}

#[test]
fn a_full_device_does_not_stop_the_end() {
    for day in days_to_write() {
        let file = Temporary::holding(&day);
        let mut command = on_file(&file);
        command.stdout(
            File::options()
                .write(true)
                .open("/dev/full")
                .expect("/dev/full"),
        );
        // That it ends is all that is due.
        Running::start_unread(command).end();
    }
}

/// Where SIGPIPE is ignored, a write into a closed pipe fails.
const IGNORING: &str = "trap '' PIPE; exec \"$0\"";

#[test]
fn a_reader_that_goes_away_does_not_stop_the_end() {
    for day in days_to_write() {
        let file = Temporary::holding(&day);
        let mut ignoring = Command::new("sh");
        ignoring.args(["-c", IGNORING]).arg(program());
        for mut command in [Command::new(program()), ignoring] {
            command.stdin(file.as_input()).stdout(Stdio::piped());
            let mut running = Running::start_unread(command);
            running.stop_reading();
            running.end();
        }
    }
}

#[test]
fn a_read_that_fails_after_others_is_the_end_of_input() {
    let library = Library::compile();
    let messages = [new_swap(0), new_swap(1), vec![b'x'; 3_000], new_swap(2)];
    let day = [days::of(&messages), of_length(100_000)].concat();
    let whole = framed(&new_swap(0)).len();
    for given in [
        1,
        2,
        100,
        whole,
        whole + 1,
        whole + 2,
        2 * whole + 500,
        70_000,
    ] {
        let file = Temporary::holding(&day);
        let mut command = on_file(&file);
        command.env("CALLS_FAIL", given.to_string());
        let (ended, _) = library.run(command);
        let what = format!("reads fail after {given} bytes");
        check(&day, &ended, &report(&day[..given]), &what);
    }
}

#[test]
fn a_read_that_fails_is_the_end_of_input() {
    let due = b"message verdict element record\nend 0 0\n";
    let mut directory = Command::new(program());
    directory.stdin(File::open("/").expect("a directory can be opened"));
    check(b"", &Running::start(directory).end(), due, "a directory");
    let mut closed = Command::new("sh");
    closed.args(["-c", "exec \"$0\" <&-"]).arg(program());
    check(b"", &Running::start(closed).end(), due, "no standard input");
}
