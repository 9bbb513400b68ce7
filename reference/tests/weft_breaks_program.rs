//! The program `weft_breaks`, run as a child process, writes what the second implementation says of the
//! same input: at each kind of line, at both ends of the range, at the most breaks that it counts, and
//! wherever its reads of the input end.

use std::fs::{self, File};
use std::io::{ErrorKind, Write};
use std::path::{Path, PathBuf};
use std::process::{Child, Command, Stdio};
use std::thread::sleep;
use std::time::Duration;

use reference::forms::request::Request;
use reference::generate::breaks::breaks_requests;
use reference::generate::random::Random;
use reference::generate::special_breaks::{
    at_both_ends, evenly_apart, examples, long_lists, APART, MILLION,
};
use reference::model::refusal::Refusal;
use reference::model::weft_breaks::{weft_breaks, Breaks};

/// How many breaks the program counts in a window at most.
const ROOM: usize = 65_536;

/// How many bytes it reads at a time.
const READ: usize = 65_536;

const SAMPLE: &[u8] = include_bytes!("../../samples/breaks.ticks");

const NO_WINDOW: &str = "the first argument has to be the window: a number from 1 to 4,294,967,295";
const REFUSED: &str =
    "refused 29: the window has no tick, or a tick is smaller than the one before it";

fn counted(count: usize, first: u32, window: u32) -> String {
    let breaks = many(count, "break");
    let ticks = many(window as usize, "tick");
    format!("at most {breaks} within {ticks}, first in the window from tick {first} on")
}

/// So many of something, whose name is that of one.
fn many(number: usize, name: &str) -> String {
    if number == 1 {
        format!("1 {name}")
    } else {
        format!("{number} {name}s")
    }
}

fn no_number(line: usize) -> String {
    format!("line {line}: no number up to 4,294,967,295")
}

fn falls(line: usize) -> String {
    format!("line {line}: {REFUSED}")
}

fn over(line: usize, window: u32) -> String {
    let ticks = many(window as usize, "tick");
    format!("line {line}: over 65,536 breaks within {ticks}, which is more than are counted")
}

/// Where `rt` puts the program.
fn program() -> PathBuf {
    let path = Path::new(env!("CARGO_MANIFEST_DIR")).join("../crates/weft_breaks/out/weft_breaks");
    assert!(path.is_file(), "crates/weft_breaks/out/weft_breaks is missing: run `rt run` in crates/weft_breaks");
    path
}

fn start(arguments: &[&str], input: Stdio) -> Child {
    let mut command = Command::new(program());
    command.args(arguments).stdin(input).stdout(Stdio::piped()).stderr(Stdio::piped());
    command.spawn().expect("the program starts")
}

/// The one line that the program writes, without its line feed.
fn line_of(child: Child) -> String {
    let output = child.wait_with_output().expect("the program ends");
    assert!(output.status.success(), "{:?}", output.status);
    assert!(output.stderr.is_empty(), "{}", String::from_utf8_lossy(&output.stderr));
    let text = String::from_utf8(output.stdout).expect("text");
    let line = text.strip_suffix('\n').expect("a line feed at the end");
    assert!(!line.contains('\n'), "{text}");
    line.to_string()
}

/// What the program writes, where its input comes through a pipe, in parts of this many bytes and with a
/// pause before each.
fn written_by_parts(arguments: &[&str], input: &[u8], length: usize, pause: Duration) -> String {
    let mut child = start(arguments, Stdio::piped());
    let mut pipe = child.stdin.take().expect("it has a pipe");
    for part in input.chunks(length) {
        sleep(pause);
        match pipe.write_all(part) {
            // It does not read on after a line that it stops at.
            Err(error) if error.kind() == ErrorKind::BrokenPipe => break,
            result => result.expect("the pipe takes the input"),
        }
    }
    drop(pipe);
    line_of(child)
}

/// What the program writes.
fn written(arguments: &[&str], input: &[u8]) -> String {
    written_by_parts(arguments, input, usize::MAX, Duration::ZERO)
}

fn written_with(window: u32, input: &[u8]) -> String {
    written(&[&window.to_string()], input)
}

/// What the program writes, where its input is a file.
fn written_from_file(window: u32, path: &Path) -> String {
    let file = File::open(path).expect("the file opens");
    line_of(start(&[&window.to_string()], Stdio::from(file)))
}

/// A file for one test. Its name has to be one that no other test has.
fn file_with(name: &str, input: &[u8]) -> PathBuf {
    let path = Path::new(env!("CARGO_TARGET_TMPDIR")).join(name);
    fs::write(&path, input).expect("the file is written");
    path
}

/// Ticks, a number to a line.
fn lines_of(ticks: &[u32]) -> Vec<u8> {
    ticks.iter().flat_map(|tick| format!("{tick}\n").into_bytes()).collect()
}

/// A number of 32 bits in digits, and nothing else.
fn number(word: &[u8]) -> Option<u32> {
    let digits = word.iter().all(u8::is_ascii_digit);
    let word = std::str::from_utf8(word).ok().filter(|_| digits)?;
    word.parse().ok()
}

/// A line without the spaces around what it has.
fn without_spaces(line: &[u8]) -> &[u8] {
    let other = |byte: &u8| !b" \t\r".contains(byte);
    let first = line.iter().position(other).unwrap_or(line.len());
    let end = line.iter().rposition(other).map_or(first, |last| last + 1);
    &line[first..end]
}

/// The ticks of an input, up to the first line that is neither a number nor blank.
#[derive(Default)]
struct Input {
    ticks: Vec<u32>,
    /// The number of the line of each tick.
    lines: Vec<usize>,
    bad_line: Option<usize>,
}

fn read(bytes: &[u8]) -> Input {
    let mut input = Input::default();
    for (before, line) in bytes.split(|&byte| byte == b'\n').enumerate() {
        let word = without_spaces(line);
        if word.is_empty() {
            continue;
        }
        let Some(tick) = number(word) else {
            input.bad_line = Some(before + 1);
            break;
        };
        input.ticks.push(tick);
        input.lines.push(before + 1);
    }
    input
}

/// What the program has to write, by the answers of the second implementation. The first line that it
/// cannot go on after is the one that is named.
fn expected(bytes: &[u8], window: u32) -> String {
    let Input { ticks, lines, bad_line } = read(bytes);
    if window == 0 {
        assert_eq!(weft_breaks(&ticks, window), Err(Refusal::WeftBreaks));
        return REFUSED.to_string();
    }
    let fall = (1..ticks.len()).find(|&place| ticks[place] < ticks[place - 1]);
    let mut answer = weft_breaks(&ticks, window);
    assert_eq!(answer.is_err(), fall.is_some());
    let ascending = &ticks[..fall.unwrap_or(ticks.len())];
    if fall.is_some() {
        answer = weft_breaks(ascending, window);
    }
    let Breaks { count, first } = answer.expect("no tick falls");
    if count > ROOM {
        let is_over = |&place: &usize| ascending[place] - ascending[place - ROOM] < window;
        let place = (ROOM..ascending.len()).find(is_over).expect("a window has so many");
        return over(lines[place], window);
    }
    let fall = fall.map(|place| falls(lines[place]));
    fall.or(bad_line.map(no_number)).unwrap_or_else(|| counted(count, first, window))
}

/// The program writes what it has to; and this is what it writes.
fn assert_agrees(name: &str, input: &[u8], window: u32) -> String {
    let line = written_with(window, input);
    assert_eq!(line, expected(input, window), "{name}, window {window}");
    line
}

/// Short inputs are shown whole.
fn assert_short_agrees(input: &[u8], window: u32) -> String {
    assert_agrees(&format!("{:?}", String::from_utf8_lossy(input)), input, window)
}

/// An input, a window, and what is written.
fn assert_written(input: &[u8], window: u32, line: &str) {
    assert_eq!(assert_short_agrees(input, window), line);
}

#[test]
fn the_sample() {
    for (window, count, first) in [
        (1, 2, 481),
        (2, 3, 480),
        (10, 4, 1110),
        (15, 4, 1110),
        (16, 4, 480),
        (20, 5, 1100),
        (1_000, 11, 120),
        (u32::MAX - 120, 12, 120),
        (u32::MAX, 13, 120),
    ] {
        assert_written(SAMPLE, window, &counted(count, first, window));
    }
    for window in 0..1_200 {
        assert_short_agrees(SAMPLE, window);
    }
}

#[test]
fn no_ticks() {
    for input in ["", "\n", "\n\n\n", " ", "\r\n", " \t\r\n\t \n\r"] {
        for window in [1, 1_000, u32::MAX] {
            assert_written(input.as_bytes(), window, &counted(0, 0, window));
        }
    }
}

/// The input is not looked at.
#[test]
fn a_window_without_a_tick() {
    for input in [&b""[..], b"\n", b"7\n", b"7\n6\n", b"7\nseven\n", SAMPLE] {
        assert_written(input, 0, REFUSED);
        assert_eq!(written(&["000"], input), REFUSED);
    }
}

#[test]
fn what_is_no_window() {
    assert_eq!(written(&[], SAMPLE), NO_WINDOW);
    let long = "1".repeat(5_000);
    for word in [
        "",
        " ",
        "x",
        "20x",
        "x20",
        "+20",
        "-1",
        "2 0",
        " 20",
        "20 ",
        "20\n",
        "1,000",
        "1.5",
        "0x20",
        "1e3",
        "--help",
        "twenty",
        "٢٠",
        "4294967296",
        "9999999999",
        "18446744073709551616",
        "18446744073709551636",
        &long,
    ] {
        assert_eq!(written(&[word], SAMPLE), NO_WINDOW, "{word:?}");
        assert_eq!(written(&[word], b""), NO_WINDOW, "{word:?}");
    }
}

#[test]
fn what_is_a_window() {
    let padded = format!("{:0>4000}", 20);
    for word in ["20", "020", "00000000000000000000020", &padded] {
        assert_eq!(written(&[word], SAMPLE), counted(5, 1100, 20), "{word:?}");
    }
    assert_eq!(written(&["4294967295"], SAMPLE), counted(13, 120, u32::MAX));
    // Arguments after the first are ignored.
    assert_eq!(written(&["20", "1"], SAMPLE), counted(5, 1100, 20));
    assert_eq!(written(&["20", "x"], SAMPLE), counted(5, 1100, 20));
}

#[test]
fn examples_by_hand() {
    for example in examples() {
        let line = assert_short_agrees(&lines_of(&example.ticks), example.window);
        match example.answer {
            Ok(Breaks { count, first }) => assert_eq!(line, counted(count, first, example.window)),
            Err(_) => assert!(line.ends_with(REFUSED), "{line}"),
        }
    }
}

#[test]
fn the_last_line_may_have_no_line_feed() {
    assert_written(b"7", 5, &counted(1, 7, 5));
    assert_written(b"7\n8\n8", 5, &counted(3, 7, 5));
    assert_written(b"7\n8\n8 ", 5, &counted(3, 7, 5));
    assert_written(b"7\n8\n8\r", 5, &counted(3, 7, 5));
    assert_written(b"7\n8\n8\n ", 5, &counted(3, 7, 5));
    assert_written(b"7\n8\n6", 5, &falls(3));
    assert_written(b"7\n8\n9x", 5, &no_number(3));
    assert_written(b"7\n8\n4294967296", 5, &no_number(3));
    let mut cut = SAMPLE.to_vec();
    assert_eq!(cut.pop(), Some(b'\n'));
    assert_written(&cut, 20, &counted(5, 1100, 20));
}

#[test]
fn spaces_and_blank_lines() {
    assert_written(b" 7\n8 \n\t8\n9\t\n9\r\n \t\r 9 \t\r \n", 3, &counted(6, 7, 3));
    assert_written(b"\n\n7\n\n  \n8\n\r\n\t\n8\n\n\n", 2, &counted(3, 7, 2));
    assert_written(b" 12 \n", 1, &counted(1, 12, 1));
    assert_written(b"4294967295\r\n", 1, &counted(1, u32::MAX, 1));
    assert_written(b"7\n\n7\n 9", 3, &counted(3, 7, 3));
    // They have line numbers too.
    assert_written(b"\n\n7\n\n  \n6\n", 2, &falls(6));
    assert_written(b"\r\n7\r\n\r\n8\r\nx\r\n", 2, &no_number(5));
    // Nothing but these bytes is a space, and a line ends at a line feed alone.
    for byte in (0..=u8::MAX).filter(|byte| !byte.is_ascii_digit() && !b" \t\r\n".contains(byte)) {
        assert_written(&[b'7', b'\n', b'8', byte, b'\n'], 5, &no_number(2));
        assert_written(&[b'7', b'\n', byte, b'8', b'\n'], 5, &no_number(2));
        assert_written(&[b'7', b'\n', byte, b'\n', b'8', b'\n'], 5, &no_number(2));
    }
    assert_written(b"7\r8\r9\r", 5, &no_number(1));
}

#[test]
fn lines_that_are_no_numbers() {
    for word in [
        "seven",
        "7 8",
        "7\t8",
        "7\r8",
        "7,8",
        "-7",
        "- 7",
        "+7",
        "7.0",
        "7e0",
        "0x7",
        "7u32",
        "7;",
        "# 7",
        "7 # 7",
        "\u{feff}7",
        "٧",
        "7\u{a0}",
        "\0",
        "4294967296",
        "42949672950",
        "18446744073709551616",
        "18446744073709551623",
        "340282366920938463463374607431768211463",
    ] {
        for (front, line) in [("", 1), ("6\n", 2), ("\n5\n6\n\n\n", 6)] {
            for back in ["", "\n", " \n", "\r\n", "\n9\n8\nx\n"] {
                let input = format!("{front}{word}{back}");
                assert_written(input.as_bytes(), 5, &no_number(line));
            }
        }
    }
}

#[test]
fn numbers_at_the_ends_of_the_range() {
    assert_written(b"4294967295\n", 1, &counted(1, u32::MAX, 1));
    assert_written(b"0\n4294967295\n", u32::MAX, &counted(1, 0, u32::MAX));
    assert_written(b"0\n4294967294\n", u32::MAX, &counted(2, 0, u32::MAX));
    assert_written(b"1\n4294967295\n4294967295\n", u32::MAX, &counted(3, 1, u32::MAX));
    assert_written(b"4294967295\n4294967296\n", 1, &no_number(2));
    assert_written(b"4294967295\n0\n", 1, &falls(2));
    assert_written(b"000\n00000000000000000000000000007\n", 9, &counted(2, 0, 9));
    assert_written(b"00000000000000000000000004294967295\n", 9, &counted(1, u32::MAX, 9));
    assert_written(b"00000000000000000000000004294967296\n", 9, &no_number(1));
    // A line may be longer than a read.
    for (last, line) in [("7", counted(1, 7, 9)), ("x", no_number(1)), ("7\n6", falls(2))] {
        for length in [READ - 2, READ - 1, READ, READ + 1, 3 * READ + 5] {
            for filling in ["0", " "] {
                let input = format!("{}{last}\n", filling.repeat(length));
                assert_eq!(assert_agrees("a long line", input.as_bytes(), 9), line);
            }
        }
    }
    let digits = "9".repeat(3 * READ);
    assert_eq!(assert_agrees("many digits", digits.as_bytes(), 9), no_number(1));
}

/// The first line that it cannot go on after is the one that is named.
#[test]
fn ticks_that_fall() {
    assert_written(b"7\n6\n", 1, &falls(2));
    assert_written(b"1\n5\n5\n4\n9\n", 100, &falls(4));
    assert_written(b"1\n5\n\n4\n3\nx\n", 100, &falls(4));
    assert_written(b"1\n5\nx\n4\n3\n", 100, &no_number(3));
    for place in 1..50 {
        let mut ticks: Vec<u32> = (100..150).collect();
        ticks[place] = ticks[place - 1] - 1;
        assert_written(&lines_of(&ticks), 10, &falls(place + 1));
    }
}

#[test]
fn random_lists() {
    let mut refused = 0;
    for request in breaks_requests(200, &mut Random::new(1)) {
        let Request::WeftBreaks(ticks, window) = request else {
            panic!("{request:?}");
        };
        let line = assert_short_agrees(&lines_of(&ticks), window);
        refused += usize::from(line.contains("refused"));
        assert_eq!(weft_breaks(&ticks, window).is_err(), line.contains("refused"), "{line}");
    }
    assert!((20..100).contains(&refused), "{refused}");
}

/// Spaces, zeros before the number, and blank lines before its own; seldom a line that is no number.
fn untidy_line(tick: u32, random: &mut Random) -> String {
    let mut spaces = || random.pick(&["", "", "", "", " ", "\t", "\r", " \t \r"]);
    let (front, back) = (spaces(), spaces());
    let blank = random.pick(&["", "", "", "", "\n", " \n\n", "\r\n"]);
    let zeros = random.pick(&["", "", "", "", "0", "000000000000"]);
    let end =
        if random.below(300) == 0 { random.pick(&["x", " 1", "9999999999", ".", "-"]) } else { "" };
    format!("{blank}{front}{zeros}{tick}{end}{back}\n")
}

#[test]
fn random_untidy_lists() {
    let mut random = Random::new(2);
    let (mut counts, mut bad_lines, mut refusals) = (0, 0, 0);
    for request in breaks_requests(400, &mut random) {
        let Request::WeftBreaks(ticks, window) = request else {
            panic!("{request:?}");
        };
        let mut text: String = ticks.iter().map(|&tick| untidy_line(tick, &mut random)).collect();
        if random.chance(30) {
            text.pop();
        }
        let line = assert_short_agrees(text.as_bytes(), window);
        counts += usize::from(line.starts_with("at most"));
        bad_lines += usize::from(line.contains("no number"));
        refusals += usize::from(line.contains("refused"));
    }
    assert_eq!(counts + bad_lines + refusals, 400);
    assert!(counts > 200 && bad_lines > 10 && refusals > 40, "{counts} {bad_lines} {refusals}");
}

/// Lists of a million ticks, as they are and with a fall at the end. Where a window has more breaks than
/// are counted, that is said.
#[test]
fn long_lists_of_each_kind() {
    let mut lists = long_lists();
    lists.push(("both ends", at_both_ends(MILLION as u32 / 2)));
    let (mut counts, mut overs, mut refusals) = (0, 0, 0);
    for (name, mut ticks) in lists {
        let input = lines_of(&ticks);
        for window in [1, 2, 1_000, 6_000, 60_000, 10_000_000, 250_000_000, u32::MAX] {
            let line = assert_agrees(name, &input, window);
            counts += usize::from(line.starts_with("at most"));
            overs += usize::from(line.contains("over 65,536"));
        }
        ticks[MILLION - 1] = ticks[MILLION - 2] - 1;
        let input = lines_of(&ticks);
        for window in [1, 6_000] {
            let line = assert_agrees(name, &input, window);
            refusals += usize::from(line == falls(MILLION));
        }
    }
    assert_eq!(counts + overs, 6 * 8);
    // All but those that have more breaks than are counted before the fall, which are equal ones.
    assert_eq!(refusals, 5 * 2);
    assert!(counts >= 24 && overs >= 16, "{counts} {overs}");
}

/// Ticks that are this far apart.
fn ticks_apart(count: usize, first: u32, step: u32) -> impl Iterator<Item = u32> {
    (0..count as u32).map(move |number| first + number * step)
}

#[test]
fn as_many_breaks_as_are_counted() {
    for tick in [0, 7, u32::MAX] {
        for window in [1, 1_000, u32::MAX] {
            let input = lines_of(&vec![tick; ROOM]);
            assert_eq!(assert_agrees("equal", &input, window), counted(ROOM, tick, window));
            let input = lines_of(&vec![tick; ROOM + 1]);
            assert_eq!(assert_agrees("equal", &input, window), over(ROOM + 1, window));
            // As soon as there are too many, whatever comes after them.
            let input = [&input[..], b"seven\n"].concat();
            assert_eq!(assert_agrees("equal", &input, window), over(ROOM + 1, window));
        }
    }
    let room = ROOM as u32;
    let next = lines_of(&ticks_apart(MILLION, 5, 1).collect::<Vec<u32>>());
    assert_eq!(assert_agrees("one apart", &next, room - 1), counted(ROOM - 1, 5, room - 1));
    assert_eq!(assert_agrees("one apart", &next, room), counted(ROOM, 5, room));
    assert_eq!(assert_agrees("one apart", &next, room + 1), over(ROOM + 1, room + 1));
    let window = room * APART;
    let apart = lines_of(&evenly_apart(MILLION));
    assert_eq!(assert_agrees("apart", &apart, window), counted(ROOM, 0, window));
    assert_eq!(assert_agrees("apart", &apart, window + 1), over(ROOM + 1, window + 1));
}

/// The window with the most breaks comes after more ticks than are kept.
#[test]
fn many_breaks_far_into_a_list() {
    for before in [1, ROOM - 1, ROOM, ROOM + 1, 3 * ROOM + 7, 500_000] {
        let begin = 3 * before as u32;
        for count in [2, 1_000, ROOM - 1, ROOM, ROOM + 1] {
            let dense = ticks_apart(count, begin, 1);
            let after = ticks_apart(70_000, begin + 200_000, 3);
            let ticks: Vec<u32> = ticks_apart(before, 0, 3).chain(dense).chain(after).collect();
            let window = count as u32;
            let line = assert_agrees("dense in the middle", &lines_of(&ticks), window);
            let most = if count > ROOM {
                over(before + count, window)
            } else {
                counted(count, begin, window)
            };
            assert_eq!(line, most, "after {before}");
        }
    }
}

/// Numbers of ten digits, so that a read ends at each place of a line: in the number, before its line
/// feed and after it. Each tick counts, so that a number that is read in two parts is noticed.
#[test]
fn reads_end_within_a_line() {
    let first = 4_000_000_000;
    let count = 30_000;
    let ticks: Vec<u32> = ticks_apart(count, first, 1).collect();
    let lines = lines_of(&ticks);
    assert_eq!(lines.len(), 11 * count);
    for blanks in 0..=11 {
        let input = [&b"           "[..blanks], &lines].concat();
        let window = count as u32;
        let line = counted(count, first, window);
        let path = file_with("reads_end_within_a_line", &input);
        assert_eq!(written_from_file(window, &path), line);
        assert_eq!(assert_agrees("ten digits", &input, window), line);
        for length in [1_000, 4_095, 4_097, READ - 1, READ + 1] {
            let word = window.to_string();
            let by_parts = written_by_parts(&[&word], &input, length, Duration::ZERO);
            assert_eq!(by_parts, line, "{blanks} blanks, parts of {length}");
        }
        for (end, line) in [("4000029998\n", falls(count + 1)), ("x", no_number(count + 1))] {
            let input = [&input[..], end.as_bytes()].concat();
            let path = file_with("reads_end_within_a_line", &input);
            assert_eq!(written_from_file(window, &path), line);
            assert_eq!(assert_agrees("ten digits", &input, window), line);
        }
    }
}

/// The input ends exactly where a read does, and near it, with a line feed at its end and without.
#[test]
fn the_input_ends_where_a_read_does() {
    for reads in [1, 2, 3] {
        for length in reads * READ - 3..=reads * READ + 3 {
            let mut input = b"1\n".repeat(length / 2 + 1);
            input.truncate(length);
            let count = length.div_ceil(2);
            let line = if count > ROOM { over(ROOM + 1, 1) } else { counted(count, 1, 1) };
            let path = file_with("the_input_ends_where_a_read_does", &input);
            assert_eq!(written_from_file(1, &path), line, "{length} bytes");
            assert_eq!(assert_agrees("ones", &input, 1), line, "{length} bytes");
        }
    }
}

/// A read that gets fewer bytes than it asks for is not the end of the input.
#[test]
fn a_byte_at_a_time() {
    let by_bytes = |input| written_by_parts(&["20"], input, 1, Duration::from_millis(2));
    assert_eq!(by_bytes(SAMPLE), counted(5, 1100, 20));
    assert_eq!(by_bytes(b"7\n8\n\n9"), counted(3, 7, 20));
    assert_eq!(by_bytes(b"7\n8\n\n6"), falls(4));
}
