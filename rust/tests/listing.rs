//! The listing program, started with bytes on its standard input: every byte that it writes.
//!
//! The text is made from the set that the independent crate reads, and not by the library.

use crate::common::calls::shown;
use crate::common::forge::{faulty_registers, one_drawing, one_record, EMPTY};
use crate::common::hexadecimal;
use crate::common::sets::{long_keys_in_turn, part, set, Kind, KINDS};
use crate::common::values::filled;
use independent::{layer, pages, table};
use std::io::{ErrorKind, Write};
use std::path::Path;
use std::process::{ChildStdin, Command, Stdio};
use std::thread;
use std::time::Duration;

/// The length of the longest input that is judged.
const LONGEST_INPUT: usize = 65_536;

/// Starts the program and hands its standard input to the function. Expects that the program ends
/// with success and writes nothing to standard error. Gives what it writes to standard output.
fn run(feed: impl FnOnce(ChildStdin) + Send) -> Vec<u8> {
    let program = Path::new(env!("CARGO_MANIFEST_DIR")).join("../crates/listing/out/listing");
    assert!(
        program.is_file(),
        "there is no program {}: build it with the command `(cd crates/listing && rt run < stdin)`",
        program.display()
    );
    let mut child = Command::new(program)
        .stdin(Stdio::piped())
        .stdout(Stdio::piped())
        .stderr(Stdio::piped())
        .spawn()
        .expect("the program starts");
    let input = child.stdin.take().expect("standard input is a pipe");
    // Input and output each have a thread, so that no full pipe stops both sides.
    let output = thread::scope(|scope| {
        scope.spawn(|| feed(input));
        child.wait_with_output().expect("the program ends")
    });
    assert!(output.status.success(), "{}", output.status);
    assert_eq!(output.stderr, b"");
    output.stdout
}

/// Writes the bytes to the program's standard input. The program may end before it has read them
/// all, since it needs only the first of a long input.
fn hand_over(input: &mut ChildStdin, bytes: &[u8]) {
    if let Err(error) = input.write_all(bytes) {
        assert_eq!(error.kind(), ErrorKind::BrokenPipe);
    }
}

/// Gives the text for the input, by the independent crate.
fn text_for(input: &[u8]) -> Vec<u8> {
    if input.len() > LONGEST_INPUT {
        return b"refused 1\n".to_vec();
    }
    let set = match independent::set_of(input) {
        Ok(set) => set,
        Err(number) => return format!("refused {number}\n").into_bytes(),
    };
    let mut text = format!("records {}\n", set.len()).into_bytes();
    for (key, value) in &set {
        text.extend(key);
        text.push(b' ');
        text.extend(hexadecimal(&value.bytes()).bytes());
        text.push(b'\n');
    }
    text
}

/// Compares what the program writes for the input with the independent crate. Gives the text.
fn compare(input: &[u8]) -> Vec<u8> {
    let text = run(|mut standard_input| hand_over(&mut standard_input, input));
    assert!(text == text_for(input), "listing of {}", shown(input));
    text
}

/// Expects this number.
fn expect_refused(input: &[u8], number: u8) {
    assert_eq!(compare(input), format!("refused {number}\n").into_bytes());
}

/// Expects lines for so many records.
fn expect_records(input: &[u8], count: usize) -> Vec<u8> {
    let text = compare(input);
    assert!(text.starts_with(format!("records {count}\n").as_bytes()));
    assert_eq!(
        text.iter().filter(|byte| **byte == b'\n').count(),
        1 + count
    );
    text
}

/// Gives a register of exactly this length: ordinary records, and one more whose key is as long as
/// is needed.
fn register_of_length(length: usize) -> Vec<u8> {
    let all = set(Kind::Ordinary, 1_000);
    // The entry of the last record has 54 bytes besides its key.
    let mut set = (0..1_000)
        .rev()
        .map(|count| part(&all, |n| n < count))
        .find(|set| table(set).len() + 200 <= length)
        .expect("the empty set is short enough");
    let rest = length - table(&set).len() - 54;
    set.insert(last_key(rest), filled(0x11));
    let register = table(&set);
    assert_eq!(register.len(), length);
    register
}

/// Gives a key of this length and of layer 0 that stands behind all ordinary ones.
fn last_key(length: usize) -> Vec<u8> {
    let mut key = vec![b'~'; length];
    key[1] = b'/';
    for byte in b'a'..=b'z' {
        key[length - 1] = byte;
        if layer(&key) == 0 {
            return key;
        }
    }
    panic!("26 keys of length {length}, none of layer 0");
}

#[test]
fn sample() {
    let digest = "1111111111111111111111111111111111111111111111111111111111111111";
    for (register, codec) in [(one_record(), "71"), (one_drawing(), "55")] {
        let text = format!("records 1\na/b1 {codec}{digest}\n");
        assert_eq!(expect_records(&register, 1), text.as_bytes());
    }
}

#[test]
fn no_bytes() {
    expect_refused(b"", 2);
}

#[test]
fn empty_register() {
    assert_eq!(expect_records(&EMPTY, 0), b"records 0\n");
}

/// The small examples of the numbers 1 to 10. Number 5 cannot be due on 65,536 bytes: an entry has
/// at least 53 of them, so that there are at most 1,236 records. Its example is too long.
#[test]
fn each_number() {
    for (number, register) in (1..).zip(faulty_registers()) {
        expect_refused(&register, if number == 5 { 1 } else { number });
    }
}

#[test]
fn one_page() {
    for count in [2, 10, 23, 24, 300] {
        let set = set(Kind::OnePage, count);
        assert_eq!(pages(&set).len(), 1);
        expect_records(&table(&set), count);
    }
}

/// 202 pages, of the layers 6 to 0.
#[test]
fn many_pages() {
    let set = set(Kind::Ordinary, 700);
    assert_eq!(pages(&set).len(), 202);
    assert_eq!(set.keys().map(|key| layer(key)).max(), Some(6));
    expect_records(&table(&set), 700);
}

#[test]
fn all_kinds_of_sets() {
    let mut cases = 0;
    for kind in KINDS {
        for count in [1, 3, 10, 100] {
            expect_records(&table(&set(kind, count)), count);
            cases += 1;
        }
    }
    assert_eq!(cases, 7 * 4);
}

/// Keys of 256 bytes that share most of them: the text is several times as long as the register.
#[test]
fn long_text() {
    let register = table(&long_keys_in_turn(&[0], 950));
    assert!(register.len() <= LONGEST_INPUT, "{}", register.len());
    let text = expect_records(&register, 950);
    // Each record's line has 256 bytes for the key, 66 for the value, a space and a line feed.
    assert_eq!(text.len(), "records 950\n".len() + 950 * 324);
}

#[test]
fn longest_input() {
    let longest = register_of_length(LONGEST_INPUT);
    let head = independent::check(&longest).expect("it is accepted");
    expect_records(&longest, head.count as usize);

    expect_refused(&longest[..LONGEST_INPUT - 1], 2);
    expect_refused(&[0; LONGEST_INPUT], 3);
    let mut shorter = register_of_length(LONGEST_INPUT - 1);
    shorter.push(0);
    expect_refused(&shorter, 4);
    let mut damaged = longest;
    // A byte of the last key.
    let place = damaged
        .iter()
        .rposition(|byte| *byte == b'~')
        .expect("the last key");
    damaged[place] = b' ';
    expect_refused(&damaged, 7);
}

/// Input that is too long for the program, though the library accepts it.
#[test]
fn too_long_by_one_byte() {
    let register = register_of_length(LONGEST_INPUT + 1);
    independent::check(&register).expect("it is accepted");
    expect_refused(&register, 1);
    // What comes first would be accepted.
    let mut followed = register_of_length(LONGEST_INPUT);
    followed.push(0);
    expect_refused(&followed, 1);
}

#[test]
fn much_more_input() {
    expect_refused(&vec![0; 1 << 20], 1);
    let register = table(&set(Kind::Ordinary, 4_096));
    independent::check(&register).expect("it is accepted");
    expect_refused(&register, 1);
}

/// The input comes in pieces, with a wait between them: no piece is taken for the whole.
#[test]
fn pieces() {
    let register = table(&set(Kind::Ordinary, 100));
    let text = run(|mut input| {
        for piece in register.chunks(1_000) {
            hand_over(&mut input, piece);
            thread::sleep(Duration::from_millis(20));
        }
    });
    assert!(text == text_for(&register));
}
