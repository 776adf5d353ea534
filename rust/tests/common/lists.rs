//! Lists of writing calls, and the plain map that says beforehand what each call answers.
//!
//! The map's state is a set of records. It is fed each call with what the call is handed, the head
//! that is lent and the length of the output, and nothing that the library answered or wrote. It
//! judges the head against its own set.

use super::forge::{codec_places, faulty_registers, EMPTY};
use super::heads::{draw_untrue, head_of, in_library, Heads};
use super::sets::{self, keys_near, part, set, unlawful_keys, Kind};
use super::values::other_codec;
use super::writes::{expect_outcome, Call};
use super::Random;
use independent::{result_table, table, Set, Value, LONGEST};
use mijdegen::Head;

/// How often each number was answered, number 0 standing for the calls that were done.
pub type Counts = [usize; 18];

/// A list of calls that starts from the register of a set.
pub struct List {
    start: Set,
    steps: Vec<Step>,
    /// The map's set after the list.
    pub end: Set,
}

/// One call of a list, with the map's answer, the whole output and the heads.
struct Step {
    call: Call,
    expected: Result<usize, u8>,
    output: Vec<u8>,
    heads: Heads,
}

/// What the map makes of a call: the next set, with its table and its head.
type Next = (Set, Vec<u8>, Head);

impl List {
    /// Draws a list of so many calls and asks the map. Most calls are lent the head of the register
    /// that is held. One in ten is lent another: often the one before the last call that was done.
    pub fn draw(random: &mut Random, source: &Source, start: &Set, count: usize) -> List {
        let mut set = start.clone();
        let mut head = head_of(&set);
        let mut earlier = head;
        let mut steps = Vec::with_capacity(count);
        for _ in 0..count {
            let call = source.call(random, &set);
            let lent = match random.below(10) {
                0 => draw_untrue(random, &head, &earlier),
                _ => head,
            };
            let mut heads = Heads::stay(lent);
            let (expected, output) = match next(&call, &lent, &set) {
                Err(number) => (Err(number), vec![0; random.below(200)]),
                Ok((changed, table, after)) => {
                    let mut output = vec![0; out_length(random, table.len())];
                    match output.get_mut(..table.len()) {
                        Some(start) => {
                            start.copy_from_slice(&table);
                            (set, earlier, head) = (changed, head, after);
                            heads.after = after;
                            (Ok(table.len()), output)
                        }
                        None => (Err(13), output),
                    }
                }
            };
            steps.push(Step {
                call,
                expected,
                output,
                heads,
            });
        }
        List {
            start: start.clone(),
            steps,
            end: set,
        }
    }

    /// Runs the list with the library, by the safe and by the C functions, and compares each
    /// answer, each output and each head with the map's.
    pub fn run(&self) -> Counts {
        let mut counts = [0; 18];
        let mut held = table(&self.start);
        for step in &self.steps {
            let (heads, expected) = (&step.heads, step.expected);
            let mut out = expect_outcome(&held, heads, &step.call, expected, &step.output);
            // The table that was written is held; after a refused call the register stays held.
            if let Ok(length) = expected {
                out.truncate(length);
                held = out;
            }
            counts[usize::from(expected.err().unwrap_or(0))] += 1;
        }
        assert!(held == table(&self.end), "after the list");
        assert_eq!(mijdegen::check(&held), Ok(head_of(&self.end)));
        counts
    }
}

/// Asks the map what an output with room would get, or which number is due.
fn next(call: &Call, lent: &Head, set: &Set) -> Result<Next, u8> {
    if *lent != head_of(set) {
        return Err(17);
    }
    let changed = call.change(set.clone())?;
    let (table, head) = result_table(&changed, LONGEST)?;
    Ok((changed, table, in_library(head)))
}

/// Draws the length of the output for a table of this length: just enough, more, one byte too
/// short, none, and any that is too short.
pub fn out_length(random: &mut Random, table: usize) -> usize {
    match random.below(20) {
        0..=6 => table,
        7..=13 => table + random.below(300),
        14 | 15 => table - 1,
        16 => 0,
        17 | 18 => random.below(table),
        _ => 2 * table + 1_000,
    }
}

/// What the calls are handed, drawn at random.
pub struct Source {
    /// Few keys, so that calls often meet a present one.
    keys: Vec<Vec<u8>>,
    unlawful: Vec<Vec<u8>>,
    /// One register for each of the numbers 1 to 10.
    faulty: [Vec<u8>; 10],
}

impl Source {
    pub fn new(keys: impl IntoIterator<Item = Vec<u8>>) -> Source {
        Source {
            keys: keys.into_iter().collect(),
            unlawful: unlawful_keys(),
            faulty: faulty_registers(),
        }
    }

    /// Gives a set of some of the keys.
    pub fn set(&self, random: &mut Random, most: usize) -> Set {
        let count = random.below(most + 1);
        (0..count)
            .map(|_| {
                let value = few_values(random);
                (random.one_of(&self.keys).clone(), value)
            })
            .collect()
    }

    fn call(&self, random: &mut Random, set: &Set) -> Call {
        let kind = random.below(8);
        if kind < 2 {
            return Call::merge(&self.second(random, set));
        }
        let key = self.key(random, set);
        match kind {
            2 | 3 => Call::remove(&key),
            4 | 5 => Call::join_bytes(&key, &drawn_value(random)),
            _ => Call::put_bytes(&key, &drawn_value(random)),
        }
    }

    /// Draws one of the keys, a present key, one near them, or an unlawful key.
    pub fn key(&self, random: &mut Random, set: &Set) -> Vec<u8> {
        match random.below(16) {
            0..=7 => random.one_of(&self.keys).clone(),
            8..=11 if !set.is_empty() => {
                let n = random.below(set.len());
                set.keys().nth(n).expect("n is less than the count").clone()
            }
            8..=13 => {
                let key = random.one_of(&self.keys);
                let near = keys_near(random, key);
                random.one_of(&near).clone()
            }
            _ => random.one_of(&self.unlawful).clone(),
        }
    }

    /// Draws the second register of a merge or difference, accepted or not.
    pub fn second(&self, random: &mut Random, set: &Set) -> Vec<u8> {
        match random.below(16) {
            0 => EMPTY.to_vec(),
            1 => table(set),
            // A part of the set that is held.
            2 => {
                let step = 2 + random.below(4);
                table(&part(set, |n| n % step == 0))
            }
            3 | 4 => random.one_of(&self.faulty).clone(),
            5..=7 => {
                let register = table(&self.set(random, 8));
                damaged(random, register)
            }
            _ => table(&self.set(random, 8)),
        }
    }
}

/// Gives a set of 4,096 records and a source of 20 keys that come and go, of which half are in the
/// set. So lists on its register meet the greatest count again and again.
pub fn full_set(kind: Kind) -> (Set, Source) {
    let all = set(kind, 4_106);
    // Each 205th record, 20 in all.
    let moving = |n: usize| n % 205 == 7 && n / 205 < 20;
    let start = part(&all, |n| !moving(n) || n / 205 % 2 == 0);
    assert_eq!(start.len(), 4_096);
    (start, Source::new(part(&all, moving).into_keys()))
}

/// Changes a byte of the register, gives a link the other codec, cuts the register or adds a byte.
/// Sometimes the byte is one of a value in the root, and the register stays accepted. What was cut
/// to nothing stays so.
pub fn damaged(random: &mut Random, mut register: Vec<u8>) -> Vec<u8> {
    if register.is_empty() {
        return register;
    }
    let place = random.below(register.len());
    match random.below(8) {
        0 => register.truncate(place),
        1 => register.push(random.next() as u8),
        2 => {
            // The first codec from the place on, or the byte there where none follows.
            let codecs = codec_places(&register);
            let codec = codecs.into_iter().find(|codec| *codec >= place);
            register[codec.unwrap_or(place)] ^= 0x55 ^ 0x71;
        }
        _ => register[place] ^= 1 << random.below(8),
    }
    register
}

/// Draws the bytes of a value, or one time in eight others: of another length, or with another byte
/// in the place of the codec.
pub fn drawn_value(random: &mut Random) -> Vec<u8> {
    let mut value = few_values(random).bytes();
    match random.below(16) {
        0 => {
            let length = *random.one_of(&[0, 1, 31, 32, 34, 64, 300]);
            value.into_iter().cycle().take(length).collect()
        }
        1 => {
            let any = random.next() as u8;
            value[0] = *random.one_of(&[0x00, 0x54, 0x56, 0x70, 0x72, any]);
            value.to_vec()
        }
        _ => value.to_vec(),
    }
}

/// Draws one of few values, or any. Two of them often differ only late, or in the codec alone, or
/// not at all.
fn few_values(random: &mut Random) -> Value {
    let mut value = Value::dag_cbor([0x80; 32]);
    match random.below(4) {
        0 => value = sets::value(random),
        1 => value.digest[0] = random.below(256) as u8,
        2 => value.digest[31] = random.below(256) as u8,
        _ => {}
    }
    match random.below(2) {
        0 => other_codec(&value),
        _ => value,
    }
}
