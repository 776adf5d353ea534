//! The calls, each with the number that is due or with its answer and its whole output.
//!
//! An output is zero where the call is refused, and zero after what is written. A head that is lent
//! stays as it is where the call is refused, and else becomes that of the register written.

use crate::key::{collection_of, is_collection, lawful};
use crate::number::{
    FIRST_AFTER_LAST, KEY_ABSENT, NO_ROOM, NO_SUCH_SCREEN, TOO_MANY_RECORDS, UNLAWFUL_KEY,
    UNTRUE_HEAD, WRONG_VALUE,
};
use crate::reader::{judge, Below, ReadPage, Reader, Record, Sought};
use crate::table::table_and_head;
use crate::{
    sha256, Codec, Digest, Head, Set, Value, ValueBytes, LONGEST, MOST_RECORDS, PER_SCREEN,
};
use std::collections::HashSet;

/// Gives the head of the register.
pub fn check(register: &[u8]) -> Result<Head, u8> {
    Ok(judge(register)?.head())
}

/// Gives the set that the register is the register of.
pub fn set_of(register: &[u8]) -> Result<Set, u8> {
    Ok(judge(register)?.set())
}

/// Gives the place in the register, counted from 0, where the 32 digest bytes of the key's value
/// begin, and the codec.
pub fn lookup(register: &[u8], key: &[u8]) -> Result<(usize, Codec), u8> {
    let records = judge(register)?.records;
    lawful_key(key)?;
    match records.binary_search_by(|record| record.key.as_slice().cmp(key)) {
        Ok(n) => Ok((records[n].place, records[n].value.codec)),
        Err(_) => Err(KEY_ABSENT),
    }
}

/// Writes the key and the value of the n-th record in key order, n from 0. Gives the key's
/// length, or 0 past the end.
pub fn list(register: &[u8], n: u64, out: &mut [u8], value: &mut ValueBytes) -> Result<usize, u8> {
    out.fill(0);
    value.fill(0);
    let records = judge(register)?.records;
    let record = usize::try_from(n).ok().and_then(|n| records.get(n));
    match record {
        Some(record) => write_record(record, out, value),
        None => Ok(0),
    }
}

/// Writes the key and the value of the first record at or after the key. Gives the length of the
/// record's key.
pub fn at_or_after(
    register: &[u8],
    key: &[u8],
    out: &mut [u8],
    value: &mut ValueBytes,
) -> Result<usize, u8> {
    out.fill(0);
    value.fill(0);
    let records = judge(register)?.records;
    lawful_key(key)?;
    let found = records.iter().find(|record| record.key.as_slice() >= key);
    write_record(found.ok_or(KEY_ABSENT)?, out, value)
}

/// Writes the key and the value of the last record before the key. Gives the length of the
/// record's key.
pub fn before(
    register: &[u8],
    key: &[u8],
    out: &mut [u8],
    value: &mut ValueBytes,
) -> Result<usize, u8> {
    out.fill(0);
    value.fill(0);
    let records = judge(register)?.records;
    lawful_key(key)?;
    let mut from_the_last = records.iter().rev();
    let found = from_the_last.find(|record| record.key.as_slice() < key);
    write_record(found.ok_or(KEY_ABSENT)?, out, value)
}

/// Writes the register of the records from the first key up to and including the last. Gives the
/// table's length.
pub fn run(register: &[u8], first: &[u8], last: &[u8], out: &mut [u8]) -> Result<usize, u8> {
    out.fill(0);
    let set = judge(register)?.set();
    write(&run_of(set, first, last)?, out)
}

/// Writes the register in which the key has the value. Gives the table's length.
pub fn put(
    register: &[u8],
    head: &mut Head,
    key: &[u8],
    value: &[u8],
    out: &mut [u8],
) -> Result<usize, u8> {
    out.fill(0);
    let set = judge_with_head(register, head)?;
    write_and_move(&put_in(set, key, value)?, head, out)
}

/// Writes the register without the key's record. Gives the table's length.
pub fn remove(register: &[u8], head: &mut Head, key: &[u8], out: &mut [u8]) -> Result<usize, u8> {
    out.fill(0);
    let set = judge_with_head(register, head)?;
    write_and_move(&remove_from(set, key)?, head, out)
}

/// Writes the register with the record, where a present key keeps the greater of two values.
/// Gives the table's length.
pub fn join(
    register: &[u8],
    head: &mut Head,
    key: &[u8],
    value: &[u8],
    out: &mut [u8],
) -> Result<usize, u8> {
    out.fill(0);
    let set = judge_with_head(register, head)?;
    write_and_move(&join_in(set, key, value)?, head, out)
}

/// Writes the first register with all records of the second joined. Gives the table's length. The
/// head is that of the first register.
pub fn merge(first: &[u8], head: &mut Head, second: &[u8], out: &mut [u8]) -> Result<usize, u8> {
    out.fill(0);
    let first = judge_with_head(first, head)?;
    let second = judge(second)?.set();
    write_and_move(&merge_in(first, &second), head, out)
}

/// Judges the register, and then the head that is lent with it. Gives the set.
fn judge_with_head(register: &[u8], head: &Head) -> Result<Set, u8> {
    let accepted = judge(register)?;
    if accepted.head() != *head {
        return Err(UNTRUE_HEAD);
    }
    Ok(accepted.set())
}

/// Writes the register of all records in opened pages of the second that the first does not hold,
/// key and value. Gives the table's length and the number of opened pages.
pub fn difference(first: &[u8], second: &[u8], out: &mut [u8]) -> Result<(usize, usize), u8> {
    out.fill(0);
    let first = judge(first)?;
    let second = judge(second)?;

    // A page of the second is known when its digest is that of some page of the first. It is
    // opened when neither it nor a page above it is known.
    let pages = first.root.in_table_order();
    let known: HashSet<Digest> = pages.into_iter().map(digest_of).collect();
    let mut opened = Vec::new();
    open(&second.root, &known, &mut opened);

    let held = first.set();
    let lacking = |record: &Record| held.get(&record.key) != Some(&record.value);
    let set: Set = opened
        .iter()
        .flat_map(|page| page.own_records())
        .filter(lacking)
        .map(|record| (record.key, record.value))
        .collect();
    Ok((write(&set, out)?, opened.len()))
}

/// Adds the opened pages among the page and those below it, in table order.
fn open<'p, 'a>(
    page: &'p ReadPage<'a>,
    known: &HashSet<Digest>,
    opened: &mut Vec<&'p ReadPage<'a>>,
) {
    if known.contains(&digest_of(page)) {
        return;
    }
    opened.push(page);
    for child in page.children() {
        open(child, known, opened);
    }
}

/// Gives the digest of a page in an accepted register: that in the link to it is right.
fn digest_of(page: &ReadPage) -> Digest {
    match page.linked_as {
        Some(digest) => *digest,
        None => sha256(page.bytes),
    }
}

/// Writes the register of the records on the n-th screen of the collection, n from 0. Gives the
/// table's length and the number of the collection's screens.
pub fn screen(
    register: &[u8],
    collection: &[u8],
    n: u64,
    out: &mut [u8],
) -> Result<(usize, usize), u8> {
    out.fill(0);
    let set = judge(register)?.set();
    let (shown, screens) = screen_of(set, collection, n)?;
    Ok((write(&shown, out)?, screens))
}

/// Writes the pages that a search for the key opens, from the root on. Gives the path's length.
pub fn path(register: &[u8], key: &[u8], out: &mut [u8]) -> Result<usize, u8> {
    out.fill(0);
    let root = judge(register)?.root;
    lawful_key(key)?;
    let mut opened = vec![root.bytes];
    let mut page = &root;
    while let Sought::Gap(Below(Some(next))) = page.search(key) {
        opened.push(next.bytes);
        page = next;
    }
    write_bytes(&opened.concat(), out)
}

/// Judges what a path says of the key, to one who holds the root's digest. Gives the place in the
/// path, counted from 0, where the 32 digest bytes of the key's value begin, and the codec, or none
/// where the key is absent.
pub fn verify(path: &[u8], key: &[u8], root: &[u8]) -> Result<Option<(usize, Codec)>, u8> {
    let mut reader = Reader::new(path)?;
    lawful_key(key)?;
    let root: &Digest = root.try_into().map_err(|_| WRONG_VALUE)?;

    let (mut depth, mut digest) = (1, root);
    let found = loop {
        let page = reader.page_alone(depth, Some(digest))?;
        page.judge_alone()?;
        match page.search(key) {
            Sought::Entry(place, codec) => break Some((place, codec)),
            Sought::Gap(None) => break None,
            Sought::Gap(Some(next)) => digest = next,
        }
        depth += 1;
    };
    reader.end()?;
    Ok(found)
}

/// Takes the records on the n-th screen of the collection out of a set, n from 0. Gives the number
/// of the collection's screens as well.
pub fn screen_of(set: Set, collection: &[u8], n: u64) -> Result<(Set, usize), u8> {
    if !is_collection(collection) {
        return Err(UNLAWFUL_KEY);
    }
    let is_in = |key: &[u8]| collection_of(key) == Some(collection);
    let records: Vec<(Vec<u8>, Value)> = set.into_iter().filter(|(key, _)| is_in(key)).collect();
    let mut screens: Vec<&[(Vec<u8>, Value)]> = records.chunks(PER_SCREEN).collect();
    // A collection without records has one screen without records.
    if screens.is_empty() {
        screens.push(&[]);
    }
    let n = usize::try_from(n).map_err(|_| NO_SUCH_SCREEN)?;
    let shown = screens.get(n).ok_or(NO_SUCH_SCREEN)?;
    Ok((shown.iter().cloned().collect(), screens.len()))
}

/// Takes the records from the first key up to and including the last out of a set.
pub fn run_of(mut set: Set, first: &[u8], last: &[u8]) -> Result<Set, u8> {
    lawful_key(first)?;
    lawful_key(last)?;
    if first > last {
        return Err(FIRST_AFTER_LAST);
    }
    set.retain(|key, _| first <= key.as_slice() && key.as_slice() <= last);
    Ok(set)
}

/// Puts a record into a set.
pub fn put_in(mut set: Set, key: &[u8], value: &[u8]) -> Result<Set, u8> {
    lawful_key(key)?;
    let value = whole_value(value)?;
    set.insert(key.to_vec(), value);
    Ok(set)
}

/// Takes a record out of a set.
pub fn remove_from(mut set: Set, key: &[u8]) -> Result<Set, u8> {
    lawful_key(key)?;
    match set.remove(key) {
        Some(_) => Ok(set),
        None => Err(KEY_ABSENT),
    }
}

/// Joins a record with a set: a present key keeps the greater of two values.
pub fn join_in(mut set: Set, key: &[u8], value: &[u8]) -> Result<Set, u8> {
    lawful_key(key)?;
    let value = whole_value(value)?;
    join_record(&mut set, key, value);
    Ok(set)
}

/// Joins all records of the second set with the first.
pub fn merge_in(mut first: Set, second: &Set) -> Set {
    for (key, value) in second {
        join_record(&mut first, key, *value);
    }
    first
}

/// Gives an absent key the value, and a present one the greater of the two.
fn join_record(set: &mut Set, key: &[u8], value: Value) {
    let kept = set.entry(key.to_vec()).or_insert(value);
    *kept = value.max(*kept);
}

/// Gives the table of a resulting set, and its head, for an output of this length; or the number
/// that is due: 5 for the count, then 13 for the output.
pub fn result_table(set: &Set, output_length: usize) -> Result<(Vec<u8>, Head), u8> {
    if set.len() > MOST_RECORDS {
        return Err(TOO_MANY_RECORDS);
    }
    let (table, head) = table_and_head(set);
    if table.len() > output_length || table.len() > LONGEST {
        return Err(NO_ROOM);
    }
    Ok((table, head))
}

/// Writes the table of a resulting set into an output of zeros. Gives the table's length.
fn write(set: &Set, out: &mut [u8]) -> Result<usize, u8> {
    let (table, _) = result_table(set, out.len())?;
    write_bytes(&table, out)
}

/// Writes the table of a resulting set into an output of zeros, and moves the head to the set's.
/// Gives the table's length.
fn write_and_move(set: &Set, head: &mut Head, out: &mut [u8]) -> Result<usize, u8> {
    let (table, new) = result_table(set, out.len())?;
    *head = new;
    write_bytes(&table, out)
}

/// Writes the key and the value of a record into outputs of zeros. Gives the key's length.
fn write_record(record: &Record, out: &mut [u8], value: &mut ValueBytes) -> Result<usize, u8> {
    let length = write_bytes(&record.key, out)?;
    *value = record.value.bytes();
    Ok(length)
}

/// Writes the bytes into an output of zeros. Gives their number.
fn write_bytes(bytes: &[u8], out: &mut [u8]) -> Result<usize, u8> {
    let start = out.get_mut(..bytes.len()).ok_or(NO_ROOM)?;
    start.copy_from_slice(bytes);
    Ok(bytes.len())
}

/// Number 7 for a key argument.
fn lawful_key(key: &[u8]) -> Result<(), u8> {
    if lawful(key) {
        Ok(())
    } else {
        Err(UNLAWFUL_KEY)
    }
}

/// Number 11 for a value argument.
fn whole_value(value: &[u8]) -> Result<Value, u8> {
    Value::of_bytes(value).ok_or(WRONG_VALUE)
}
