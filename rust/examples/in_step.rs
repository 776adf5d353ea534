//! Keeps a tablet and a store in step: each is sent the difference of the other and merges it. Each
//! keeps the head of its register, so that its count and its root digest are at hand after every
//! call. At the end both heads are the same.
//!
//!     cargo run --release --example in_step

use mijdegen::{check, difference, digest, merge, put, Head, Refusal, Value, LONGEST};

/// The empty register is one page without entries and without a link.
const EMPTY: &[u8] = b"\xa2\x61e\x80\x61l\xf6";

fn main() -> Result<(), Refusal> {
    // Both know 500 records. Then the tablet writes 4 more and the store 3 more, and one record
    // is written anew on both sides: the greater of its two values will be kept.
    let mut tablet = Kept::new(EMPTY)?;
    for number in 0..500 {
        tablet.put(&format!("visit/{number:04}"), "known to both")?;
    }
    let mut store = tablet.clone();
    for name in ["visit/0500", "visit/0501", "note/a", "note/b", "visit/0123"] {
        tablet.put(name, "from the tablet")?;
    }
    for name in ["visit/0502", "list/x", "list/y", "visit/0123"] {
        store.put(name, "from the store")?;
    }
    tell("the tablet", &tablet);
    tell("the store", &store);

    let to_tablet = sent("the tablet", &tablet, "the store", &store)?;
    let to_store = sent("the store", &store, "the tablet", &tablet)?;
    tablet.merge(&to_tablet)?;
    store.merge(&to_store)?;

    tell("the tablet", &tablet);
    tell("the store", &store);
    assert_eq!(tablet.head, store.head);
    assert_eq!(tablet.register, store.register);
    Ok(())
}

/// A register, with its head beside it.
#[derive(Clone)]
struct Kept {
    register: Vec<u8>,
    head: Head,
}

impl Kept {
    /// Keeps a register that comes from elsewhere: its head is told by a check.
    fn new(register: &[u8]) -> Result<Kept, Refusal> {
        Ok(Kept {
            register: register.to_vec(),
            head: check(register)?,
        })
    }

    /// Puts a record, whose block is this text. The head moves on with the register.
    fn put(&mut self, key: &str, block: &str) -> Result<(), Refusal> {
        let value = Value::dag_cbor(digest(block.as_bytes())?);
        self.register =
            written(|out| put(&self.register, &mut self.head, key.as_bytes(), &value, out))?;
        Ok(())
    }

    /// Merges the records of another register.
    fn merge(&mut self, other: &[u8]) -> Result<(), Refusal> {
        self.register = written(|out| merge(&self.register, &mut self.head, other, out))?;
        Ok(())
    }
}

/// Gives the records that the one lacks of the other, and says how much is sent.
fn sent(one: &str, held: &Kept, other: &str, whole: &Kept) -> Result<Vec<u8>, Refusal> {
    let mut opened = 0;
    let lacking = written(|out| {
        let found = difference(&held.register, &whole.register, out)?;
        opened = found.opened;
        Ok(found.length)
    })?;
    println!(
        "{one} is sent {} records in {} bytes, where {other} has {} bytes; pages opened: {opened}",
        check(&lacking)?.count,
        lacking.len(),
        whole.register.len(),
    );
    Ok(lacking)
}

/// Says what a register holds.
fn tell(name: &str, kept: &Kept) {
    println!("{name} has {} bytes: {}", kept.register.len(), kept.head);
}

/// Gives what a call writes. An output of this length has room for each register.
fn written(call: impl FnOnce(&mut [u8]) -> Result<usize, Refusal>) -> Result<Vec<u8>, Refusal> {
    let mut out = vec![0; LONGEST];
    let length = call(&mut out)?;
    out.truncate(length);
    Ok(out)
}
