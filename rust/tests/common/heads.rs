//! Heads in the library's form: those of the crate `independent`, untrue ones, and heads in memory
//! as C has it.

use super::Random;
use independent::Set;
use mijdegen::Head;

/// The head that check writes where it refuses the register.
pub const ZEROS: Head = Head {
    count: 0,
    layer: 0,
    digest: [0; 32],
};

/// A head that is untrue of every register, since no key has such a layer.
pub const UNTRUE: Head = Head {
    count: 3,
    layer: 129,
    digest: [0x5a; 32],
};

/// Gives a head of the independent crate in the library's form.
pub fn in_library(head: independent::Head) -> Head {
    Head {
        count: head.count,
        layer: head.layer,
        digest: head.digest,
    }
}

/// Gives a head in the form of the independent crate.
pub fn in_independent(head: &Head) -> independent::Head {
    independent::Head {
        count: head.count,
        layer: head.layer,
        digest: head.digest,
    }
}

/// Gives the head of the set.
pub fn head_of(set: &Set) -> Head {
    in_library(independent::head_of(set))
}

/// Gives the head of the register, or an untrue one where the register is refused.
pub fn head_for(register: &[u8]) -> Head {
    independent::check(register).map_or(UNTRUE, in_library)
}

/// Gives three heads that differ from the head in one field each.
pub fn three_untrue(head: &Head) -> [Head; 3] {
    let [mut count, mut layer, mut digest] = [*head; 3];
    count.count += 1;
    layer.layer += 1;
    digest.digest[31] ^= 1;
    [count, layer, digest]
}

/// Gives 324 heads that differ from the head in one field each: a number that is one more, one less
/// or another in one bit, or a digest that is another in one bit.
pub fn untrue_heads(head: &Head) -> Vec<Head> {
    let numbers = |number: u32| {
        let bits = (0..32).map(move |bit| number ^ 1 << bit);
        bits.chain([number.wrapping_add(1), number.wrapping_sub(1)])
    };
    let mut untrue = Vec::new();
    untrue.extend(numbers(head.count).map(|count| Head { count, ..*head }));
    untrue.extend(numbers(head.layer).map(|layer| Head { layer, ..*head }));
    for bit in 0..256 {
        let mut digest = head.digest;
        digest[bit / 8] ^= 1 << (bit % 8);
        untrue.push(Head { digest, ..*head });
    }
    untrue
}

/// Draws a head that is untrue where this one is true. It may be one of another register.
pub fn draw_untrue(random: &mut Random, head: &Head, other: &Head) -> Head {
    let mut untrue = *head;
    match random.below(8) {
        0 => untrue.count = head.count.wrapping_add(1),
        1 => untrue.count = head.count.wrapping_sub(1),
        2 => untrue.layer = head.layer.wrapping_add(1),
        3 => untrue.layer = head.layer.wrapping_sub(1),
        4 => untrue.digest[random.below(32)] ^= 1 << random.below(8),
        5 => untrue = ZEROS,
        _ => untrue = *other,
    }
    match untrue == *head {
        true => UNTRUE,
        false => untrue,
    }
}

/// The head that a call is lent, and the one that it leaves.
#[derive(Clone, Copy, Debug)]
pub struct Heads {
    pub lent: Head,
    pub after: Head,
}

impl Heads {
    /// The call leaves the head that it is lent.
    pub fn stay(lent: Head) -> Heads {
        Heads { lent, after: lent }
    }
}

/// How many words of 4 bytes a head has.
const WORDS: usize = 10;

/// A head as C has it, at an address that 4 divides, with other bytes before and after it.
pub struct SurroundedHead {
    buffer: Vec<u32>,
    before: Vec<u32>,
    start: usize,
}

impl SurroundedHead {
    /// Gives the head. The number decides whether 8 and 16 divide its address too.
    pub fn new(head: &Head, number: usize) -> SurroundedHead {
        const AROUND: usize = 16;
        let start = AROUND + number % 4;
        let other = |place: usize| 0x9e37_79b9_u32.wrapping_mul(place as u32 + 1);
        let mut buffer: Vec<u32> = (0..start + WORDS + AROUND).map(other).collect();
        buffer[start..start + WORDS].copy_from_slice(&words(head));
        SurroundedHead {
            before: buffer.clone(),
            buffer,
            start,
        }
    }

    /// Gives a pointer to the head. A write through it beside the head would be seen.
    pub fn start(&mut self) -> *mut Head {
        self.buffer.as_mut_ptr().wrapping_add(self.start).cast()
    }

    /// Gives the head, after a check that the bytes around it stayed as they were.
    pub fn contents(self) -> Head {
        let (start, end) = (self.start, self.start + WORDS);
        assert!(
            self.buffer[..start] == self.before[..start],
            "bytes before the head were changed"
        );
        assert!(
            self.buffer[end..] == self.before[end..],
            "bytes after the head were changed"
        );
        let mut digest = [0; 32];
        let words = &self.buffer[start..end];
        for (bytes, word) in digest.chunks_exact_mut(4).zip(&words[2..]) {
            bytes.copy_from_slice(&word.to_ne_bytes());
        }
        Head {
            count: words[0],
            layer: words[1],
            digest,
        }
    }
}

/// Gives the head as the header lays it out: the count, the layer, then the digest.
fn words(head: &Head) -> [u32; WORDS] {
    let mut words = [head.count; WORDS];
    words[1] = head.layer;
    for (word, bytes) in words[2..].iter_mut().zip(head.digest.chunks_exact(4)) {
        *word = u32::from_ne_bytes(bytes.try_into().expect("4 bytes"));
    }
    words
}
