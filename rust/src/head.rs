//! The head of a register.

use crate::Digest;
use core::fmt;

/// What a caller keeps beside a register: how many records it has, and where its root stands.
///
/// [`check`](crate::check) gives the head of a register. [`put`](crate::put),
/// [`join`](crate::join), [`remove`](crate::remove) and [`merge`](crate::merge) are lent it and
/// move it on to the register that they write. A head is true of a register when all three fields
/// are. The fields are there to be read; one that is set otherwise makes the head untrue, and the
/// next call refuses it.
///
/// It is displayed in one line:
///
/// ```
/// let head = mijdegen::check(b"\xa2\x61e\x80\x61l\xf6")?;
/// assert_eq!(
///     head.to_string(),
///     "0 records, layer 0, \
///      root 9dfefe61dd76ea3dcae5023880b08379d57adf20482d6fdbe2759289f647677b"
/// );
/// # Ok::<(), mijdegen::Refusal>(())
/// ```
#[derive(Clone, Copy, Debug, PartialEq, Eq, Hash)]
#[repr(C)]
pub struct Head {
    /// The count of the records, from 0 to 4,096.
    pub count: u32,
    /// The layer of the root: the highest layer of any key, and 0 where there are no records.
    pub layer: u32,
    /// The SHA-256 digest of the root page, which is the first page of the register.
    pub digest: Digest,
}

// The library reads and writes these 40 bytes.
const _: () = assert!(size_of::<Head>() == 40 && align_of::<Head>() == 4);

impl fmt::Display for Head {
    fn fmt(&self, formatter: &mut fmt::Formatter<'_>) -> fmt::Result {
        let records = if self.count == 1 { "record" } else { "records" };
        write!(
            formatter,
            "{} {records}, layer {}, root ",
            self.count, self.layer
        )?;
        for byte in self.digest {
            write!(formatter, "{byte:02x}")?;
        }
        Ok(())
    }
}
