//! The C functions of the library, each behind a safe function. All unsafe code of the crate is
//! in this module; the functions are declared in `c`.
//!
//! What every call relies on: the library reads the bytes of its inputs, as many as their lengths
//! say, and no others, writes the outputs and the heads it is lent and nothing else, keeps no
//! pointer and no state from one call to the next, and returns from every call.

use crate::c::*;
use crate::Head;

/// Writes the digest of the input, or zeros on refusal, and gives the answer.
pub(crate) fn digest(input: &[u8], out: &mut [u8; 32]) -> u64 {
    // SAFETY: The pointer and the length are of one slice, so that many bytes can be read for
    // the whole call. The pointer of an empty slice may lead nowhere, but at length 0 it is not
    // read. A mutable reference to an array of 32 bytes is one pointer, without a length, to 32
    // bytes that can be written; being mutable, it shares no byte with the input.
    unsafe { mijdegen_digest(input.as_ptr(), input.len(), out) }
}

/// Gives the answer that holds the layer of the input.
pub(crate) fn layer(input: &[u8]) -> u64 {
    // SAFETY: The pointer and the length are of one slice, so that many bytes can be read for
    // the whole call. The pointer of an empty slice may lead nowhere, but at length 0 it is not
    // read. Nothing is written.
    unsafe { mijdegen_layer(input.as_ptr(), input.len()) }
}

/// Gives the answer that holds the number of bytes before the key's slash.
pub(crate) fn slash(key: &[u8]) -> u64 {
    // SAFETY: As for `layer`.
    unsafe { mijdegen_slash(key.as_ptr(), key.len()) }
}

/// Writes the head of the register, or one of zeros on refusal, and gives the answer.
pub(crate) fn check(register: &[u8], head: &mut Head) -> u64 {
    // SAFETY: As for `layer`, but the head is written. It is one pointer to 40 bytes in the form of
    // the library; being mutable, it shares no byte with the register.
    unsafe { mijdegen_check(register.as_ptr(), register.len(), head) }
}

/// Gives the answer that holds the place of the key's value in the register, and its codec.
pub(crate) fn lookup(register: &[u8], key: &[u8]) -> u64 {
    // SAFETY: As for `layer`, with two slices. Both are only read, so they may share bytes.
    unsafe { mijdegen_lookup(register.as_ptr(), register.len(), key.as_ptr(), key.len()) }
}

/// Writes the key and the value of the n-th record, or zeros on refusal and past the end, and
/// gives the answer that holds the key's length. A value is a codec and 32 digest bytes.
pub(crate) fn list(register: &[u8], n: u64, out: &mut [u8], value: &mut [u8; 33]) -> u64 {
    // SAFETY: Each pointer and its length are of one slice, so that many bytes can be read, or
    // written, for the whole call. The pointer of an empty slice may lead nowhere, but at length
    // 0 it is neither read nor written. The value is one pointer to 33 bytes that can be
    // written. Being mutable, the two outputs share no byte with each other or the register.
    unsafe {
        mijdegen_list(
            register.as_ptr(),
            register.len(),
            n,
            out.as_mut_ptr(),
            out.len(),
            value,
        )
    }
}

/// Writes the key and the value of the first record at or after the key, or zeros on refusal, and
/// gives the answer that holds the length of the record's key.
pub(crate) fn at_or_after(
    register: &[u8],
    key: &[u8],
    out: &mut [u8],
    value: &mut [u8; 33],
) -> u64 {
    // SAFETY: As for `list`, with two slices that are only read, so that they may share bytes.
    unsafe {
        mijdegen_at_or_after(
            register.as_ptr(),
            register.len(),
            key.as_ptr(),
            key.len(),
            out.as_mut_ptr(),
            out.len(),
            value,
        )
    }
}

/// Writes the key and the value of the last record before the key, or zeros on refusal, and gives
/// the answer that holds the length of the record's key.
pub(crate) fn before(register: &[u8], key: &[u8], out: &mut [u8], value: &mut [u8; 33]) -> u64 {
    // SAFETY: As for `at_or_after`.
    unsafe {
        mijdegen_before(
            register.as_ptr(),
            register.len(),
            key.as_ptr(),
            key.len(),
            out.as_mut_ptr(),
            out.len(),
            value,
        )
    }
}

/// Writes the register of the records from the first key up to and including the last, or zeros
/// on refusal, and gives the answer that holds the table's length.
pub(crate) fn run(register: &[u8], first: &[u8], last: &[u8], out: &mut [u8]) -> u64 {
    // SAFETY: Each pointer and its length are of one slice, so that many bytes can be read, or
    // written, for the whole call. The pointer of an empty slice may lead nowhere, but at length
    // 0 it is neither read nor written. The inputs are only read, so they may share bytes. Being
    // mutable, the output shares no byte with them.
    unsafe {
        mijdegen_run(
            register.as_ptr(),
            register.len(),
            first.as_ptr(),
            first.len(),
            last.as_ptr(),
            last.len(),
            out.as_mut_ptr(),
            out.len(),
        )
    }
}

/// Writes the register in which the key has the value, and its head, and gives the answer that
/// holds the table's length. On refusal zeros are written, and the head stays as it is.
pub(crate) fn put(
    register: &[u8],
    head: &mut Head,
    key: &[u8],
    value: &[u8],
    out: &mut [u8],
) -> u64 {
    // SAFETY: As for `run`. The head is one pointer to 40 bytes in the form of the library, which
    // can be read and written; being mutable, it shares no byte with the output or an input.
    unsafe {
        mijdegen_put(
            register.as_ptr(),
            register.len(),
            head,
            key.as_ptr(),
            key.len(),
            value.as_ptr(),
            value.len(),
            out.as_mut_ptr(),
            out.len(),
        )
    }
}

/// Writes the register with the record joined, and its head, as `put` does.
pub(crate) fn join(
    register: &[u8],
    head: &mut Head,
    key: &[u8],
    value: &[u8],
    out: &mut [u8],
) -> u64 {
    // SAFETY: As for `put`.
    unsafe {
        mijdegen_join(
            register.as_ptr(),
            register.len(),
            head,
            key.as_ptr(),
            key.len(),
            value.as_ptr(),
            value.len(),
            out.as_mut_ptr(),
            out.len(),
        )
    }
}

/// Writes the register without the key's record, and its head, as `put` does.
pub(crate) fn remove(register: &[u8], head: &mut Head, key: &[u8], out: &mut [u8]) -> u64 {
    // SAFETY: As for `put`.
    unsafe {
        mijdegen_remove(
            register.as_ptr(),
            register.len(),
            head,
            key.as_ptr(),
            key.len(),
            out.as_mut_ptr(),
            out.len(),
        )
    }
}

/// Writes the first register with all records of the second joined, and its head, as `put` does.
/// The head that is lent is that of the first register.
pub(crate) fn merge(first: &[u8], head: &mut Head, second: &[u8], out: &mut [u8]) -> u64 {
    // SAFETY: As for `put`.
    unsafe {
        mijdegen_merge(
            first.as_ptr(),
            first.len(),
            head,
            second.as_ptr(),
            second.len(),
            out.as_mut_ptr(),
            out.len(),
        )
    }
}

/// Writes the register of the records that the second register holds and the first does not, or
/// zeros on refusal, and gives the answer that holds the table's length and the number of opened
/// pages.
pub(crate) fn difference(first: &[u8], second: &[u8], out: &mut [u8]) -> u64 {
    // SAFETY: As for `run`.
    unsafe {
        mijdegen_difference(
            first.as_ptr(),
            first.len(),
            second.as_ptr(),
            second.len(),
            out.as_mut_ptr(),
            out.len(),
        )
    }
}

/// Writes the register of the records on the n-th screen of the collection, or zeros on refusal,
/// and gives the answer that holds the table's length and the number of screens.
pub(crate) fn screen(register: &[u8], collection: &[u8], n: u64, out: &mut [u8]) -> u64 {
    // SAFETY: As for `run`.
    unsafe {
        mijdegen_screen(
            register.as_ptr(),
            register.len(),
            collection.as_ptr(),
            collection.len(),
            n,
            out.as_mut_ptr(),
            out.len(),
        )
    }
}

/// Writes the pages that a search for the key opens in the register, or zeros on refusal, and gives
/// the answer that holds the length of the path.
pub(crate) fn path(register: &[u8], key: &[u8], out: &mut [u8]) -> u64 {
    // SAFETY: As for `run`.
    unsafe {
        mijdegen_path(
            register.as_ptr(),
            register.len(),
            key.as_ptr(),
            key.len(),
            out.as_mut_ptr(),
            out.len(),
        )
    }
}

/// Gives the answer that holds the place of the key's value in the path, and its codec, or 0 where
/// the path says that the key is absent.
pub(crate) fn verify(path: &[u8], key: &[u8], root: &[u8]) -> u64 {
    // SAFETY: As for `layer`, with three slices. All are only read, so they may share bytes.
    unsafe {
        mijdegen_verify(
            path.as_ptr(),
            path.len(),
            key.as_ptr(),
            key.len(),
            root.as_ptr(),
            root.len(),
        )
    }
}
