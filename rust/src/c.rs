//! The C functions of the library, as `include/mijdegen.h` declares them. A pointer to bytes comes
//! with their number.

// The tests compile this file as a module of their own.
use super::Head;

extern "C" {
    pub fn mijdegen_digest(input: *const u8, input_len: usize, out: *mut [u8; 32]) -> u64;
    pub fn mijdegen_layer(input: *const u8, input_len: usize) -> u64;
    pub fn mijdegen_slash(key: *const u8, key_len: usize) -> u64;
    pub fn mijdegen_check(reg: *const u8, reg_len: usize, head: *mut Head) -> u64;
    pub fn mijdegen_lookup(reg: *const u8, reg_len: usize, key: *const u8, key_len: usize) -> u64;
    pub fn mijdegen_list(
        reg: *const u8,
        reg_len: usize,
        n: u64,
        out: *mut u8,
        out_len: usize,
        value: *mut [u8; 33],
    ) -> u64;
    pub fn mijdegen_at_or_after(
        reg: *const u8,
        reg_len: usize,
        key: *const u8,
        key_len: usize,
        out: *mut u8,
        out_len: usize,
        value: *mut [u8; 33],
    ) -> u64;
    pub fn mijdegen_before(
        reg: *const u8,
        reg_len: usize,
        key: *const u8,
        key_len: usize,
        out: *mut u8,
        out_len: usize,
        value: *mut [u8; 33],
    ) -> u64;
    pub fn mijdegen_run(
        reg: *const u8,
        reg_len: usize,
        first: *const u8,
        first_len: usize,
        last: *const u8,
        last_len: usize,
        out: *mut u8,
        out_len: usize,
    ) -> u64;
    pub fn mijdegen_put(
        reg: *const u8,
        reg_len: usize,
        head: *mut Head,
        key: *const u8,
        key_len: usize,
        value: *const u8,
        value_len: usize,
        out: *mut u8,
        out_len: usize,
    ) -> u64;
    pub fn mijdegen_join(
        reg: *const u8,
        reg_len: usize,
        head: *mut Head,
        key: *const u8,
        key_len: usize,
        value: *const u8,
        value_len: usize,
        out: *mut u8,
        out_len: usize,
    ) -> u64;
    pub fn mijdegen_remove(
        reg: *const u8,
        reg_len: usize,
        head: *mut Head,
        key: *const u8,
        key_len: usize,
        out: *mut u8,
        out_len: usize,
    ) -> u64;
    pub fn mijdegen_merge(
        first: *const u8,
        first_len: usize,
        head: *mut Head,
        second: *const u8,
        second_len: usize,
        out: *mut u8,
        out_len: usize,
    ) -> u64;
    pub fn mijdegen_difference(
        first: *const u8,
        first_len: usize,
        second: *const u8,
        second_len: usize,
        out: *mut u8,
        out_len: usize,
    ) -> u64;
    pub fn mijdegen_screen(
        reg: *const u8,
        reg_len: usize,
        collection: *const u8,
        collection_len: usize,
        n: u64,
        out: *mut u8,
        out_len: usize,
    ) -> u64;
    pub fn mijdegen_path(
        reg: *const u8,
        reg_len: usize,
        key: *const u8,
        key_len: usize,
        out: *mut u8,
        out_len: usize,
    ) -> u64;
    pub fn mijdegen_verify(
        path: *const u8,
        path_len: usize,
        key: *const u8,
        key_len: usize,
        root: *const u8,
        root_len: usize,
    ) -> u64;
}
