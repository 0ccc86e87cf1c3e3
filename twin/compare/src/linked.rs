//! Calls the library that build.rs links into this program.

use crate::face::{Numbers, Operation};

extern "C" {
    fn gristvalley_read(book: *const u8, len: usize, out: *mut u64, room: usize) -> bool;
    fn gristvalley_judge(
        book: *const u8,
        len: usize,
        choice: u32,
        out: *mut u64,
        room: usize,
    ) -> bool;
    fn gristvalley_contract(
        book: *const u8,
        len: usize,
        choice: u32,
        out: *mut u64,
        room: usize,
    ) -> bool;
    fn gristvalley_close(
        book: *const u8,
        len: usize,
        choice: u32,
        out: *mut u64,
        room: usize,
    ) -> bool;
    fn gristvalley_ask(
        book: *const u8,
        len: usize,
        choice: u32,
        span: u32,
        out: *mut u64,
        room: usize,
    ) -> bool;
    fn gristvalley_ask_set(
        book: *const u8,
        len: usize,
        choice: u32,
        low: u64,
        high: u64,
        out: *mut u64,
        room: usize,
    ) -> bool;
    fn gristvalley_search(
        book: *const u8,
        len: usize,
        limit: u32,
        out: *mut u64,
        room: usize,
    ) -> bool;
    fn gristvalley_write(
        book: *const u8,
        len: usize,
        choice: u32,
        bytes: *mut u8,
        bytes_len: usize,
        out: *mut u64,
        room: usize,
    ) -> bool;
}

/// Makes a call of the library. It is inlined where the operation is known, so that a caller who takes the time pays for no choice among eight.
#[inline]
pub fn call(
    operation: Operation,
    numbers: Numbers,
    book: &[u8],
    bytes: &mut [u8],
    out: &mut [u64],
) -> bool {
    let [first, second, third] = numbers;
    let (book, len) = (book.as_ptr(), book.len());
    let (out, room) = (out.as_mut_ptr(), out.len());
    // A slice of Rust is a pointer that is not null, to as many as its length says; one that is lent to be written shares nothing with another. That is
    // all that the functions ask, so every call below is sound.
    unsafe {
        match operation {
            Operation::Read => gristvalley_read(book, len, out, room),
            Operation::Judge => gristvalley_judge(book, len, first as u32, out, room),
            Operation::Contract => gristvalley_contract(book, len, first as u32, out, room),
            Operation::Close => gristvalley_close(book, len, first as u32, out, room),
            Operation::Ask => gristvalley_ask(book, len, first as u32, second as u32, out, room),
            Operation::AskSet => {
                gristvalley_ask_set(book, len, first as u32, second, third, out, room)
            }
            Operation::Search => gristvalley_search(book, len, first as u32, out, room),
            Operation::Write => {
                let (bytes, bytes_len) = (bytes.as_mut_ptr(), bytes.len());
                gristvalley_write(book, len, first as u32, bytes, bytes_len, out, room)
            }
        }
    }
}
