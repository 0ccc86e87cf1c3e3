//! The proved library as safe functions on slices. Each stores the nine numbers of its answer in `out`, if there is room, and says so.

use crate::linked::call;

/// The operations, in the order of face.h.
#[derive(Clone, Copy, Debug)]
pub(crate) enum Operation {
    Read,
    Judge,
    Contract,
    Close,
    Ask,
    AskSet,
    Search,
    Write,
}

/// The numbers that an operation takes beside its slices, in the order of face.h, and then 0.
pub(crate) type Numbers = [u64; 3];

/// Reads a book.
pub fn read(book: &[u8], out: &mut [u64]) -> bool {
    call(Operation::Read, [0; 3], book, &mut [], out)
}

/// Judges a choice, and scores it.
pub fn judge(book: &[u8], choice: u32, out: &mut [u64]) -> bool {
    call(Operation::Judge, [choice.into(), 0, 0], book, &mut [], out)
}

/// Judges a choice by contraction.
pub fn contract(book: &[u8], choice: u32, out: &mut [u64]) -> bool {
    call(
        Operation::Contract,
        [choice.into(), 0, 0],
        book,
        &mut [],
        out,
    )
}

/// Judges a choice with its nodes closed one at a time.
pub fn close(book: &[u8], choice: u32, out: &mut [u64]) -> bool {
    call(Operation::Close, [choice.into(), 0, 0], book, &mut [], out)
}

/// Asks about a span of a choice.
pub fn ask(book: &[u8], choice: u32, span: u32, out: &mut [u64]) -> bool {
    call(
        Operation::Ask,
        [choice.into(), span.into(), 0],
        book,
        &mut [],
        out,
    )
}

/// Asks about a set of spans of a choice: bit i of `low` is for span i, and bit i of `high` for span 64 + i.
pub fn ask_set(book: &[u8], choice: u32, low: u64, high: u64, out: &mut [u64]) -> bool {
    call(
        Operation::AskSet,
        [choice.into(), low, high],
        book,
        &mut [],
        out,
    )
}

/// Searches the choices, at most `limit` of them.
pub fn search(book: &[u8], limit: u32, out: &mut [u64]) -> bool {
    call(Operation::Search, [limit.into(), 0, 0], book, &mut [], out)
}

/// Writes a choice into `bytes`.
pub fn write(book: &[u8], choice: u32, bytes: &mut [u8], out: &mut [u64]) -> bool {
    call(Operation::Write, [choice.into(), 0, 0], book, bytes, out)
}
