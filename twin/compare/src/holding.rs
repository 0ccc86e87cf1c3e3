//! Holding the two against each other on one book: every operation, with numbers in range and out of it.

use crate::face;
use crate::wanted::{self, Nine};
use std::collections::BTreeMap;
use std::fmt::Debug;
use twin::book::MOST_SPANS;
use twin::generate::{numbers, Random};
use twin::numbering::total;
use twin::searching::{search_book, Answer};
use twin::writing::{chosen_book, encode};
use twin::{Book, Contracted, Refusal, Verdict};

/// How many answers there were of each kind: by operation, kind, and number of refusal.
pub type Counts = BTreeMap<(&'static str, u64, u64), u64>;

/// The most trials that a search may take on most books, and on a few.
const MOST_TRIALS: [u32; 2] = [300, 5000];

/// One book, and what came of holding the two against each other on it.
struct Holding<'a> {
    bytes: &'a [u8],
    read: Result<Book, Refusal>,
    random: Random,
    counts: &'a mut Counts,
    differences: Vec<String>,
}

/// Tries every operation on a book, and gives the differences.
pub fn hold(bytes: &[u8], seed: u64, counts: &mut Counts) -> Vec<String> {
    let mut holding = Holding {
        bytes,
        read: twin::read(bytes),
        random: Random::new(seed),
        counts,
        differences: Vec::new(),
    };
    holding.all();
    holding.differences
}

/// The verdict on a choice and its score, which the twin tells one by one.
fn judged(bytes: &[u8], choice: u32) -> Result<(Verdict, (u32, u32)), Refusal> {
    Ok((twin::judge(bytes, choice)?, twin::score(bytes, choice)?))
}

impl Holding<'_> {
    /// A pattern, so that a place which is written by mistake is seen.
    fn pattern(&mut self, length: usize) -> Vec<u64> {
        (0..length).map(|_| self.random.bits()).collect()
    }

    /// Makes a call and compares all that it leaves in `out` with the numbers wanted.
    fn same(
        &mut self,
        name: &'static str,
        input: &dyn Debug,
        wanted: Nine,
        call: impl FnOnce(&[u8], &mut [u64]) -> bool,
    ) {
        *self.counts.entry((name, wanted[0], wanted[1])).or_default() += 1;
        let length = *self.random.pick(&[9, 9, 9, 10, 10, 20, 8, 0]);
        let before = self.pattern(length);
        let mut expected = before.clone();
        if let Some(front) = expected.get_mut(..9) {
            front.copy_from_slice(&wanted);
        }
        let mut out = before;
        let room = call(self.bytes, &mut out);
        if room != (length >= 9) || out != expected {
            let line = format!(
                "{name} {input:?}, out of {length}: {expected:?} by the twin, and {room} {out:?}"
            );
            self.differences.push(line);
        }
    }

    /// Numbers of choices and spans, and limits, in range and out of it; the same few where the book is refused.
    fn drawn(&mut self) -> (Vec<u32>, Vec<u32>, Vec<u32>) {
        let Ok(book) = &self.read else {
            return (
                vec![0, self.random.bits() as u32],
                vec![0],
                vec![0, u32::MAX],
            );
        };
        let total = total(book);
        let spans = book.spans.len() as u32;
        let first = numbers(&mut self.random, book);
        let second = numbers(&mut self.random, book);
        let choices = vec![
            0,
            first.choice,
            second.choice,
            total - 1,
            *self.random.pick(&[total, u32::MAX]),
        ];
        let last = *self
            .random
            .pick(&[spans.saturating_sub(1), spans, u32::MAX]);
        let limits = self.limits(total);
        (choices, vec![first.span, second.span, last], limits)
    }

    /// Trial limits around 0, T and the highest number; the last two only where the search is short all the same.
    fn limits(&mut self, total: u32) -> Vec<u32> {
        let most = MOST_TRIALS[usize::from(self.random.chance(2))];
        let few = self.random.below(most as usize) as u32;
        let found = match &self.read {
            Ok(book) => search_book(book, most / 4),
            Err(_) => return vec![0],
        };
        let mut limits = vec![self.random.below(3) as u32];
        if let Answer::Found { choice, .. } = found {
            limits.extend([
                choice,
                choice + 1,
                *self.random.pick(&[total - 1, total, total + 1, u32::MAX]),
            ]);
        } else if total <= most {
            limits.push(
                *self
                    .random
                    .pick(&[total - 1, total, total + 1, u32::MAX, few]),
            );
        } else {
            limits.push(few);
        }
        limits
    }

    /// Counts what contraction comes to: nothing merged, something merged, and more than one piece left though the verdict is OK.
    fn count_pieces(&mut self, answer: &Result<Contracted, Refusal>) {
        let Ok(told) = answer else { return };
        let merged = if told.merges == 0 { 1 } else { 2 };
        *self.counts.entry(("pieces", merged, 0)).or_default() += 1;
        if told.verdict == Verdict::Okay && told.pieces.len() > 1 {
            *self.counts.entry(("pieces", 3, 0)).or_default() += 1;
        }
    }

    /// Draws a set of spans, as two words: of none, one, a few or up to half of them, and at times with a number that is not below the count.
    fn set(&mut self) -> (u64, u64) {
        let book = self.read.as_ref();
        let spans = book.map_or(MOST_SPANS, |book| book.spans.len());
        let many = match self.random.below(6) {
            0 => 0,
            1 => 1,
            2..=4 => self.random.between(2, 5),
            _ => self.random.below(2 + spans / 2),
        };
        let mut set: u128 = 0;
        for _ in 0..many.min(spans) {
            set |= 1 << self.random.below(spans);
        }
        if spans < MOST_SPANS && self.random.chance(15) {
            let beyond = self.random.between(spans, MOST_SPANS - 1);
            set |= 1 << *self.random.pick(&[spans, beyond]);
        }
        (set as u64, (set >> 64) as u64)
    }

    /// Counts what a set comes to: all stations joined, some parted, and any answer about spans of both words.
    fn count_set(&mut self, answer: &Result<(u64, bool), Refusal>, low: u64, high: u64) {
        let Ok((_, whole)) = answer else { return };
        let told = if *whole { 1 } else { 2 };
        *self.counts.entry(("sets", told, 0)).or_default() += 1;
        if low != 0 && high != 0 {
            *self.counts.entry(("sets", 3, 0)).or_default() += 1;
        }
    }

    /// Asks about a set of spans in a choice.
    fn asked_set(&mut self, choice: u32) {
        let (low, high) = self.set();
        let asked = twin::ask_set(self.bytes, choice, low, high);
        self.count_set(&asked, low, high);
        let asked = wanted::asked(asked);
        self.same("ask_set", &(choice, low, high), asked, |s, out| {
            face::ask_set(s, choice, low, high, out)
        });
    }

    /// Judges a choice in every way: with spans out, by contraction, and with nodes closed.
    fn judged(&mut self, choice: u32) {
        let judged = wanted::judged(judged(self.bytes, choice));
        self.same("judge", &[choice], judged, |s, out| {
            face::judge(s, choice, out)
        });
        let contracted = twin::contract(self.bytes, choice);
        self.count_pieces(&contracted);
        let contracted = wanted::contracted(contracted);
        if contracted[..7] != judged[..7] {
            self.differences
                .push(format!("contract {choice} is not judge {choice}"));
        }
        self.same("contract", &[choice], contracted, |s, out| {
            face::contract(s, choice, out)
        });
        let closed = wanted::closed(twin::site(self.bytes, choice));
        self.same("close", &[choice], closed, |s, out| {
            face::close(s, choice, out)
        });
    }

    /// Every operation.
    fn all(&mut self) {
        let read = wanted::read(self.read.as_ref().map_err(|refusal| *refusal));
        self.same("read", &(), read, face::read);
        let (choices, spans, limits) = self.drawn();
        for &choice in &choices {
            self.judged(choice);
        }
        for &choice in &choices[1..] {
            self.written(choice);
        }
        for (&choice, &span) in choices[1..].iter().zip(&spans) {
            let asked = wanted::asked(twin::ask(self.bytes, choice, span));
            self.same("ask", &[choice, span], asked, |s, out| {
                face::ask(s, choice, span, out)
            });
        }
        for &limit in &limits {
            let searched = wanted::searched(twin::search(self.bytes, limit));
            self.same("search", &[limit], searched, |s, out| {
                face::search(s, limit, out)
            });
        }
        for &choice in &choices {
            self.asked_set(choice);
        }
    }

    /// Writes a choice into buffers of exactly its length, one byte shorter, empty, and longer, and compares every byte.
    fn written(&mut self, choice: u32) {
        let exact = match &self.read {
            Ok(book) => encode(&chosen_book(book, choice.min(total(book) - 1))).len(),
            Err(_) => self.bytes.len().max(1),
        };
        let longer = exact + self.random.between(1, 200);
        for length in [exact, exact - 1, 0, longer] {
            let mut by_twin: Vec<u8> = self
                .pattern(length)
                .iter()
                .map(|&bits| bits as u8)
                .collect();
            let mut bytes = by_twin.clone();
            let written = wanted::written(twin::write(self.bytes, choice, &mut by_twin));
            self.same("write", &[choice, length as u32], written, |s, out| {
                face::write(s, choice, &mut bytes, out)
            });
            if bytes != by_twin {
                self.differences
                    .push(format!("write {choice} into {length}: other bytes"));
            }
        }
    }
}
