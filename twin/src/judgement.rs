//! The judgement of one choice: verdict, score and the questions about a span and about several.

use crate::book::{Book, Refusal, MOST_SPANS};
use crate::joining;
use crate::numbering::{check_choice, Plan};
use crate::reading::read;

/// The answer about a choice: the first of the four kinds that holds.
#[derive(Clone, Copy, Debug, PartialEq, Eq)]
pub enum Verdict {
    /// The lowest span whose load exceeds its limit, with both.
    Over {
        /// The span.
        span: usize,
        /// How many lightpaths ride it.
        load: u32,
        /// How many may.
        limit: u32,
    },
    /// With all lightpaths up, some station is not joined.
    Split {
        /// The stations joined to the lowest one.
        side: u64,
    },
    /// The lowest span without whose lightpaths some station is not joined.
    Cut {
        /// The span.
        span: usize,
        /// The stations joined to the lowest one with that span out.
        side: u64,
    },
    /// None of these: the choice is acceptable.
    Okay,
}

/// The load of every span: how many chosen routes hold it.
pub fn loads(plan: &Plan) -> Vec<u32> {
    let mut loads = vec![0; plan.book.spans.len()];
    for route in &plan.routes {
        for &span in route.iter() {
            loads[usize::from(span)] += 1;
        }
    }
    loads
}

/// OVER, if some span's load exceeds its limit: the lowest such span.
pub fn over(plan: &Plan) -> Option<Verdict> {
    let loads = loads(plan);
    (0..loads.len()).find_map(|span| {
        let load = loads[span];
        let limit = u32::from(plan.book.spans[span].limit);
        (load > limit).then_some(Verdict::Over { span, load, limit })
    })
}

/// SPLIT or CUT, by joining: the intact network first, then each span out in turn.
fn parted(plan: &Plan) -> Option<Verdict> {
    let all = plan.book.station_set();
    let side = joining::side(plan, &[]);
    if side != all {
        return Some(Verdict::Split { side });
    }
    (0..plan.book.spans.len()).find_map(|span| {
        let side = joining::side(plan, &[span]);
        (side != all).then_some(Verdict::Cut { span, side })
    })
}

/// The verdict on a plan, by joining; OVER hides SPLIT and CUT.
pub fn verdict(plan: &Plan) -> Verdict {
    over(plan).or_else(|| parted(plan)).unwrap_or(Verdict::Okay)
}

/// F and Fc of a plan: pairs of lightpath and span that part its ends, and load above limits.
pub fn plan_score(plan: &Plan) -> (u32, u32) {
    let mut parting = 0;
    let mut excess = 0;
    let loads = loads(plan);
    for (number, span) in plan.book.spans.iter().enumerate() {
        let pieces = joining::pieces(plan, &[number]);
        for (rider, lightpath) in plan.book.lightpaths.iter().enumerate() {
            let (from, to) = (usize::from(lightpath.from), usize::from(lightpath.to));
            if plan.holds(rider, number) && !pieces.joined(from, to) {
                parting += 1;
            }
        }
        excess += loads[number].saturating_sub(u32::from(span.limit));
    }
    (parting, excess)
}

/// Reads a book for a call about one choice: the book's fault first, then 12.
pub fn read_for_choice(bytes: &[u8], choice: u32) -> Result<Book, Refusal> {
    let book = read(bytes)?;
    check_choice(&book, choice)?;
    Ok(book)
}

/// Judges one choice of a book.
pub fn judge(bytes: &[u8], choice: u32) -> Result<Verdict, Refusal> {
    let book = read_for_choice(bytes, choice)?;
    Ok(verdict(&Plan::new(&book, choice)))
}

/// Scores one choice of a book: F, then Fc.
pub fn score(bytes: &[u8], choice: u32) -> Result<(u32, u32), Refusal> {
    let book = read_for_choice(bytes, choice)?;
    Ok(plan_score(&Plan::new(&book, choice)))
}

/// What is refused of a question about a span that the book does not have.
const NO_SUCH_SPAN: Refusal = Refusal {
    number: 13,
    place: 0,
};

/// The side with some spans of a book out, and whether it holds all stations.
fn told(book: &Book, choice: u32, out: &[usize]) -> (u64, bool) {
    let side = joining::side(&Plan::new(book, choice), out);
    (side, side == book.station_set())
}

/// The question about one span: the side with it out, and whether that holds all stations.
pub fn ask(bytes: &[u8], choice: u32, span: u32) -> Result<(u64, bool), Refusal> {
    let book = read_for_choice(bytes, choice)?;
    let span = span as usize;
    if span >= book.spans.len() {
        return Err(NO_SUCH_SPAN);
    }
    Ok(told(&book, choice, &[span]))
}

/// The numbers of a set, rising: bit i of the first word is for i, bit i of the second for 64 + i.
fn numbers(low: u64, high: u64) -> Vec<usize> {
    (0..MOST_SPANS)
        .filter(|number| [low, high][number / 64] >> (number % 64) & 1 == 1)
        .collect()
}

/// The question about a set of spans: the side with all of them out, and whether that holds all
/// stations.
pub fn ask_set(bytes: &[u8], choice: u32, low: u64, high: u64) -> Result<(u64, bool), Refusal> {
    let book = read_for_choice(bytes, choice)?;
    let out = numbers(low, high);
    if out.iter().any(|&number| number >= book.spans.len()) {
        return Err(NO_SUCH_SPAN);
    }
    Ok(told(&book, choice, &out))
}
