//! The nine numbers that docs/FACE.md gives to each answer of the twin.

use twin::{Answer, Book, Contracted, Refusal, Site, Verdict};

/// A kind, the number and place of a refusal, and what the answer carries.
pub type Nine = [u64; 9];

/// The numbers of what was told, or of a refusal.
fn nine<T>(answer: Result<T, Refusal>, told: impl FnOnce(T) -> (u64, [u64; 6])) -> Nine {
    match answer.map(told) {
        Ok((kind, [a, b, c, d, e, f])) => [kind, 0, 0, a, b, c, d, e, f],
        Err(refusal) => [
            0,
            u64::from(refusal.number),
            refusal.place as u64,
            0,
            0,
            0,
            0,
            0,
            0,
        ],
    }
}

/// What the reader tells.
pub fn read(answer: Result<&Book, Refusal>) -> Nine {
    nine(answer, |book| {
        let counts = [
            book.stations.len() as u64,
            book.spans.len() as u64,
            book.lightpaths.len() as u64,
            book.alternatives.len() as u64,
            book.station_set(),
            0,
        ];
        (1, counts)
    })
}

/// The kind of a verdict and its numbers, with two more behind them.
fn verdict(verdict: Verdict, [a, b]: [u64; 2]) -> (u64, [u64; 6]) {
    match verdict {
        Verdict::Over { span, load, limit } => {
            (1, [span as u64, u64::from(load), u64::from(limit), 0, a, b])
        }
        Verdict::Split { side } => (2, [0, 0, 0, side, a, b]),
        Verdict::Cut { span, side } => (3, [span as u64, 0, 0, side, a, b]),
        Verdict::Okay => (4, [0, 0, 0, 0, a, b]),
    }
}

/// What the judgement tells: the verdict, and F and Fc.
pub fn judged(answer: Result<(Verdict, (u32, u32)), Refusal>) -> Nine {
    nine(answer, |(told, (f, fc))| {
        verdict(told, [u64::from(f), u64::from(fc)])
    })
}

/// What contraction tells: the verdict and the number of merges.
pub fn contracted(answer: Result<Contracted, Refusal>) -> Nine {
    nine(answer, |told| {
        verdict(told.verdict, [told.merges as u64, 0])
    })
}

/// What closing a node tells: the node and the side.
pub fn closed(answer: Result<Site, Refusal>) -> Nine {
    nine(answer, |site| match site {
        Site::Down { node, side } => (1, [node as u64, side, 0, 0, 0, 0]),
        Site::Okay => (2, [0; 6]),
    })
}

/// What the question about a span or a set of them tells.
pub fn asked(answer: Result<(u64, bool), Refusal>) -> Nine {
    nine(answer, |(side, all)| {
        (1, [side, u64::from(all), 0, 0, 0, 0])
    })
}

/// What the search tells.
pub fn searched(answer: Result<Answer, Refusal>) -> Nine {
    nine(answer, |answer| match answer {
        Answer::Found { choice, total } => (1, [u64::from(choice), 0, u64::from(total), 0, 0, 0]),
        Answer::None { total } => (2, [0, 0, u64::from(total), 0, 0, 0]),
        Answer::More { limit, total } => (3, [0, u64::from(limit), u64::from(total), 0, 0, 0]),
    })
}

/// What the writer tells.
pub fn written(answer: Result<usize, Refusal>) -> Nine {
    nine(answer, |length| (1, [length as u64, 0, 0, 0, 0, 0]))
}
