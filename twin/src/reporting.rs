//! The listing of the report program.

use crate::book::{Book, Refusal};
use crate::judgement::{plan_score, verdict, Verdict};
use crate::numbering::{digits, movables, Plan};
use crate::reading::read;
use crate::searching::{search_book, Answer};
use crate::sites::{plan_site, Site};

/// How many bytes of its input the report program keeps; a longer book has its fault in them.
pub const KEPT: usize = 4096;
/// The trial limit of the report program.
pub const TRIALS: u32 = 65_536;

/// The line of a verdict; a side is 16 lower-case hex digits.
pub fn verdict_line(verdict: Verdict) -> String {
    match verdict {
        Verdict::Over { span, load, limit } => format!("OVER {span} {load} {limit}"),
        Verdict::Split { side } => format!("SPLIT {side:016x}"),
        Verdict::Cut { span, side } => format!("CUT {span} {side:016x}"),
        Verdict::Okay => "OK".to_string(),
    }
}

/// The line about the sites of a choice.
pub fn site_line(site: Site) -> String {
    match site {
        Site::Down { node, side } => format!("SITE {node} {side:016x}"),
        Site::Okay => "SITE OK".to_string(),
    }
}

/// The line of a search's answer.
pub fn answer_line(answer: Answer) -> String {
    match answer {
        Answer::Found { choice, total } => format!("FOUND {choice} {total}"),
        Answer::None { total } => format!("NONE {total}"),
        Answer::More { limit, total } => format!("MORE {limit} {total}"),
    }
}

/// The line of a refusal.
pub fn refusal_line(refusal: Refusal) -> String {
    format!("BAD {} {}", refusal.number, refusal.place)
}

/// The MOVE lines of a choice: lightpath and digit for each digit above 0, rising.
fn move_lines(book: &Book, choice: u32) -> Vec<String> {
    digits(book, choice)
        .iter()
        .zip(movables(book))
        .filter(|(&digit, _)| digit > 0)
        .map(|(digit, movable)| format!("MOVE {} {digit}", movable.lightpath))
        .collect()
}

/// The lines about a good book, END aside.
fn lines(book: &Book) -> Vec<String> {
    let plan = Plan::new(book, 0);
    let (parting, excess) = plan_score(&plan);
    let answer = search_book(book, TRIALS);
    let mut lines = vec![
        format!(
            "BOOK {} {} {} {}",
            book.stations.len(),
            book.spans.len(),
            book.lightpaths.len(),
            book.alternatives.len()
        ),
        verdict_line(verdict(&plan)),
        format!("SCORE {parting} {excess}"),
        site_line(plan_site(&plan)),
        answer_line(answer),
    ];
    if let Answer::Found { choice, .. } = answer {
        lines.extend(move_lines(book, choice));
    }
    lines
}

/// The report on a book: its listing, or BAD with number and place; then END.
pub fn report(bytes: &[u8]) -> String {
    let kept = &bytes[..bytes.len().min(KEPT)];
    let mut lines = match read(kept) {
        Ok(book) => lines(&book),
        Err(refusal) => vec![refusal_line(refusal)],
    };
    lines.push("END".to_string());
    lines.iter().map(|line| format!("{line}\n")).collect()
}
