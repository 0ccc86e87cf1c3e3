//! The numbering of choices: one number for each way to pick a listed route for every lightpath.

use crate::book::*;

/// A choice: one digit for each movable lightpath in rising order, unused ones 0.
pub type Digits = [u8; MOST_MOVABLE];

/// A lightpath with alternatives.
#[derive(Clone, Debug, PartialEq, Eq)]
pub struct Movable {
    /// The number of the lightpath.
    pub lightpath: usize,
    /// The numbers of its alternatives, in book order.
    pub alternatives: Vec<usize>,
}

impl Movable {
    /// How many digits it has: the LP route and each alternative.
    pub fn size(&self) -> u32 {
        1 + self.alternatives.len() as u32
    }
}

/// The movable lightpaths, rising; the first is the fastest digit.
pub fn movables(book: &Book) -> Vec<Movable> {
    let mut movables: Vec<Movable> = Vec::new();
    for (number, alternative) in book.alternatives.iter().enumerate() {
        let lightpath = usize::from(alternative.lightpath);
        // Alternatives stand by lightpath, so one for another lightpath begins the next movable.
        match movables.last_mut() {
            Some(last) if last.lightpath == lightpath => last.alternatives.push(number),
            _ => movables.push(Movable {
                lightpath,
                alternatives: vec![number],
            }),
        }
    }
    movables
}

/// T, the number of choices: the product of all sizes, 1 if nothing is movable.
pub fn total(book: &Book) -> u32 {
    movables(book).iter().map(Movable::size).product()
}

/// The digits of the choice with the given number, which must be below T.
pub fn digits(book: &Book, choice: u32) -> Digits {
    let mut rest = choice;
    let mut digits = [0; MOST_MOVABLE];
    for (digit, movable) in digits.iter_mut().zip(movables(book)) {
        *digit = (rest % movable.size()) as u8;
        rest /= movable.size();
    }
    digits
}

/// The number of a choice: each digit times the product of the sizes before it, summed.
pub fn number(book: &Book, digits: &Digits) -> u32 {
    let mut weight = 1;
    let mut sum = 0;
    for (&digit, movable) in digits.iter().zip(movables(book)) {
        sum += u32::from(digit) * weight;
        weight *= movable.size();
    }
    sum
}

/// The chosen route of every lightpath: digit 0 is the LP route, digit j the j-th alternative.
pub fn routes<'a>(book: &'a Book, digits: &Digits) -> Vec<&'a [u8]> {
    let mut routes: Vec<&[u8]> = book.lightpaths.iter().map(|l| &l.route[..]).collect();
    for (&digit, movable) in digits.iter().zip(movables(book)) {
        if digit > 0 {
            let alternative = movable.alternatives[usize::from(digit) - 1];
            routes[movable.lightpath] = &book.alternatives[alternative].route;
        }
    }
    routes
}

/// Refuses a choice number that is not below T by 12, place 0.
pub fn check_choice(book: &Book, choice: u32) -> Result<(), Refusal> {
    if choice < total(book) {
        Ok(())
    } else {
        Err(Refusal {
            number: 12,
            place: 0,
        })
    }
}

/// A book together with the chosen route of each lightpath.
#[derive(Clone, Debug)]
pub struct Plan<'a> {
    /// The book the routes were chosen from.
    pub book: &'a Book,
    /// The chosen route of each lightpath.
    pub routes: Vec<&'a [u8]>,
}

impl<'a> Plan<'a> {
    /// The plan of a choice number below T.
    pub fn new(book: &'a Book, choice: u32) -> Plan<'a> {
        let routes = routes(book, &digits(book, choice));
        Plan { book, routes }
    }

    /// Whether the chosen route of `lightpath` holds `span`.
    pub fn holds(&self, lightpath: usize, span: usize) -> bool {
        self.routes[lightpath]
            .iter()
            .any(|&held| usize::from(held) == span)
    }
}
