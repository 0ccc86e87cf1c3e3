//! A search that judges every choice afresh, as one would write it in an hour: the book is read into vectors; for each choice the routes are looked up, the
//! loads are counted into an array, and the spans of each lightpath are kept as a 128-bit set; for each span the stations are joined by union-find with path
//! halving over an array of bytes, with the lightpaths whose set lacks the span. It stops at the first fault.

use twin::book::Book;

/// A choice of the book: for each lightpath its route, and the set of its spans.
struct Chosen<'a> {
    book: &'a Book,
    routes: Vec<&'a [u8]>,
    sets: Vec<u128>,
}

/// The stations as classes that are joined.
struct Classes([u8; 64]);

impl Classes {
    fn new() -> Self {
        Classes(std::array::from_fn(|i| i as u8))
    }

    fn find(&mut self, node: u8) -> u8 {
        let mut x = node;
        while self.0[x as usize] != x {
            self.0[x as usize] = self.0[self.0[x as usize] as usize];
            x = self.0[x as usize];
        }
        x
    }

    fn join(&mut self, a: u8, b: u8) {
        let (a, b) = (self.find(a), self.find(b));
        self.0[a as usize] = b;
    }
}

/// For each lightpath the routes that it can have, its own first.
fn options(book: &Book) -> Vec<Vec<&[u8]>> {
    let mut options: Vec<Vec<&[u8]>> = book.lightpaths.iter().map(|p| vec![&p.route[..]]).collect();
    for a in &book.alternatives {
        options[usize::from(a.lightpath)].push(&a.route);
    }
    options
}

/// The choice with that number: the first lightpath that can be moved has the fastest digit.
fn choose<'a>(book: &'a Book, options: &[Vec<&'a [u8]>], number: u64) -> Chosen<'a> {
    let mut rest = number;
    let mut routes = Vec::with_capacity(options.len());
    for list in options {
        let size = list.len() as u64;
        routes.push(list[(rest % size) as usize]);
        rest /= size;
    }
    let sets = routes
        .iter()
        .map(|r| r.iter().fold(0, |set, &x| set | 1u128 << x))
        .collect();
    Chosen { book, routes, sets }
}

impl Chosen<'_> {
    fn loads(&self) -> [u16; 128] {
        let mut loads = [0; 128];
        for route in &self.routes {
            for &x in *route {
                loads[usize::from(x)] += 1;
            }
        }
        loads
    }

    /// The classes with the spans of a set out.
    fn classes(&self, out: u128) -> Classes {
        let mut classes = Classes::new();
        for (p, set) in self.book.lightpaths.iter().zip(&self.sets) {
            if set & out == 0 {
                classes.join(p.from, p.to);
            }
        }
        classes
    }

    /// The stations joined to the lowest one.
    fn side(&self, stations: &[u8], out: u128) -> u64 {
        let mut classes = self.classes(out);
        let first = classes.find(stations[0]);
        stations
            .iter()
            .filter(|&&s| classes.find(s) == first)
            .fold(0, |side, &s| side | 1 << s)
    }

    /// The verdict as nine numbers, without the score.
    fn verdict(&self, loads: &[u16; 128], stations: &[u8], all: u64) -> [u64; 9] {
        for (x, span) in self.book.spans.iter().enumerate() {
            if loads[x] > u16::from(span.limit) {
                return [
                    1,
                    0,
                    0,
                    x as u64,
                    u64::from(loads[x]),
                    u64::from(span.limit),
                    0,
                    0,
                    0,
                ];
            }
        }
        let side = self.side(stations, 0);
        if side != all {
            return [2, 0, 0, 0, 0, 0, side, 0, 0];
        }
        for x in 0..self.book.spans.len() {
            let side = self.side(stations, 1 << x);
            if side != all {
                return [3, 0, 0, x as u64, 0, 0, side, 0, 0];
            }
        }
        [4, 0, 0, 0, 0, 0, 0, 0, 0]
    }

    /// F: the pairs of a span and a lightpath on it whose ends are not joined with the span out.
    fn apart(&self) -> u64 {
        let mut pairs = 0;
        for x in 0..self.book.spans.len() {
            let mut classes = self.classes(1 << x);
            for (p, set) in self.book.lightpaths.iter().zip(&self.sets) {
                if set & 1 << x != 0 && classes.find(p.from) != classes.find(p.to) {
                    pairs += 1;
                }
            }
        }
        pairs
    }

    /// Fc: what the loads have above the limits.
    fn excess(&self, loads: &[u16; 128]) -> u64 {
        let spans = self.book.spans.iter().zip(loads);
        spans
            .map(|(span, load)| u64::from(load.saturating_sub(u16::from(span.limit))))
            .sum()
    }
}

fn stations(book: &Book) -> Vec<u8> {
    book.station_numbers().iter().map(|&s| s as u8).collect()
}

/// The counts of a book and its stations, as nine numbers.
pub fn read(bytes: &[u8]) -> [u64; 9] {
    let b = twin::read(bytes).expect("a good book");
    let n = |len: usize| len as u64;
    [
        1,
        0,
        0,
        n(b.stations.len()),
        n(b.spans.len()),
        n(b.lightpaths.len()),
        n(b.alternatives.len()),
        b.station_set(),
        0,
    ]
}

/// The verdict on a choice, and its score. The loads are counted once for both.
pub fn judge(bytes: &[u8], number: u64) -> [u64; 9] {
    let b = twin::read(bytes).expect("a good book");
    let options = options(&b);
    let chosen = choose(&b, &options, number);
    let loads = chosen.loads();
    let mut row = chosen.verdict(&loads, &stations(&b), b.station_set());
    row[7] = chosen.apart();
    row[8] = chosen.excess(&loads);
    row
}

/// The first acceptable choice within the limit.
pub fn search(bytes: &[u8], limit: u32) -> [u64; 9] {
    let b = twin::read(bytes).expect("a good book");
    let (options, stations, all) = (options(&b), stations(&b), b.station_set());
    let total: u64 = options.iter().map(|list| list.len() as u64).product();
    for n in 0..total.min(u64::from(limit)) {
        let chosen = choose(&b, &options, n);
        if chosen.verdict(&chosen.loads(), &stations, all)[0] == 4 {
            return [1, 0, 0, n, 0, total, 0, 0, 0];
        }
    }
    if total <= u64::from(limit) {
        [2, 0, 0, 0, 0, total, 0, 0, 0]
    } else {
        [3, 0, 0, 0, u64::from(limit), total, 0, 0, 0]
    }
}
