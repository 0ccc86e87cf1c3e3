//! The reader: front to back, stopping at the first fault.

use crate::book::*;

/// What has been read so far: the bytes, the offset reached, the present record's offset.
struct Reader<'a> {
    bytes: &'a [u8],
    offset: usize,
    record: usize,
}

impl<'a> Reader<'a> {
    /// A refusal at the first byte of the present record.
    fn refusal(&self, number: u8) -> Refusal {
        Refusal {
            number,
            place: self.record,
        }
    }

    /// Refuses by `number` at the present record unless `good`.
    fn demand(&self, good: bool, number: u8) -> Result<(), Refusal> {
        if good {
            Ok(())
        } else {
            Err(self.refusal(number))
        }
    }

    /// Refuses by `number` at the span with the fault, if one has it, of a route that begins at `start`.
    fn demand_spans(&self, fault: Option<usize>, start: usize, number: u8) -> Result<(), Refusal> {
        match fault {
            None => Ok(()),
            Some(span) => {
                let place = start + span;
                Err(Refusal { number, place })
            }
        }
    }

    /// The next `count` bytes together, or 1 if the book ends before them.
    fn take(&mut self, count: usize) -> Result<&'a [u8], Refusal> {
        let rest = &self.bytes[self.offset..];
        self.demand(rest.len() >= count, 1)?;
        self.offset += count;
        Ok(&rest[..count])
    }

    /// Begins a record: its two-byte mark (1, then 2), then its fixed fields (1).
    fn begin(&mut self, mark: &[u8; 2], fields: usize) -> Result<&'a [u8], Refusal> {
        self.record = self.offset;
        let found = self.take(2)?;
        self.demand(found == mark, 2)?;
        self.take(fields)
    }

    /// The spans of a route: the length (6), the bytes (1), their values (5), the walk (7); the last two at the span with the fault.
    fn route(&mut self, book: &Book, from: u8, to: u8, length: u8) -> Result<Vec<u8>, Refusal> {
        let length = usize::from(length);
        self.demand((1..=LONGEST_ROUTE).contains(&length), 6)?;
        let start = self.offset;
        let route = self.take(length)?;
        let unknown = |&span: &u8| usize::from(span) >= book.spans.len();
        self.demand_spans(route.iter().position(unknown), start, 5)?;
        self.demand_spans(book.stray(from, to, route), start, 7)?;
        Ok(route.to_vec())
    }

    /// The HD record: counts of nodes, spans, lightpaths and alternatives, within bounds (3).
    fn head(&mut self) -> Result<[usize; 4], Refusal> {
        let fields = self.begin(b"HD", 4)?;
        let counts = [0, 1, 2, 3].map(|i| usize::from(fields[i]));
        let most = [MOST_NODES, MOST_SPANS, MOST_LIGHTPATHS, MOST_ALTERNATIVES];
        let bounded = (0..4).all(|i| counts[i] <= most[i]);
        self.demand(bounded && counts[0] >= 1, 3)?;
        Ok(counts)
    }

    /// An ND record: whether the node is a station (4 for any flag above 1).
    fn node(&mut self) -> Result<bool, Refusal> {
        let flag = self.begin(b"ND", 1)?[0];
        self.demand(flag <= 1, 4)?;
        Ok(flag == 1)
    }

    /// Two ends that are nodes of the book and differ (4).
    fn ends(&self, book: &Book, ends: [u8; 2]) -> Result<(), Refusal> {
        let nodes = book.stations.len();
        let known = ends.iter().all(|&end| usize::from(end) < nodes);
        self.demand(known && ends[0] != ends[1], 4)
    }

    /// An SP record.
    fn span(&mut self, book: &Book) -> Result<Span, Refusal> {
        let fields = self.begin(b"SP", 3)?;
        let ends = [fields[0], fields[1]];
        self.ends(book, ends)?;
        let limit = fields[2];
        Ok(Span { ends, limit })
    }

    /// An LP record; its ends must be stations (4).
    fn lightpath(&mut self, book: &Book) -> Result<Lightpath, Refusal> {
        let fields = self.begin(b"LP", 3)?;
        let (from, to, length) = (fields[0], fields[1], fields[2]);
        self.ends(book, [from, to])?;
        let stations = book.stations[usize::from(from)] && book.stations[usize::from(to)];
        self.demand(stations, 4)?;
        let route = self.route(book, from, to, length)?;
        Ok(Lightpath { from, to, route })
    }

    /// An AL record; its lightpath is judged (8) before its length (6).
    fn alternative(&mut self, book: &Book) -> Result<Alternative, Refusal> {
        let fields = self.begin(b"AL", 2)?;
        let (lightpath, length) = (fields[0], fields[1]);
        self.demand(may_follow(book, lightpath), 8)?;
        let moved = &book.lightpaths[usize::from(lightpath)];
        let route = self.route(book, moved.from, moved.to, length)?;
        Ok(Alternative { lightpath, route })
    }
}

/// Whether an alternative for `lightpath` may follow those already in the book.
fn may_follow(book: &Book, lightpath: u8) -> bool {
    let mut before: Vec<u8> = book.alternatives.iter().map(|a| a.lightpath).collect();
    let own = before.iter().filter(|&&l| l == lightpath).count();
    let falls = before.last().is_some_and(|&last| lightpath < last);
    before.dedup();
    let known = usize::from(lightpath) < book.lightpaths.len();
    let room = if own > 0 {
        own < MOST_FOR_ONE
    } else {
        before.len() < MOST_MOVABLE
    };
    known && !falls && room
}

/// Reads a route book, or refuses it by the number and place of its first fault.
pub fn read(bytes: &[u8]) -> Result<Book, Refusal> {
    let mut reader = Reader {
        bytes,
        offset: 0,
        record: 0,
    };
    let [nodes, spans, lightpaths, alternatives] = reader.head()?;
    let mut book = Book {
        stations: Vec::new(),
        spans: Vec::new(),
        lightpaths: Vec::new(),
        alternatives: Vec::new(),
    };
    for _ in 0..nodes {
        book.stations.push(reader.node()?);
    }
    // Judged here, before the next mark is looked at, so it hides even a book that ends here.
    reader.record = reader.offset;
    reader.demand(book.stations.contains(&true), 10)?;
    for _ in 0..spans {
        book.spans.push(reader.span(&book)?);
    }
    for _ in 0..lightpaths {
        book.lightpaths.push(reader.lightpath(&book)?);
    }
    for _ in 0..alternatives {
        book.alternatives.push(reader.alternative(&book)?);
    }
    reader.begin(b"EN", 0)?;
    reader.record = reader.offset;
    reader.demand(reader.offset == bytes.len(), 9)?;
    Ok(book)
}
