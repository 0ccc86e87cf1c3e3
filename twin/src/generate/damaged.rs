//! Books with faults: a good book's records spoiled one way or two, some ways aimed at one refusal.

use super::good::good;
use super::random::Random;
use crate::writing::records;

/// A book under damage, record by record.
struct Victim {
    random: Random,
    records: Vec<Vec<u8>>,
}

/// A way of damage.
type Way = fn(&mut Victim);

/// All the ways; those that name a number aim at that refusal.
const WAYS: [Way; 19] = [
    Victim::end_early_1,
    Victim::wrong_mark_2,
    Victim::count_out_of_bounds_3,
    Victim::bad_flag_or_end_4,
    Victim::span_too_high_5,
    Victim::bad_length_6,
    Victim::broken_route_7,
    Victim::bad_alternative_8,
    Victim::too_many_alternatives_8,
    Victim::bytes_after_end_9,
    Victim::no_station_10,
    Victim::spoil_one_record,
    Victim::spoil_one_record,
    Victim::flip_bits,
    Victim::insert_byte,
    Victim::delete_byte,
    Victim::swap_records,
    Victim::count_off_by_one,
    Victim::repeat_or_drop_record,
];

impl Victim {
    /// The places of the records that bear one of the marks.
    fn marked(&self, marks: &[&[u8; 2]]) -> Vec<usize> {
        let bears = |record: &[u8]| marks.iter().any(|mark| record.starts_with(&mark[..]));
        (0..self.records.len())
            .filter(|&place| bears(&self.records[place]))
            .collect()
    }

    /// The place of a drawn record that bears one of the marks, if there is any.
    fn one_marked(&mut self, marks: &[&[u8; 2]]) -> Option<usize> {
        let places = self.marked(marks);
        (!places.is_empty()).then(|| *self.random.pick(&places))
    }

    /// A drawn record with a route, and where its length byte is.
    fn one_route(&mut self) -> Option<(usize, usize)> {
        let marks: [&[u8; 2]; 2] = if self.random.chance(50) {
            [b"LP", b"LP"]
        } else {
            [b"AL", b"AL"]
        };
        let place = self.one_marked(&marks).or(self.one_marked(&[b"LP"]))?;
        let length = if self.records[place].starts_with(b"LP") {
            4
        } else {
            3
        };
        (self.records[place].len() > length + 1).then_some((place, length))
    }

    /// One of the counts in HD.
    fn count(&self, field: usize) -> u8 {
        self.records[0].get(2 + field).copied().unwrap_or(0)
    }

    /// Alters one of the counts in HD.
    fn set_count(&mut self, field: usize, count: u8) {
        if let Some(byte) = self.records[0].get_mut(2 + field) {
            *byte = count;
        }
    }

    /// A byte that is at `bound`, or anywhere above it.
    fn at_or_above(&mut self, bound: u8) -> u8 {
        if self.random.chance(50) {
            bound
        } else {
            self.random
                .between(usize::from(bound), usize::from(u8::MAX)) as u8
        }
    }

    /// Ends the book before or inside a drawn record.
    fn end_early_1(&mut self) {
        let place = self.random.below(self.records.len());
        let kept = self.random.below(self.records[place].len() + 1);
        self.records[place].truncate(kept);
        self.records.truncate(place + 1);
    }

    /// Gives a record another mark, or spoils its mark.
    fn wrong_mark_2(&mut self) {
        let place = self.random.below(self.records.len());
        if self.records[place].len() < 2 {
            return;
        }
        let marks = [b"HD", b"ND", b"SP", b"LP", b"AL", b"EN", b"HC", b"SG"];
        if self.random.chance(50) {
            let mark = self.random.pick(&marks);
            self.records[place][..2].copy_from_slice(&mark[..]);
        } else {
            let byte = self.random.below(2);
            self.records[place][byte] ^= 1 << self.random.below(8);
        }
    }

    /// Puts a count in HD outside its bounds.
    fn count_out_of_bounds_3(&mut self) {
        let field = self.random.below(4);
        let count = if field == 0 && self.random.chance(50) {
            0
        } else {
            self.at_or_above([65, 129, 97, 57][field])
        };
        self.set_count(field, count);
    }

    /// Spoils a node flag, or an end of a span or lightpath.
    fn bad_flag_or_end_4(&mut self) {
        let mark = *self.random.pick(&[b"ND", b"SP", b"LP", b"LP"]);
        let Some(place) = self.one_marked(&[mark]) else {
            return;
        };
        let nodes = self.count(0);
        let bad = self.at_or_above(if mark == b"ND" { 2 } else { nodes });
        let any = self.random.below(usize::from(nodes).max(1)) as u8;
        let (way, field) = (self.random.below(3), self.random.between(2, 3));
        let record = &mut self.records[place];
        match (mark, way) {
            (b"ND", _) if record.len() > 2 => record[2] = bad,
            (_, 0) if record.len() > 3 => record[field] = bad,
            (_, 1) if record.len() > 3 => record[field] = record[5 - field],
            // For a lightpath this may be a node that is passed through.
            _ if record.len() > 3 => record[field] = any,
            _ => (),
        }
    }

    /// Puts a span number into a route that the book doesn't have.
    fn span_too_high_5(&mut self) {
        if let Some((place, length)) = self.one_route() {
            let high = self.at_or_above(self.count(1));
            let byte = self
                .random
                .between(length + 1, self.records[place].len() - 1);
            self.records[place][byte] = high;
        }
    }

    /// Makes a route length 0 or too high, at times with as many spans as it says.
    fn bad_length_6(&mut self) {
        if let Some((place, length)) = self.one_route() {
            let bad = if self.random.chance(40) {
                0
            } else {
                self.at_or_above(17)
            };
            let filled = self.random.chance(50);
            let record = &mut self.records[place];
            record[length] = bad;
            if filled {
                let span = record[length + 1];
                record.resize(length + 1 + usize::from(bad), span);
            }
        }
    }

    /// Breaks the walk of a route with spans that the book has.
    fn broken_route_7(&mut self) {
        let Some((place, length)) = self.one_route() else {
            return;
        };
        let mut route = self.records[place].split_off(length + 1);
        let any = self.random.below(usize::from(self.count(1)).max(1)) as u8;
        let at = self.random.below(route.len());
        match self.random.below(6) {
            0 => route.reverse(),
            1 => self.random.shuffle(&mut route),
            2 => route[at] = any,
            3 => route.insert(at, any),
            4 if route.len() > 1 => drop(route.remove(at)),
            // There and back again: the far end is met twice.
            _ => route.extend([route[route.len() - 1]; 2]),
        }
        let record = &mut self.records[place];
        record[length] = route.len() as u8;
        record.extend(route);
    }

    /// Gives an alternative another lightpath: unknown, lower than the last, or any.
    fn bad_alternative_8(&mut self) {
        if let Some(place) = self.one_marked(&[b"AL"]) {
            let high = self.at_or_above(self.count(2));
            let any = self.random.byte() % self.count(2).max(1);
            let lightpath = *self.random.pick(&[high, any, 0]);
            if let Some(byte) = self.records[place].get_mut(2) {
                *byte = lightpath;
            }
        }
    }

    /// Adds good alternatives until there is an eighth for one lightpath, or a ninth lightpath.
    fn too_many_alternatives_8(&mut self) {
        let lightpaths = self.marked(&[b"LP"]);
        let eighth = self.random.chance(50);
        let wanted = if eighth { 8 } else { 9 };
        let mut added = Vec::new();
        for turn in 0..wanted {
            let number = if eighth { 0 } else { turn };
            if let Some(&place) = lightpaths.get(number) {
                let route = self.records[place].get(4..).unwrap_or(&[]);
                added.push([b"AL", &[number as u8][..], route].concat());
            }
        }
        let end = self.records.len() - 1;
        let first = self.marked(&[b"AL"]).first().copied().unwrap_or(end);
        self.records.splice(first..end, added.clone());
        self.set_count(3, added.len() as u8);
    }

    /// Adds bytes after EN.
    fn bytes_after_end_9(&mut self) {
        let more = match self.random.below(3) {
            0 => vec![self.random.byte()],
            1 => b"EN".to_vec(),
            _ => self.records.concat(),
        };
        self.records.push(more);
    }

    /// Makes every node one that is passed through; at times the book ends there.
    fn no_station_10(&mut self) {
        let nodes = self.marked(&[b"ND"]);
        for &place in &nodes {
            self.records[place].truncate(2);
            self.records[place].push(0);
        }
        if let (Some(last), true) = (nodes.last(), self.random.chance(20)) {
            self.records.truncate(last + 1);
        }
    }

    /// Puts several faults into one record, so that the order among them shows; at times it is cut.
    fn spoil_one_record(&mut self) {
        let mark = *self
            .random
            .pick(&[b"SP", b"LP", b"LP", b"AL", b"AL", b"AL"]);
        let Some(place) = self.one_marked(&[mark]) else {
            return;
        };
        let bounds = [0, 17, self.count(0), self.count(1), self.count(2)];
        for _ in 0..self.random.between(2, 4) {
            let byte = self.random.between(2, self.records[place].len().max(3) - 1);
            let bound = *self.random.pick(&bounds);
            if let Some(field) = self.records[place].get_mut(byte) {
                *field = bound;
            }
        }
        if self.random.chance(20) {
            let kept = self.random.below(self.records[place].len() + 1);
            self.records[place].truncate(kept);
            self.records.truncate(place + 1);
        }
    }

    /// Flips one to three bits anywhere.
    fn flip_bits(&mut self) {
        for _ in 0..self.random.between(1, 3) {
            let place = self.random.below(self.records.len());
            if !self.records[place].is_empty() {
                let byte = self.random.below(self.records[place].len());
                self.records[place][byte] ^= 1 << self.random.below(8);
            }
        }
    }

    /// Inserts a byte anywhere.
    fn insert_byte(&mut self) {
        let place = self.random.below(self.records.len());
        let before = self.random.below(self.records[place].len() + 1);
        let byte = self.random.byte();
        self.records[place].insert(before, byte);
    }

    /// Deletes a byte anywhere.
    fn delete_byte(&mut self) {
        let place = self.random.below(self.records.len());
        if !self.records[place].is_empty() {
            let byte = self.random.below(self.records[place].len());
            self.records[place].remove(byte);
        }
    }

    /// Swaps two records, mostly of one kind.
    fn swap_records(&mut self) {
        let one = self.random.below(self.records.len());
        let mut other = self.random.below(self.records.len());
        if self.random.chance(70) {
            let mark = self.records[one].get(..2).unwrap_or(b"EN");
            let mark = [mark[0], mark[1]];
            other = self.one_marked(&[&mark]).unwrap_or(other);
        }
        self.records.swap(one, other);
    }

    /// Makes a count in HD one more or one less.
    fn count_off_by_one(&mut self) {
        let field = self.random.below(4);
        let count = self.count(field);
        let off = if self.random.chance(50) {
            count.wrapping_add(1)
        } else {
            count.wrapping_sub(1)
        };
        self.set_count(field, off);
    }

    /// Repeats a record or leaves it out, at times with the count in HD put right.
    fn repeat_or_drop_record(&mut self) {
        let marks = [b"ND", b"SP", b"LP", b"AL"];
        let field = self.random.below(4);
        let Some(place) = self.one_marked(&[marks[field]]) else {
            return;
        };
        let count = self.count(field);
        let changed = if self.random.chance(50) {
            self.records.insert(place, self.records[place].clone());
            count.wrapping_add(1)
        } else {
            self.records.remove(place);
            count.wrapping_sub(1)
        };
        if self.random.chance(50) {
            self.set_count(field, changed);
        }
    }
}

/// The bytes of a book that has been damaged once or twice; a few come out good all the same.
pub fn damaged(seed: u64) -> Vec<u8> {
    let mut random = Random::new(seed);
    let mut victim = Victim {
        records: records(&good(random.bits())),
        random,
    };
    let times = if victim.random.chance(70) { 1 } else { 2 };
    for _ in 0..times {
        let way = *victim.random.pick(&WAYS);
        way(&mut victim);
    }
    victim.records.concat()
}
