//! Full-size books, 64 nodes, 128 spans, 96 lightpaths and 56 alternatives on 8 lightpaths, of which no choice is acceptable.
//!
//! The nodes are all stations and lie on a circle; spans i and 64 + i both run from node i to the next. Lightpaths make a ring over nodes 0 to 62, each
//! on a span of its own, so that it stands any loss; node 63 is held by two more, which differ from book to book.

/// A lightpath or, in the second place, an alternative: two numbers (ends, or the lightpath), and a route.
struct Path {
    from: u8,
    to: u8,
    route: Vec<u8>,
}

fn path(from: u8, to: u8, route: &[u8]) -> Path {
    Path {
        from,
        to,
        route: route.to_vec(),
    }
}

/// The bytes of a book with these lightpaths and alternatives; span 0 has the limit given, and all others 255.
fn encode(first_limit: u8, lightpaths: &[Path], alternatives: &[(u8, Vec<u8>)]) -> Vec<u8> {
    let mut bytes = vec![b'H', b'D', 64, 128, 96, 56];
    assert_eq!((lightpaths.len(), alternatives.len()), (96, 56));
    for _ in 0..64 {
        bytes.extend([b'N', b'D', 1]);
    }
    for span in 0..128u8 {
        let limit = if span == 0 { first_limit } else { 255 };
        bytes.extend([b'S', b'P', span % 64, (span + 1) % 64, limit]);
    }
    for p in lightpaths {
        bytes.extend([b'L', b'P', p.from, p.to, p.route.len() as u8]);
        bytes.extend(&p.route);
    }
    for (lightpath, route) in alternatives {
        bytes.extend([b'A', b'L', *lightpath, route.len() as u8]);
        bytes.extend(route);
    }
    bytes.extend([b'E', b'N']);
    bytes
}

/// The ring over nodes 0 to 62, from the last of which it comes back by way of node 63.
fn ring() -> Vec<Path> {
    let mut ring: Vec<Path> = (0..62).map(|i| path(i, i + 1, &[i])).collect();
    ring.push(path(62, 0, &[62, 63]));
    ring
}

/// Lightpaths from one node to the next, beside the ring, as many as are still wanted.
fn beside(so_far: usize) -> Vec<Path> {
    (so_far..96)
        .map(|k| (k % 50) as u8)
        .map(|i| path(i, i + 1, &[64 + i]))
        .collect()
}

/// Seven alternatives for a lightpath from node i to the next: its own span and the one beside it, in turns.
fn in_turns(lightpath: usize, i: u8) -> impl Iterator<Item = (u8, Vec<u8>)> {
    (0..7u8).map(move |d| (lightpath as u8, vec![if d % 2 == 0 { i } else { 64 + i }]))
}

/// The last eight lightpaths are moved, each between two spans side by side.
fn moved_last(lightpaths: &[Path]) -> Vec<(u8, Vec<u8>)> {
    (88..96)
        .flat_map(|k| in_turns(k, lightpaths[k].from))
        .collect()
}

/// Node 63 hangs on the last span by both its lightpaths.
fn hung_on_the_last_span() -> Vec<Path> {
    let mut lightpaths = ring();
    lightpaths.extend([path(63, 0, &[127]), path(0, 63, &[127])]);
    lightpaths.extend(beside(lightpaths.len()));
    lightpaths
}

/// Every choice is OVER at span 0.
pub fn over_at_once() -> Vec<u8> {
    let lightpaths = hung_on_the_last_span();
    encode(0, &lightpaths, &moved_last(&lightpaths))
}

/// Every choice is CUT at the last span.
pub fn cut_by_fixed() -> Vec<u8> {
    let lightpaths = hung_on_the_last_span();
    encode(255, &lightpaths, &moved_last(&lightpaths))
}

/// Node 63 is held by lightpath 0, which is moved by the fastest digit, and by a fixed one: whatever the digit, they share one of the spans 119 to 126.
pub fn cut_by_the_fastest() -> Vec<u8> {
    let shared = |d: u8| -> Vec<u8> {
        (0..8)
            .map(|j| if j == d { 119 + j } else { 55 + j })
            .collect()
    };
    let mut lightpaths = vec![path(55, 63, &shared(0))];
    lightpaths.push(path(55, 63, &(119..127).collect::<Vec<u8>>()));
    lightpaths.extend(ring());
    lightpaths.extend(beside(lightpaths.len()));
    let mut alternatives: Vec<(u8, Vec<u8>)> = (1..8).map(|d| (0, shared(d))).collect();
    alternatives.extend((89..96).flat_map(|k| in_turns(k, lightpaths[k].from)));
    encode(255, &lightpaths, &alternatives)
}
