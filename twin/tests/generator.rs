//! The generator's books are varied enough: the counts are printed and held to least shares.

use std::collections::{BTreeMap, BTreeSet};
use twin::contraction::{contract_plan, Contracted};
use twin::generate::{damaged, good, numbers, Random};
use twin::hex::{from_hex, to_hex};
use twin::joining;
use twin::judgement::{verdict, Verdict};
use twin::numbering::{total, Plan};
use twin::searching::{search_book, Answer};
use twin::sites::{meets, plan_site};
use twin::{ask, read, write, Site};

/// How many books are counted.
const BOOKS: usize = 4000;

/// Counts of names.
type Counts = BTreeMap<&'static str, usize>;

/// The name of a verdict's kind.
fn verdict_name(verdict: Verdict) -> &'static str {
    match verdict {
        Verdict::Over { .. } => "OVER",
        Verdict::Split { .. } => "SPLIT",
        Verdict::Cut { .. } => "CUT",
        Verdict::Okay => "OK",
    }
}

/// The name of an answer's kind; a choice above 0 is told apart.
fn answer_name(answer: Answer) -> &'static str {
    match answer {
        Answer::Found { choice: 0, .. } => "FOUND 0",
        Answer::Found { .. } => "FOUND later",
        Answer::None { .. } => "NONE",
        Answer::More { .. } => "MORE",
    }
}

#[test]
fn verdicts_and_answers_come_in_fair_numbers() {
    let mut random = Random::new(2);
    let (mut verdicts, mut answers) = (Counts::new(), Counts::new());
    let mut totals = BTreeSet::new();
    for _ in 0..BOOKS {
        let book = good(random.bits());
        totals.insert(total(&book));
        let judged = verdict(&Plan::new(&book, 0));
        *verdicts.entry(verdict_name(judged)).or_default() += 1;
        let limit = numbers(&mut random, &book).limit;
        let answer = search_book(&book, limit);
        *answers.entry(answer_name(answer)).or_default() += 1;
    }
    println!("verdicts {verdicts:?}");
    println!("answers {answers:?}");
    println!("different T {}", totals.len());
    assert_eq!((verdicts.len(), answers.len()), (4, 4));
    let shares = verdicts.values().chain(answers.values());
    assert!(shares.min().unwrap() * 100 >= BOOKS * 5);
    assert!(totals.len() >= 300);
}

/// The names of what is worth seeing in a contraction.
fn contraction_names(contracted: &Contracted) -> Vec<&'static str> {
    let (merges, pieces) = (contracted.merges, contracted.pieces.len());
    let okay = contracted.verdict == Verdict::Okay;
    let told = [
        (merges > 0, "merges"),
        (merges > 1, "several merges"),
        (okay && pieces > 1, "OK with pieces left"),
        (
            okay && pieces > 1 && merges > 0,
            "OK with merges and pieces left",
        ),
        (!okay && merges > 0, "SPLIT or CUT after merges"),
    ];
    told.iter()
        .filter(|(seen, _)| *seen)
        .map(|(_, name)| *name)
        .collect()
}

#[test]
fn contractions_come_in_fair_numbers() {
    let mut random = Random::new(6);
    let mut counts = Counts::new();
    for _ in 0..BOOKS {
        let book = good(random.bits());
        for name in contraction_names(&contract_plan(&Plan::new(&book, 0))) {
            *counts.entry(name).or_default() += 1;
        }
    }
    println!("contractions {counts:?}");
    assert_eq!(counts.len(), 5);
    assert!(*counts.values().min().unwrap() * 100 >= BOOKS * 3);
}

/// Whether some chosen route passes through a node that is no station.
fn passes_through(plan: &Plan) -> bool {
    let lightpaths = 0..plan.book.lightpaths.len();
    let nodes = 0..plan.book.stations.len();
    let mut passed = nodes.filter(|&node| !plan.book.stations[node]);
    passed.any(|node| lightpaths.clone().any(|number| meets(plan, number, node)))
}

/// The names of what is worth seeing in the answer about sites.
fn site_names(plan: &Plan) -> Vec<&'static str> {
    let stations = plan.book.station_numbers();
    let many = stations.len() >= 3;
    let joined = joining::side(plan, &[]) == plan.book.station_set();
    let acceptable = verdict(plan) == Verdict::Okay;
    let told = match plan_site(plan) {
        Site::Okay => vec![
            (true, "OK"),
            (many, "OK with three stations"),
            (many && passes_through(plan), "OK with nodes passed through"),
        ],
        Site::Down { node, .. } => {
            let station = plan.book.stations[node];
            vec![
                (station, "at a station"),
                (node == stations[0], "at the lowest station"),
                (station && node > stations[0], "at a later station"),
                (!station, "at a node passed through"),
                (!station && joined, "the same in a joined network"),
                (!joined, "in a split network"),
                (acceptable, "in an acceptable choice"),
            ]
        }
    };
    told.iter()
        .filter(|(seen, _)| *seen)
        .map(|(_, name)| *name)
        .collect()
}

#[test]
fn sites_come_in_fair_numbers() {
    let mut random = Random::new(7);
    let mut counts = Counts::new();
    for _ in 0..BOOKS {
        let book = good(random.bits());
        for name in site_names(&Plan::new(&book, 0)) {
            *counts.entry(name).or_default() += 1;
        }
    }
    println!("sites {counts:?}");
    assert_eq!(counts.len(), 10);
    assert!(*counts.values().min().unwrap() * 100 >= BOOKS * 3);
}

#[test]
fn counts_and_lengths_reach_their_bounds() {
    let mut random = Random::new(3);
    let mut lengths = BTreeMap::new();
    let mut most = [0; 4];
    for _ in 0..BOOKS {
        let book = good(random.bits());
        let counts = [
            book.stations.len(),
            book.spans.len(),
            book.lightpaths.len(),
            book.alternatives.len(),
        ];
        for (most, count) in most.iter_mut().zip(counts) {
            *most = count.max(*most);
        }
        for lightpath in &book.lightpaths {
            *lengths.entry(lightpath.route.len()).or_insert(0) += 1;
        }
    }
    println!("most {most:?}");
    println!("lengths {lengths:?}");
    assert_eq!(most, [64, 128, 96, 56]);
    assert_eq!(
        lengths.keys().copied().collect::<Vec<usize>>(),
        Vec::from_iter(1..=16)
    );
}

#[test]
fn every_refusal_of_the_reader_comes_often() {
    let mut random = Random::new(4);
    let mut numbers = BTreeMap::new();
    for _ in 0..BOOKS {
        let number = read(&damaged(random.bits())).map_or_else(|r| r.number, |_| 0);
        *numbers.entry(number).or_insert(0) += 1;
    }
    println!("refusals (0 is good) {numbers:?}");
    assert_eq!(
        numbers.keys().copied().collect::<Vec<u8>>(),
        Vec::from_iter(0..=10)
    );
    assert!(*numbers.values().min().unwrap() * 100 >= BOOKS * 2);
}

#[test]
fn refusals_of_calls_come_often() {
    let mut random = Random::new(5);
    let mut refused = BTreeMap::new();
    for _ in 0..BOOKS / 4 {
        let book = good(random.bits());
        let bytes = twin::writing::encode(&book);
        let drawn = numbers(&mut random, &book);
        let mut out = vec![0; drawn.buffer];
        let asked = ask(&bytes, drawn.choice, drawn.span).map_or_else(|r| r.number, |_| 0);
        let written = write(&bytes, drawn.choice, &mut out).map_or_else(|r| r.number, |_| 0);
        *refused.entry(asked).or_insert(0) += 1;
        *refused.entry(written).or_insert(0) += 1;
    }
    println!("refused calls (0 is served) {refused:?}");
    assert_eq!(
        refused.keys().copied().collect::<Vec<u8>>(),
        [0, 11, 12, 13]
    );
    assert!(*refused.values().min().unwrap() * 10 >= BOOKS / 4);
}

#[test]
fn one_seed_gives_one_book_and_hex_reads_back() {
    for seed in 0..200 {
        assert_eq!(good(seed), good(seed));
        let bytes = damaged(seed);
        assert_eq!(bytes, damaged(seed));
        assert_eq!(from_hex(&to_hex(&bytes)), Some(bytes));
    }
    assert_eq!(to_hex(&[]), ".");
    assert_eq!(from_hex("."), Some(vec![]));
    assert_eq!(from_hex("0"), None);
}
