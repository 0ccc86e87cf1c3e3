//! The cards to check by hand.

mod common;

use common::*;
use twin::judgement::loads;
use twin::numbering::{total, Plan};
use twin::writing::encode;
use twin::{judge, read, report, score, search, Answer, Verdict};

#[test]
fn p1_choice_0_of_e_is_cut() {
    let book = read(&e()).unwrap();
    assert_eq!(loads(&Plan::new(&book, 0)), [1, 1, 2, 0, 1]);
    assert_eq!(judge(&e(), 0), Ok(Verdict::Cut { span: 2, side: 7 }));
}

#[test]
fn p2_choice_1_of_e_is_acceptable() {
    let book = read(&e()).unwrap();
    assert_eq!(loads(&Plan::new(&book, 1)), [1, 1, 1, 1, 0]);
    assert_eq!(judge(&e(), 1), Ok(Verdict::Okay));
    assert_eq!(total(&book), 2);
}

#[test]
fn p3_score_of_e() {
    assert_eq!(score(&e(), 0), Ok((2, 0)));
}

#[test]
fn p4_span_2_limited_to_1() {
    let tight = e_with(32, 1);
    let over = Verdict::Over {
        span: 2,
        load: 2,
        limit: 1,
    };
    assert_eq!(judge(&tight, 0), Ok(over));
    assert_eq!(score(&tight, 0), Ok((2, 1)));
    assert_eq!(judge(&tight, 1), Ok(Verdict::Okay));
}

#[test]
fn p5_limits_of_the_search() {
    let more = |limit| Ok(Answer::More { limit, total: 2 });
    let found = Answer::Found {
        choice: 1,
        total: 2,
    };
    assert_eq!(search(&e(), 0), more(0));
    assert_eq!(search(&e(), 1), more(1));
    assert_eq!(search(&e(), 2), Ok(found));
    assert_eq!(search(&e(), u32::MAX), Ok(found));
}

#[test]
fn p6_e_without_its_alternative() {
    let mut book = e_spliced(68..73, &[]);
    book[5] = 0;
    assert_eq!(search(&book, 1), Ok(Answer::None { total: 1 }));
    assert_eq!(search(&book, 0), Ok(Answer::More { limit: 0, total: 1 }));
}

#[test]
fn p7_one_station_alone() {
    let alone = encode(&book(1, &[], &[], &[]));
    assert_eq!(judge(&alone, 0), Ok(Verdict::Okay));
    let found = Answer::Found {
        choice: 0,
        total: 1,
    };
    assert_eq!(search(&alone, 1), Ok(found));
}

#[test]
fn p8_two_stations_and_no_lightpath() {
    let two = encode(&book(2, &[], &[], &[]));
    assert_eq!(judge(&two, 0), Ok(Verdict::Split { side: 1 }));
    assert_eq!(score(&two, 0), Ok((0, 0)));
}

#[test]
fn p9_two_lightpaths_on_one_span_or_two() {
    let spans = [[0, 1, 2], [0, 1, 2]];
    let shared = encode(&book(2, &spans, &[([0, 1], &[0]), ([0, 1], &[0])], &[]));
    assert_eq!(judge(&shared, 0), Ok(Verdict::Cut { span: 0, side: 1 }));
    let apart = encode(&book(2, &spans, &[([0, 1], &[0]), ([0, 1], &[1])], &[]));
    assert_eq!(judge(&apart, 0), Ok(Verdict::Okay));
}

#[test]
fn p10_books_too_short_and_too_long() {
    assert_eq!(read(&[]), Err(refusal(1, 0)));
    assert_eq!(read(&e()[..74]), Err(refusal(1, 73)));
    assert_eq!(read(&e_spliced(75..75, &[0])), Err(refusal(9, 75)));
}

#[test]
fn routes_are_walked_in_their_order() {
    assert_eq!(read(&e_spliced(66..68, &[4, 2])), Err(refusal(7, 66)));
}

#[test]
fn sixty_four_nodes_are_read_and_sixty_five_refused() {
    assert!(read(&encode(&book(64, &[], &[], &[]))).is_ok());
    let more = encode(&book(65, &[], &[], &[]));
    assert_eq!(read(&more), Err(refusal(3, 0)));
}

#[test]
fn route_length_16_is_read_and_17_refused() {
    let spans = line(18);
    let route: Vec<u8> = (0..17).collect();
    let long = encode(&book(18, &spans, &[([0, 16], &route[..16])], &[]));
    assert!(read(&long).is_ok());
    let longer = encode(&book(18, &spans, &[([0, 17], &route)], &[]));
    assert_eq!(read(&longer), Err(refusal(6, 6 + 3 * 18 + 5 * 17)));
}

#[test]
fn report_on_e() {
    let listing = "BOOK 4 5 4 1\nCUT 2 0000000000000007\nSCORE 2 0\n\
        SITE 2 0000000000000003\nFOUND 1 2\nMOVE 3 1\nEND\n";
    assert_eq!(report(&e()), listing);
}

#[test]
fn report_on_other_books() {
    assert_eq!(report(&[]), "BAD 1 0\nEND\n");
    assert_eq!(report(&e_spliced(75..75, &[0; 9000])), "BAD 9 75\nEND\n");
    let two = encode(&book(2, &[], &[], &[]));
    let split = "BOOK 2 0 0 0\nSPLIT 0000000000000001\nSCORE 0 0\nSITE OK\nNONE 1\nEND\n";
    assert_eq!(report(&two), split);
    let over = "BOOK 4 5 4 1\nOVER 2 2 1\nSCORE 2 1\n\
        SITE 2 0000000000000003\nFOUND 1 2\nMOVE 3 1\nEND\n";
    assert_eq!(report(&e_with(32, 1)), over);
    let alone = encode(&book(1, &[], &[], &[]));
    assert_eq!(
        report(&alone),
        "BOOK 1 0 0 0\nOK\nSCORE 0 0\nSITE OK\nFOUND 0 1\nEND\n"
    );
}

#[test]
fn a_pass_through_node_need_not_be_joined() {
    let mut three = book(3, &line(3), &[], &[]);
    three.stations = vec![false, true, false];
    assert_eq!(judge(&encode(&three), 0), Ok(Verdict::Okay));
}

#[test]
fn a_parallel_lightpath_stays_up() {
    let spans = [[0, 1, 2], [0, 1, 2], [0, 1, 2]];
    let three = [([0, 1], &[0][..]), ([0, 1], &[0][..]), ([1, 0], &[2][..])];
    assert_eq!(
        judge(&encode(&book(2, &spans, &three, &[])), 0),
        Ok(Verdict::Okay)
    );
}
