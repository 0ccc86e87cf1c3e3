//! The joined form against the cut-set form, and facts that hold between the answers.

use twin::cutset;
use twin::generate::{good, small, Random};
use twin::joining::side;
use twin::judgement::{ask, judge, plan_score, verdict, Verdict};
use twin::numbering::{total, Plan};
use twin::searching::{search_book, Answer};
use twin::writing::encode;

#[test]
fn joining_agrees_with_cut_sets() {
    let mut random = Random::new(1);
    let mut kinds = [0; 4];
    for seed in 0..4000 {
        let book = small(seed);
        let choice = random.below(total(&book) as usize) as u32;
        let plan = Plan::new(&book, choice);
        let judged = verdict(&plan);
        assert_eq!(judged, cutset::verdict(&plan), "seed {seed}");
        assert_eq!(plan_score(&plan).0, cutset::score(&plan), "seed {seed}");
        assert_eq!(side(&plan, &[]), cutset::side(&plan, &[]));
        for span in 0..book.spans.len() {
            let asked = ask(&encode(&book), choice, span as u32).unwrap();
            assert_eq!(asked.0, cutset::side(&plan, &[span]));
            assert_eq!(asked.1, cutset::parting(&plan, &[span]).is_empty());
        }
        kinds[match judged {
            Verdict::Over { .. } => 0,
            Verdict::Split { .. } => 1,
            Verdict::Cut { .. } => 2,
            Verdict::Okay => 3,
        }] += 1;
    }
    assert!(kinds.iter().all(|&count| count >= 200), "{kinds:?}");
}

#[test]
fn score_and_verdict_agree() {
    for seed in 0..1500 {
        let book = good(seed);
        let plan = Plan::new(&book, 0);
        let (parting, excess) = plan_score(&plan);
        assert!(parting <= 1536 && excess <= 1536);
        let judged = verdict(&plan);
        assert_eq!(matches!(judged, Verdict::Over { .. }), excess > 0);
        let joined = side(&plan, &[]) == book.station_set();
        let all = |span| side(&plan, &[span]) == book.station_set();
        if joined {
            assert_eq!(parting == 0, (0..book.spans.len()).all(all));
        }
        let fine = joined && parting == 0 && excess == 0;
        assert_eq!(judged == Verdict::Okay, fine);
    }
}

#[test]
fn search_gives_the_first_acceptable_choice() {
    for seed in 0..1500 {
        let book = small(seed);
        let total = total(&book);
        if total > 300 {
            continue;
        }
        let bytes = encode(&book);
        let fine = |choice: &u32| judge(&bytes, *choice) == Ok(Verdict::Okay);
        let first = (0..total).find(fine);
        for limit in (0..=total + 1).chain([u32::MAX]) {
            let wanted = match first {
                Some(choice) if choice < limit => Answer::Found { choice, total },
                None if limit >= total => Answer::None { total },
                _ => Answer::More { limit, total },
            };
            assert_eq!(search_book(&book, limit), wanted);
        }
    }
}

#[test]
fn raised_span_limits_never_lose_a_choice() {
    let mut random = Random::new(3);
    for seed in 0..1500 {
        let mut book = small(seed);
        let before = search_book(&book, 500);
        for span in &mut book.spans {
            span.limit = span.limit.saturating_add(random.below(4) as u8);
        }
        if let Answer::Found { choice, .. } = before {
            let after = search_book(&book, 500);
            assert!(matches!(after, Answer::Found { choice: c, .. } if c <= choice));
        }
    }
}
