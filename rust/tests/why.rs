//! Why a literal is forced: small formulas by hand, a card, and the player's choices.

use igbezolum::{raw, read, Choice, Formula, Found, Kept, Reason, Refusal, Why};

const BUDGET: u32 = 1_000_000;

fn why(vars: u32, entries: &[i32], literal: i32, budget: u32) -> Result<Why, Refusal> {
    Formula::new(vars, entries.to_vec()).why(literal, budget)
}

fn kept(clauses: &[(u32, &[i32])]) -> Found {
    let clauses = clauses.iter().map(|&(number, literals)| Kept { number, literals: literals.to_vec() }).collect();
    Found::Reason(Reason { clauses, choices: Vec::new() })
}

#[test]
fn small_formulas() {
    for (vars, entries, literal, budget, found, calls, tries) in [
        (1, &[1, 0][..], 1, BUDGET, kept(&[(1, &[1])]), 3, 0),
        (1, &[1, 1, 0], 1, BUDGET, kept(&[(1, &[1, 1])]), 3, 0),
        (3, &[1, 0, -1, 2, 0, -2, 3, 0], 3, BUDGET, kept(&[(1, &[1]), (2, &[-1, 2]), (3, &[-2, 3])]), 5, 0),
        (2, &[1, 2, 0, 1, -2, 0, 1, 0], 1, BUDGET, kept(&[(1, &[1, 2]), (2, &[1, -2])]), 5, 1),
        (2, &[1, 2, 0], 1, BUDGET, Found::NotForced(vec![false, true]), 2, 1),
        (1, &[1, 0, -1, 0], 1, BUDGET, Found::NoModel, 1, 0),
        (1, &[], 1, 0, Found::Stopped, 1, 0),
    ] {
        assert_eq!(why(vars, entries, literal, budget), Ok(Why { found, calls, tries }), "{entries:?}");
    }
}

#[test]
fn copy_before_release() {
    let card = read(include_bytes!("../../examples/surface_ring.cnf")).expect("the card is a formula");
    let Found::Reason(reason) = card.why(1, BUDGET).expect("1 is a literal").found else { panic!("1 is forced") };
    assert_eq!(reason.clauses.iter().map(|clause| clause.number).collect::<Vec<_>>(), [1, 2, 3, 4, 5, 6, 7, 8, 9]);
    assert_eq!(reason.clauses[8].literals, [-2, 1]);
    assert!(reason.choices.is_empty());
}

#[test]
fn a_choice_is_to_blame() {
    // "low latency does not wait": 11 is off as soon as 12 is chosen
    let card = read(include_bytes!("../../examples/surface_ring.cnf")).expect("the card is a formula");
    assert!(matches!(card.why(-11, BUDGET).expect("a literal").found, Found::NotForced(_)));
    let Found::Reason(reason) = card.why_held(&[4, 12], -11, BUDGET).expect("a literal").found else { panic!("it is forced then") };
    assert_eq!(reason.clauses, [Kept { number: 18, literals: vec![-12, -11] }]);
    assert_eq!(reason.choices, [Choice { index: 1, literal: 12 }]);
    // both signs held: no setup
    assert_eq!(card.why_held(&[4, -4], 1, BUDGET).expect("a literal").found, Found::NoModel);
}

#[test]
fn what_is_refused() {
    for (vars, entries, literal, refusal, number) in [
        (257, &[][..], 1, Refusal::BadLimits, 10),
        (1, &[1], 0, Refusal::BadList { index: 1 }, 11),
        (1, &[1, 0, -2, 0], 0, Refusal::EntryOverVars { index: 2 }, 12),
        (1, &[1, 0], 0, Refusal::BadLiteral { index: 0 }, 13),
        (1, &[1, 0], 2, Refusal::BadLiteral { index: 0 }, 13),
        (1, &[1, 0], -2, Refusal::BadLiteral { index: 0 }, 13),
        (1, &[1, 0], i32::MIN, Refusal::BadLiteral { index: 0 }, 13),
    ] {
        assert_eq!(why(vars, entries, literal, BUDGET), Err(refusal));
        assert_eq!((refusal.number(), Refusal::of(number, refusal.place() as u32)), (number, Some(refusal)));
    }
}

#[test]
fn choices_that_are_refused() {
    let one = Formula::new(1, vec![1, 0]);
    for choice in [0, 2, -2, i32::MIN] {
        assert_eq!(one.why_held(&[1, choice], 1, BUDGET), Err(Refusal::BadLiteral { index: 1 }));
    }
    // the formula's own refusals come first
    assert_eq!(Formula::new(1, vec![2, 0]).why_held(&[0], 1, BUDGET), Err(Refusal::EntryOverVars { index: 0 }));
    assert_eq!(Formula::new(257, Vec::new()).why_held(&[0], 1, BUDGET), Err(Refusal::BadLimits));
    assert_eq!(Formula::new(0, Vec::new()).why_held(&[1], 1, BUDGET), Err(Refusal::BadLiteral { index: 0 }));
    // choices that do not fit behind the formula
    let full = Formula::new(1, [1, 0].repeat(1_024));
    assert!(matches!(full.why(1, BUDGET).expect("1,024 clauses fit").found, Found::Reason(_)));
    assert_eq!(full.why_held(&[1], 1, BUDGET), Err(Refusal::BadList { index: 2_049 }));
    let mut long = vec![1; 4_094];
    long.push(0);
    assert_eq!(Formula::new(1, long).why_held(&[1], 1, BUDGET), Err(Refusal::BadList { index: 4_096 }));
}

#[test]
fn lent_buffers() {
    let (mut marks, mut values) = ([7; 1_024], [7; 2]);
    let short = raw::WhyReport { answer: 1, ..raw::WhyReport::default() };
    assert_eq!(raw::why(&[1, 0], 2, 1, 9, &mut marks[..1_023], &mut values), short);
    assert_eq!(raw::why(&[1, 0], 2, 1, 9, &mut marks, &mut values[..1]), short);
    assert_eq!((marks, values), ([7; 1_024], [7; 2]));
    let kept = raw::WhyReport { answer: 0, place: 0, calls: 3, tries: 2 };
    assert_eq!(raw::why(&[1, 0], 2, 1, 9, &mut marks, &mut values), kept);
    assert_eq!((marks[0], marks[1..].iter().all(|&m| m == 0), values), (1, true, [0; 2]));
}
