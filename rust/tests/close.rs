//! What follows at once, and in how many rounds.

use igbezolum::{raw, read, Closing, End, Formula, Limits, Refusal};

fn closed(vars: u32, entries: &[i32], held: &[i32]) -> Closing {
    Formula::new(vars, entries.to_vec()).close(held).expect("it keeps the rules")
}

#[test]
fn chains() {
    for vars in [1, 3, 256] {
        let links: Vec<[i32; 3]> = (1..vars as i32).map(|v| [-v, v + 1, 0]).collect();
        let backwards: Vec<[i32; 3]> = links.iter().rev().copied().collect();
        let all = Some(vec![Some(true); vars as usize]);
        assert_eq!(closed(vars, &[&[1, 0], &links.concat()[..]].concat(), &[]), Closing { rounds: 2, values: all.clone() });
        assert_eq!(closed(vars, &[&backwards.concat()[..], &[1, 0]].concat(), &[]), Closing { rounds: vars + 1, values: all.clone() });
        // a held literal stands behind the clauses
        assert_eq!(closed(vars, &backwards.concat(), &[1]), Closing { rounds: vars + 1, values: all });
    }
}

#[test]
fn nothing_follows_and_a_clash() {
    let unset = |vars| Some(vec![None; vars]);
    assert_eq!(closed(2, &[], &[]), Closing { rounds: 1, values: unset(2) });
    assert_eq!(closed(2, &[1, 2, 0, 1, -1, 0], &[]), Closing { rounds: 1, values: unset(2) });
    assert_eq!(closed(2, &[0], &[]), Closing { rounds: 1, values: None });
    assert_eq!(closed(2, &[], &[1, -1]), Closing { rounds: 1, values: None });
    assert_eq!(closed(0, &[], &[]), Closing { rounds: 1, values: unset(0) });
    assert_eq!(closed(3, &[-1, 2, 0, -1, -2, 0], &[1]).set().count(), 0);
}

#[test]
fn what_is_set_on_the_cards_is_forced_there() {
    for text in [&include_bytes!("../../examples/surface_ring.cnf")[..], include_bytes!("../../examples/encoder.cnf")] {
        let card = read(text).expect("the card is a formula");
        for held in (1..=card.vars() as i32).flat_map(|v| [vec![v], vec![-v]]).chain([vec![]]) {
            let closing = card.close(&held).expect("so is its list");
            let run = card.run_held(&held, Limits::default()).expect("the same");
            let forced: Vec<_> = run.forced().collect();
            assert!(run.end == End::NoModel || closing.values.is_some());
            assert!(run.end == End::NoModel || closing.set().all(|literal| forced.contains(&literal)), "{held:?}");
            assert!(closing.rounds as usize <= closing.set().count() + 1 || closing.values.is_none());
            assert!(closing.rounds <= card.vars() + 1);
        }
    }
}

#[test]
fn refusals_and_lent_buffers() {
    let bad = Formula::new(1, vec![2, 0, 1]);
    assert_eq!(bad.close(&[0]), Err(Refusal::BadList { index: 3 }));
    assert_eq!(Formula::new(257, vec![]).close(&[0]), Err(Refusal::BadLimits));
    assert_eq!(Formula::new(1, vec![2, 0]).close(&[0]), Err(Refusal::EntryOverVars { index: 0 }));
    assert_eq!(Formula::new(1, vec![]).close(&[1, 2]), Err(Refusal::BadLiteral { index: 1 }));
    let mut values = [7; 3];
    assert_eq!(raw::close(&[1, 0], 2, &[], &mut values[..1]), raw::Closing { answer: 1, ..raw::Closing::default() });
    assert_eq!(values, [7; 3]);
    assert_eq!(raw::close(&[-1, 0], 2, &[], &mut values), raw::Closing { answer: 0, place: 0, rounds: 2, set: 1 });
    assert_eq!(values, [1, 0, 7]);
    assert_eq!(raw::close(&[-1, 0], 2, &[1], &mut values), raw::Closing { answer: 20, place: 0, rounds: 1, set: 0 });
    assert_eq!(values, [0, 0, 7]);
}
