//! How variables were settled, and two setups that differ on a free one.

use igbezolum::{raw, read, witness_text, Formula, Limits, Refusal, Settled, Status, Way, WITNESS_TEXT_MAX};

#[test]
fn small_formulas() {
    for (vars, entries, records) in [
        (1, &[1, 0][..], &[(Status::ForcedOn, 2, Way::Chunk)][..]),
        (2, &[1, 2, 0], &[(Status::Free, 1, Way::Flip), (Status::Free, 2, Way::Compare)]),
        (2, &[1, -2, 0, -1, 2, 0], &[(Status::Free, 2, Way::Compare), (Status::Free, 2, Way::Compare)]),
        (1, &[1, 0, -1, 0], &[(Status::Open, 0, Way::Open)]),
    ] {
        let run = Formula::new(vars, entries.to_vec()).run(Limits::default()).expect("it keeps the rules");
        let got: Vec<_> = (1..=vars).map(|v| run.settled(v)).collect();
        let expected: Vec<_> = records.iter().map(|&(status, call, way)| Some(Settled { status, call, way })).collect();
        assert_eq!(got, expected, "{entries:?}");
        assert_eq!((run.settled(0), run.settled(vars + 1)), (None, None));
    }
}

#[test]
fn every_free_switch_of_the_cards() {
    for text in [&include_bytes!("../../examples/surface_ring.cnf")[..], include_bytes!("../../examples/encoder.cnf")] {
        let card = read(text).expect("the card is a formula");
        let run = card.run(Limits::default()).expect("so is its list");
        let holds = |model: &[bool]| card.clauses().all(|c| c.iter().any(|&l| model[l.unsigned_abs() as usize - 1] == (l > 0)));
        for v in 0..=card.vars() + 1 {
            let pair = card.witness(v, Limits::default());
            if run.free().all(|free| free != v) {
                assert_eq!((pair, witness_text(text, v).as_str()), (Err(Refusal::NotFree), "refused 14 place 0\n"));
                continue;
            }
            let (first, other) = pair.expect("it is free");
            assert!(holds(&first) && holds(&other) && first[v as usize - 1] != other[v as usize - 1]);
            let line = |m: &[bool]| (1..).zip(m).map(|(v, &on): (i32, _)| if on { v } else { -v }.to_string()).collect::<Vec<_>>().join(" ");
            assert_eq!(witness_text(text, v), format!("{}\n{}\n", line(&first), line(&other)));
        }
    }
}

#[test]
fn refusals_in_their_order() {
    let limits = Limits::default();
    let bad = Formula::new(1, vec![2, 0, 1]);
    assert_eq!(bad.witness(0, Limits { chunk_limit: 0, ..limits }), Err(Refusal::BadLimits));
    assert_eq!(bad.witness(0, limits), Err(Refusal::BadList { index: 3 }));
    assert_eq!(Formula::new(1, vec![2, 0]).witness(0, limits), Err(Refusal::EntryOverVars { index: 0 }));
    let free = Formula::new(1, vec![]);
    assert_eq!(free.witness(2, limits), Err(Refusal::NotFree));
    assert_eq!(free.witness(1, Limits { budget: 0, ..limits }), Err(Refusal::NotFree));
    assert_eq!(free.witness(1, limits), Ok((vec![false], vec![true])));
}

#[test]
fn lent_buffers() {
    let (mut first, mut other) = ([7; 3], [8; 3]);
    let refused = raw::Report { answer: 1, ..raw::Report::default() };
    assert_eq!(raw::witness(&[1, 2, 0], 2, &[], 100, 16, 1, &mut first[..1], &mut other), refused);
    assert_eq!(raw::witness(&[1, 2, 0], 2, &[], 100, 16, 1, &mut first, &mut other[..1]), refused);
    assert_eq!((first, other), ([7; 3], [8; 3]));
    let report = raw::witness(&[1, 2, 0], 2, &[], 100, 16, 1, &mut first, &mut other);
    assert_eq!(report, raw::Report { answer: 0, place: 0, calls: 2, tries: 1, forced: 0, free: 2 });
    assert_eq!((first, other), ([-1, 2, 7], [1, 2, 8]));

    let mut out = vec![7; WITNESS_TEXT_MAX];
    assert_eq!(raw::witness_text(b"p cnf 1 0\n", 1, &mut out[1..]), 0);
    assert!(out.iter().all(|&b| b == 7));
    assert_eq!(raw::witness_text(b"p cnf 1 0\n", 1, &mut out), 5);
    assert_eq!(&out[..6], b"-1\n1\n\x07");
}
