//! Every refusal with its place, the sizes at their limits, and the functions on lent buffers.

use igbezolum::{raw, read, Formula, Limits, Refusal, Status, CLAUSES_MAX, ENTRIES_MAX, HELD_MAX, TABLE_MAX, TEXT_MAX, VARS_MAX};

/// The text of one clause of so many literals `1`.
fn ones(literals: usize) -> Vec<u8> {
    format!("p cnf 1 1\n{}0\n", "1 ".repeat(literals)).into_bytes()
}

fn padded(length: usize) -> Vec<u8> {
    let mut text = b"p cnf 1 1\n1 0".to_vec();
    text.resize(length, b' ');
    text
}

#[test]
fn texts_are_refused() {
    for (text, refusal, number, place) in [
        (&padded(TEXT_MAX + 1)[..], Refusal::LongText, 2, TEXT_MAX),
        (b"", Refusal::BadHeader { byte: 0 }, 3, 0),
        (b"c only\n", Refusal::BadHeader { byte: 7 }, 3, 7),
        (b"c a\nq cnf 1 1\n", Refusal::BadHeader { byte: 4 }, 3, 4),
        (b"c a\np cnf 257 0\n", Refusal::LargeHeader { byte: 4 }, 4, 4),
        (b"p cnf 0 1025\n", Refusal::LargeHeader { byte: 0 }, 4, 0),
        (b"p cnf 1 1\n-0 0", Refusal::BadToken { byte: 10 }, 5, 10),
        (b"p cnf 1 1\n1 0 1 0", Refusal::TokenBehind { byte: 14 }, 6, 14),
        (b"p cnf 1 1\n2 0", Refusal::TokenOverVars { byte: 10 }, 7, 10),
        (&ones(ENTRIES_MAX), Refusal::ManyTokens { byte: 10 + 2 * ENTRIES_MAX }, 8, 10 + 2 * ENTRIES_MAX),
        (b"p cnf 1 1\n1\n", Refusal::ShortText { byte: 12 }, 9, 12),
    ] {
        let got = read(text).expect_err("the text breaks a rule");
        assert_eq!((got, got.number(), got.place()), (refusal, number, place));
        assert_eq!(igbezolum::table(text), format!("refused {number} place {place}\n"));
        assert!(got.to_string().starts_with(&format!("refused {number} place {place}: ")));
    }
}

#[test]
fn runs_are_refused() {
    let most = Limits { budget: 100, chunk_limit: 256 };
    let too_long = [vec![1; ENTRIES_MAX], vec![0]].concat();
    for (vars, list, chunk_limit, refusal, number, place) in [
        (257, vec![1, 0], 1, Refusal::BadLimits, 10, 0),
        (u32::MAX, vec![1, 0], 1, Refusal::BadLimits, 10, 0),
        (1, vec![1, 0], 0, Refusal::BadLimits, 10, 0),
        (1, vec![1, 0], 257, Refusal::BadLimits, 10, 0),
        (1, too_long, 1, Refusal::BadList { index: ENTRIES_MAX }, 11, ENTRIES_MAX),
        (1, vec![2, 0, 1], 1, Refusal::BadList { index: 3 }, 11, 3),
        (1, vec![0; CLAUSES_MAX + 1], 1, Refusal::BadList { index: CLAUSES_MAX }, 11, CLAUSES_MAX),
        (1, vec![1, 0, -2, 0, 3, 0], 1, Refusal::EntryOverVars { index: 2 }, 12, 2),
        (256, vec![1, i32::MIN, 0], 1, Refusal::EntryOverVars { index: 1 }, 12, 1),
    ] {
        let got = Formula::new(vars, list).run(Limits { chunk_limit, ..most }).expect_err("it breaks a rule");
        assert_eq!((got, got.number(), got.place()), (refusal, number, place));
    }
}

#[test]
fn held_literals_are_refused() {
    for (vars, list, held, refusal, number, place) in [
        (1, vec![2, 0], vec![0; HELD_MAX + 1], Refusal::EntryOverVars { index: 0 }, 12, 0),
        (1, vec![], vec![0; HELD_MAX + 1], Refusal::ManyHeld, 15, HELD_MAX),
        (1, vec![], vec![1, 0, -2], Refusal::BadLiteral { index: 1 }, 13, 1),
        (1, vec![], vec![1, -1, -2], Refusal::BadLiteral { index: 2 }, 13, 2),
        (256, vec![], vec![i32::MIN], Refusal::BadLiteral { index: 0 }, 13, 0),
    ] {
        let formula = Formula::new(vars, list);
        let got = formula.run_held(&held, Limits::default()).expect_err("it breaks a rule");
        assert_eq!((got, got.number(), got.place()), (refusal, number, place));
        assert_eq!(formula.setup(&held, 100), Err(refusal));
    }
    let most = Formula::new(1, [vec![1; ENTRIES_MAX - 1], vec![0]].concat()).run_held(&[1; HELD_MAX], Limits::default());
    assert_eq!(most.expect("256 held literals count for themselves").status, [Status::ForcedOn]);
    assert_eq!(igbezolum::table_held(b"p cnf 1 0\n", &[2]), "refused 13 place 0\n");
}

#[test]
fn numbers_and_variants_go_together() {
    for answer in (1..=15).chain([17]) {
        let refusal = Refusal::of(answer, 5).expect("1 to 15 and 17 are refusals");
        assert_eq!(refusal.number(), answer);
        let place = match answer {
            1 | 10 | 14 => 0,
            2 => TEXT_MAX,
            15 => HELD_MAX,
            _ => 5,
        };
        assert_eq!(refusal.place(), place);
    }
    assert_eq!([0, 16, 20, 21, 22].map(|answer| Refusal::of(answer, 0)), [None; 5]);
}

#[test]
fn sizes_at_their_limits() {
    assert_eq!(read(&padded(TEXT_MAX)).expect("32,768 bytes").entries(), [1, 0]);
    assert_eq!(read(&ones(ENTRIES_MAX - 1)).expect("4,096 entries").entries().len(), ENTRIES_MAX);
    let text = format!("p cnf {VARS_MAX} {CLAUSES_MAX}\n{}", "-256 0\n".repeat(CLAUSES_MAX));
    let formula = read(text.as_bytes()).expect("256 variables and 1,024 clauses");
    assert_eq!(formula.clauses().count(), CLAUSES_MAX);
    let run = formula.run(Limits { budget: u32::MAX, chunk_limit: 256 }).expect("its list is not refused");
    assert_eq!(run.forced().collect::<Vec<_>>(), [(256, false)]);
    assert_eq!(run.status[..255], [Status::Free; 255]);
    assert_eq!(igbezolum::table(text.as_bytes()).lines().count(), VARS_MAX + 1);
}

#[test]
fn a_lent_buffer_is_too_short() {
    let text = b"p cnf 1 1\n1 0";
    let mut entries = vec![7; ENTRIES_MAX - 1];
    assert_eq!(raw::read(text, &mut entries), raw::Reading { answer: 1, place: 0, vars: 0, clauses: 0, count: 0 });
    assert!(entries.iter().all(|&e| e == 7));

    let (mut status, mut calls, mut ways, mut hints, mut log) = ([7; 1], [7; 1], [7; 1], [7; 1], [7; 12]);
    let refused = raw::Report { answer: 1, place: 0, calls: 0, tries: 0, forced: 0, free: 0 };
    assert_eq!(raw::run(&[1, 0], 1, &[], 100, 1, &mut [], &mut calls, &mut ways, &mut hints, &mut log), refused);
    assert_eq!(raw::run(&[1, 0], 1, &[], 100, 1, &mut status, &mut [], &mut ways, &mut hints, &mut log), refused);
    assert_eq!(raw::run(&[1, 0], 1, &[], 100, 1, &mut status, &mut calls, &mut [], &mut hints, &mut log), refused);
    assert_eq!(raw::run(&[1, 0], 1, &[], 100, 1, &mut status, &mut calls, &mut ways, &mut [], &mut log), refused);
    assert_eq!(raw::run(&[1, 0], 1, &[], 100, 1, &mut status, &mut calls, &mut ways, &mut hints, &mut log[..11]), refused);
    assert_eq!((status, calls, ways, hints, log), ([7; 1], [7; 1], [7; 1], [7; 1], [7; 12]));
    let forced = raw::Report { answer: 0, place: 0, calls: 2, tries: 0, forced: 1, free: 0 };
    assert_eq!(raw::run(&[1, 0], 1, &[], 100, 1, &mut status, &mut calls, &mut ways, &mut hints, &mut log), forced);
    assert_eq!((status, calls, ways, hints, log), ([2], [2], [3], [1], [1, 1, 0, 0, 0, 0, 2, 2, 1, 0, 0, 0]));

    let mut out = vec![7; TABLE_MAX];
    assert_eq!(raw::table(text, &[], &mut out[1..]), 0);
    assert!(out.iter().all(|&b| b == 7));
    let length = raw::table(text, &[], &mut out);
    assert_eq!(&out[..length], b"answer 0 calls 2 tries 0 forced 1 free 0 open 0\n1 forced on held by clause 1\n");
    assert!(out[length..].iter().all(|&b| b == 7));
}

#[test]
fn the_library_has_this_version() {
    let number = |part: &str| part.parse::<u32>().expect("a number");
    let [major, minor, patch] =
        [env!("CARGO_PKG_VERSION_MAJOR"), env!("CARGO_PKG_VERSION_MINOR"), env!("CARGO_PKG_VERSION_PATCH")].map(number);
    assert_eq!(raw::version(), major * 10_000 + minor * 100 + patch);
}
