//! The shorter file of small formulas (docs/RULES.md, "The shorter file").

use igbezolum::{read, End, Limits, Refusal};

fn shorter(text: &str, limits: Limits) -> (End, String) {
    let short = read(text.as_bytes()).unwrap().shorter(limits).unwrap();
    (short.end, short.text)
}

#[test]
fn small_formulas() {
    let two = Limits { budget: 100, chunk_limit: 2 };
    let six = Limits { budget: 6, chunk_limit: 2 };
    let deep = "p cnf 4 5\n1 0 2 3 4 0 2 3 -4 0 2 -3 4 0 -1 2 -3 -4 0\n";
    for (text, limits, end, short) in [
        ("p cnf 2 2\n1 2 0 1 -2 0\n", two, End::Settled, "p cnf 2 1\n1 0\n"),
        ("p cnf 4 3\n2 1 3 0 4 0 -2 0\n", two, End::Settled, "p cnf 4 3\n-2 0\n4 0\n1 3 0\n"),
        ("p cnf 3 3\n3 2 3 0 1 -1 0 3 2 0\n", two, End::Settled, "p cnf 3 3\n3 2 0\n1 -1 0\n3 2 0\n"),
        (deep, two, End::Settled, "p cnf 4 2\n1 0\n2 0\n"),
        (deep, six, End::Stopped, "p cnf 4 5\n1 0\n2 3 4 0\n2 3 -4 0\n2 -3 4 0\n2 -3 -4 0\n"),
        ("p cnf 1 2\n1 0 -1 0\n", two, End::NoModel, "p cnf 1 1\n0\n"),
        ("p cnf 0 0\n", two, End::Settled, "p cnf 0 0\n"),
    ] {
        assert_eq!(shorter(text, limits), (end, short.to_string()));
        assert_eq!(shorter(short, limits).1, short);
    }
}

#[test]
fn refused() {
    let card = read(b"p cnf 1 1\n1 0\n").unwrap();
    assert_eq!(card.shorter(Limits { budget: 1, chunk_limit: 0 }), Err(Refusal::BadLimits));
}
