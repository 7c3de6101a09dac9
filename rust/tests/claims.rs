//! What other tools claim, from Rust: files that hold, and each kind of fault with its place.

use igbezolum::{read, Refusal};

#[test]
fn verdicts() {
    let card = read(b"p cnf 2 2\n1 2 0 1 -2 0\n").expect("a card");
    let cases: [(&[u8], Result<(), Refusal>); 8] = [
        (b"2 1 2 0", Ok(())),
        (b"2 1 -2 2 1 -2 1 2 1 -2 1 2", Ok(())),
        (b"2 1 -2 1 1 -2 2 1", Err(Refusal::Rejected { byte: 14 })),
        (b"2 -1 -2 0", Err(Refusal::Rejected { byte: 0 })),
        (b"2 1 2 1 1 1", Err(Refusal::Rejected { byte: 10 })),
        (b"2 1 2 1 1 -2 1", Err(Refusal::Rejected { byte: 14 })),
        (b"2 1 2 0 %", Err(Refusal::BadToken { byte: 8 })),
        (b"", Err(Refusal::Rejected { byte: 0 })),
    ];
    for (text, expected) in cases {
        assert_eq!(card.check_claims(text), expected, "{}", String::from_utf8_lossy(text));
    }
    assert_eq!(card.check_claims(&[b' '; 32_769]), Err(Refusal::LongText));
}
