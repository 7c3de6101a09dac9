//! Where a refusal is, and the words for it.

use igbezolum::{read, Refusal, TEXT_MAX};

fn said(text: &[u8]) -> String {
    read(text).expect_err("the text breaks a rule").within(text).to_string()
}

#[test]
fn line_and_column() {
    let ones = [&b"p cnf 1 1\n"[..], &b"1 ".repeat(4096), b"0"].concat();
    let long = [&b"c"[..], &b" ".repeat(TEXT_MAX - 14), b"\np cnf 1 1\n1 0"].concat();
    assert_eq!(long.len(), TEXT_MAX + 1);
    for (text, expected) in [
        (&long[..], "line 3, column 3: the text is too long: "),
        (b"", "line 1, column 1: the header is missing or malformed: "),
        (b"c only\n", "line 2, column 1: the header is missing or malformed: "),
        (b"c a\n p cnf 1 1\n", "line 2, column 1: the header is missing or malformed: "),
        (b"p cnf 257 1\n", "line 1, column 1: the header is over the sizes: "),
        (b"p cnf 2 2\r\n1 2 0\r\n\t x1\t0", "line 3, column 3: `x1`: not a number: a token is an optional - and 1 to 9 digits"),
        (b"p cnf 2 1\n1\0\x1b[2J\xff 0", "line 2, column 1: `1??[2J?`: not a number: "),
        (b"p cnf 2 1\n1234567890123456789012345 0", "line 2, column 1: `123456789012345678901234...`: not a number: "),
        (b"p cnf 1 1\n1 0 1 0", "line 2, column 5: `1`: behind the last clause: "),
        (b"p cnf 1 1\n-2 0", "line 2, column 1: `-2`: a variable above the header's number: "),
        (&ones, "line 2, column 8193: `0`: the 4,097th entry: "),
        (b"p cnf 1 1\n1\n", "line 3, column 1: the text ends too early: "),
    ] {
        assert!(said(text).starts_with(expected), "{}", said(text));
    }
}

#[test]
fn every_refusal_has_words() {
    for answer in (1..=15).chain([17]) {
        let refusal = Refusal::of(answer, 5).expect("1 to 15 and 17 are refusals");
        let plain = refusal.to_string();
        let words: Vec<&str> = plain.splitn(3, ": ").collect();
        assert_eq!(words[0], format!("refused {answer} place {}", refusal.place()));
        assert!(words.len() == 3 && words.iter().all(|part| !part.is_empty()), "{plain}");
        let of_text = (2..=9).contains(&answer) || answer == 17;
        assert_eq!(refusal.line_and_column(b"1\n2\n3\n").is_some(), of_text);
        if !of_text {
            assert_eq!(refusal.within(b"1\n2\n3\n").to_string(), plain);
        }
    }
}

#[test]
fn a_text_that_is_another() {
    // the place lies behind the text
    let refusal = Refusal::BadToken { byte: 20 };
    assert_eq!(refusal.line_and_column(b"1\n2"), Some((2, 2)));
    assert!(refusal.within(b"1\n2").to_string().starts_with("line 2, column 2: ``: "));
}
