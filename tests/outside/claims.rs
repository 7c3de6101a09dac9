//! igb_check_claims, through its C interface, against the checker written a second time (tests/reference/claims.rs): files that the writer makes for
//! formulas at random, which must be accepted and claim what all models have, and the same files damaged.
//!
//!   claims SEED N             N formulas made from SEED, each with its file and damaged ones
//!   claims --write FILE       the file of claims of a card, on standard output

#[allow(dead_code)]
#[path = "../reference/claims.rs"]
mod claims;
#[allow(dead_code)]
#[path = "../../rust/src/raw.rs"]
mod raw;
#[allow(dead_code)]
#[path = "../reference/rules.rs"]
mod rules;
#[allow(dead_code)]
#[path = "../reference/texts.rs"]
mod texts;

use std::collections::BTreeMap;
use std::process::ExitCode;
use std::{env, fs};

use texts::Random;

/// What a byte of a damaged file may become.
const BYTES: &[u8] = b"0123456789- \t\r\nx%c";

fn entries_of(r: &mut Random, vars: u64) -> Vec<i32> {
    let mut entries = Vec::new();
    for _ in 0..r.below(4 * vars + 2) {
        for _ in 0..r.below(3) + u64::from(r.below(20) > 0) {
            if vars > 0 {
                let v = 1 + r.below(vars) as i32;
                entries.push(if r.below(2) == 0 { v } else { -v });
            }
        }
        entries.push(0);
    }
    entries
}

/// One to three changes: a byte, a token left out, two tokens exchanged, a token twice, the end cut off, another V, an entry changed.
fn damaged(r: &mut Random, text: &str) -> Vec<u8> {
    let mut tokens: Vec<Vec<u8>> = text.split_whitespace().map(|t| t.as_bytes().to_vec()).collect();
    for _ in 0..r.below(3) {
        if tokens.is_empty() {
            break;
        }
        let (i, j) = (r.below(tokens.len() as u64) as usize, r.below(tokens.len() as u64) as usize);
        match r.below(6) {
            0 => drop(tokens.remove(i)),
            1 => tokens.swap(i, j),
            2 => tokens.insert(i, tokens[j].clone()),
            3 => tokens.truncate(i),
            4 => tokens[i] = (r.below(9) as i64 - 4).to_string().into_bytes(),
            _ => tokens.push(tokens[i].clone()),
        }
    }
    let mut bytes = tokens.join(&b' ');
    if !bytes.is_empty() && r.below(2) == 0 {
        let i = r.below(bytes.len() as u64) as usize;
        bytes[i] = BYTES[r.below(BYTES.len() as u64) as usize];
    }
    bytes
}

fn compare(entries: &[i32], vars: u32, text: &[u8], answers: &mut BTreeMap<u32, usize>) -> Result<(), String> {
    let got = raw::check_claims(entries, vars, text);
    let want = claims::check(entries, vars, text).map_or_else(|(n, place)| (n, place as u32), |_| (0, 0));
    *answers.entry(want.0).or_default() += 1;
    if (got.answer, got.place) == want {
        return Ok(());
    }
    let text = String::from_utf8_lossy(text);
    Err(format!("differs: vars {vars} entries {entries:?} text {text:?}: got {} {}, expected {want:?}", got.answer, got.place))
}

fn formula(r: &mut Random, answers: &mut BTreeMap<u32, usize>) -> Result<usize, String> {
    let vars = r.below(9);
    let entries = entries_of(r, vars);
    let vars = vars as u32;
    let mut calls = 0;
    let file = claims::write(&entries, vars, 10_000);
    if let Some(file) = &file {
        compare(&entries, vars, file.as_bytes(), answers)?;
        let forced = rules::by_models(vars as usize, &rules::clauses_of(&entries)).expect("there is a model");
        let claimed = claims::check(&entries, vars, file.as_bytes()).map_err(|e| format!("the writer's file is refused: {e:?}: {file}"))?;
        if claimed != forced.iter().filter(|&&s| s >= 2).count() {
            return Err(format!("{claimed} claims of {entries:?}, statuses {forced:?}"));
        }
        calls += 1;
    }
    let file = file.unwrap_or_else(|| format!("{vars} 1 -2 3 1 1 -2 1 2"));
    for _ in 0..8 {
        let text = damaged(r, &file);
        let mut list = entries.clone();
        let mut v = vars;
        match r.below(12) {
            0 => drop(list.pop()),
            1 => v += 1,
            2 => v = v.saturating_sub(1),
            3 => v = 257,
            _ => {}
        }
        compare(&list, v, &text, answers)?;
        calls += 1;
    }
    Ok(calls)
}

/// The sizes at their edges: 256 splits deep, 32,768 bytes and one more.
fn edges(answers: &mut BTreeMap<u32, usize>) -> Result<usize, String> {
    let mut list: Vec<i32> = (1..=256).chain([0]).collect();
    for v in 2..=256 {
        list.extend([1, -v, 0]);
    }
    // 1 is forced: under -1 each v from 2 on must be false, and then clause 1 is
    let model: String = (1..=256).map(|v| if v == 1 { " 1".to_string() } else { format!(" -{v}") }).collect();
    let mut tree = String::new();
    for v in 2..=256 {
        tree += &format!(" -{v}");
    }
    tree += " 1";
    for v in (2..=256).rev() {
        tree += &format!(" {v}");
    }
    let file = format!("256{model}\n1\n1{tree}\n");
    if claims::check(&list, 256, file.as_bytes()) != Ok(1) {
        return Err("the deepest file does not hold".to_string());
    }
    let mut long = file.clone().into_bytes();
    long.resize(32_768, b' ');
    let mut over = long.clone();
    over.push(b' ');
    for text in [file.as_bytes(), &long, &over, &long[..1000]] {
        compare(&list, 256, text, answers)?;
    }
    Ok(4)
}

fn main() -> ExitCode {
    let words: Vec<String> = env::args().skip(1).collect();
    if let [option, file] = &words[..] {
        if option == "--write" {
            let text = fs::read(file).expect("a file that can be read");
            let card = rules::read(&text).expect("a text that is accepted");
            print!("{}", claims::write(&card.entries, card.vars as u32, 1_000_000).expect("a card with a model, and few tries"));
            return ExitCode::SUCCESS;
        }
    }
    let [seed, n] = &words[..] else { panic!("claims SEED N, or claims --write FILE") };
    let mut r = Random::of_seed(seed.parse().expect("a number"));
    let mut answers = BTreeMap::new();
    let mut calls = 0;
    let mut all = || -> Result<(), String> {
        calls += edges(&mut answers)?;
        for _ in 0..n.parse().expect("a number") {
            calls += formula(&mut r, &mut answers)?;
        }
        Ok(())
    };
    if let Err(difference) = all() {
        println!("claims: seed {seed}: {difference}");
        return ExitCode::FAILURE;
    }
    for answer in [0, 2, 5, 10, 11, 12, 17] {
        if !answers.contains_key(&answer) {
            println!("claims: the answer {answer} was never given");
            return ExitCode::FAILURE;
        }
    }
    println!("claims: {calls} calls, none differs; answers {answers:?}");
    ExitCode::SUCCESS
}
