//! What other tools claim, written a second time from docs/RULES.md, "Claims": the checker, with a tree as a value, and a writer of claims by plain
//! search, so that files of real cards exist.

use crate::rules::{self, Refusal};

const MAX_TEXT: usize = 32_768;

/// Clauses as they stand, repeated literals too.
pub fn clauses_of(entries: &[i32]) -> Vec<Vec<i32>> {
    let mut all: Vec<Vec<i32>> = entries.split(|&e| e == 0).map(<[i32]>::to_vec).collect();
    all.pop();
    all
}

// ---- the checker

/// What is read of a text: each token with its place, and the number that it says.
struct Numbers<'a> {
    tokens: Vec<(usize, &'a [u8])>,
    next: usize,
    end: usize,
}

fn number_of(word: &[u8]) -> Option<i64> {
    let (minus, digits) = match word {
        [b'-', rest @ ..] => (true, rest),
        _ => (false, word),
    };
    if digits.is_empty() || digits.len() > 9 || !digits.iter().all(u8::is_ascii_digit) {
        return None;
    }
    let n = digits.iter().fold(0, |n, d| 10 * n + i64::from(d - b'0'));
    if minus && n == 0 { None } else { Some(if minus { -n } else { n }) }
}

impl<'a> Numbers<'a> {
    fn of(text: &'a [u8]) -> Numbers<'a> {
        let mut tokens = Vec::new();
        let mut from = 0;
        for word in text.split(|b| b" \t\r\n".contains(b)) {
            if !word.is_empty() {
                tokens.push((from, word));
            }
            from += word.len() + 1;
        }
        Numbers { tokens, next: 0, end: text.len() }
    }

    /// The next number with its place: 5 for a malformed token, 17 where there is none.
    fn due(&mut self) -> Result<(usize, i64), Refusal> {
        let &(at, word) = self.tokens.get(self.next).ok_or((17, self.end))?;
        self.next += 1;
        Ok((at, number_of(word).ok_or((5, at))?))
    }
}

/// A tree under the literals that are true there.
fn tree(numbers: &mut Numbers, vars: usize, clauses: &[Vec<i32>], truths: &[i64]) -> Result<(), Refusal> {
    let (at, n) = numbers.due()?;
    if n < 0 {
        if -n > vars as i64 || truths.iter().any(|t| t.abs() == -n) {
            return Err((17, at));
        }
        for side in [n, -n] {
            let mut below = truths.to_vec();
            below.push(side);
            tree(numbers, vars, clauses, &below)?;
        }
        return Ok(());
    }
    let clause = usize::try_from(n).ok().and_then(|n| n.checked_sub(1)).and_then(|i| clauses.get(i)).ok_or((17, at))?;
    if clause.iter().all(|&l| truths.contains(&-i64::from(l))) { Ok(()) } else { Err((17, at)) }
}

/// How many claims are accepted; an error where the file is refused or rejected.
pub fn check(entries: &[i32], vars: u32, text: &[u8]) -> Result<usize, Refusal> {
    // 10 for V alone, 11, 12: as a setup with room is refused
    rules::setup(entries, vars, &[], 0, vars as usize)?;
    if text.len() > MAX_TEXT {
        return Err((2, MAX_TEXT));
    }
    let clauses = clauses_of(entries);
    let vars = vars as usize;
    let mut numbers = Numbers::of(text);
    let (count_at, count) = numbers.due()?;
    if count != vars as i64 {
        return Err((17, count_at));
    }
    let mut model = Vec::new();
    for v in 1..=vars as i64 {
        let (at, l) = numbers.due()?;
        if l.abs() != v {
            return Err((17, at));
        }
        model.push(l);
    }
    if !clauses.iter().all(|c| c.iter().any(|&l| model.contains(&i64::from(l)))) {
        return Err((17, count_at));
    }
    let (at, claims) = numbers.due()?;
    let claims = usize::try_from(claims).map_err(|_| (17, at))?;
    for _ in 0..claims {
        let (at, l) = numbers.due()?;
        if l == 0 || l.unsigned_abs() as usize > vars {
            return Err((17, at));
        }
        tree(&mut numbers, vars, &clauses, &[-l])?;
    }
    match numbers.due() {
        Err((17, _)) => Ok(claims),
        Err(malformed) => Err(malformed),
        Ok((at, _)) => Err((17, at)),
    }
}

// ---- the writer

/// The literal that is true, by its variable; 0 where it is unset.
type Truths = Vec<i32>;

fn is(truths: &Truths, l: i32) -> Option<bool> {
    match truths[l.unsigned_abs() as usize - 1] {
        0 => None,
        t => Some(t == l),
    }
}

/// A clause that is false throughout, by its number; else a clause without a true literal that has the fewest unset ones.
fn narrowest(clauses: &[Vec<i32>], truths: &Truths) -> Result<usize, Option<i32>> {
    let mut best: Option<(usize, i32)> = None;
    for (i, clause) in clauses.iter().enumerate() {
        if clause.iter().any(|&l| is(truths, l) == Some(true)) {
            continue;
        }
        let unset: Vec<i32> = clause.iter().copied().filter(|&l| is(truths, l).is_none()).collect();
        let Some(&l) = unset.first() else { return Ok(i + 1) };
        if best.is_none_or(|(n, _)| unset.len() < n) {
            best = Some((unset.len(), l));
        }
    }
    Err(best.map(|(_, l)| l))
}

/// The tree of tries under the truths, or a model that has them. None where the tries are spent.
fn tries(clauses: &[Vec<i32>], truths: &mut Truths, left: &mut usize) -> Option<Result<String, Truths>> {
    let v = match narrowest(clauses, truths) {
        Ok(n) => return Some(Ok(format!(" {n}"))),
        Err(None) => return Some(Err(truths.clone())),
        Err(Some(l)) => l.abs(),
    };
    *left = left.checked_sub(1)?;
    let mut out = format!(" -{v}");
    for side in [-v, v] {
        truths[v as usize - 1] = side;
        let below = tries(clauses, truths, left);
        truths[v as usize - 1] = 0;
        match below? {
            Ok(tree) => out.push_str(&tree),
            model => return Some(model),
        }
    }
    Some(Ok(out))
}

/// A file that claims every forced literal, if there is a model and the tries are enough: the model on the first line, the number of claims on the second,
/// then a claim a line.
pub fn write(entries: &[i32], vars: u32, budget: usize) -> Option<String> {
    let clauses = clauses_of(entries);
    let mut left = budget;
    let unset: Truths = vec![0; vars as usize];
    let Err(model) = tries(&clauses, &mut unset.clone(), &mut left)? else { return None };
    let model: Vec<i32> = (1..).zip(model).map(|(v, t)| if t == 0 { -v } else { t }).collect();
    let mut claims = Vec::new();
    for &l in &model {
        let mut truths = unset.clone();
        truths[l.unsigned_abs() as usize - 1] = -l;
        if let Ok(tree) = tries(&clauses, &mut truths, &mut left)? {
            claims.push(format!("{l}{tree}\n"));
        }
    }
    let model: String = model.iter().map(|l| format!(" {l}")).collect();
    Some(format!("{vars}{model}\n{}\n{}", claims.len(), claims.concat()))
}
