//! Texts that tests make: a formula written plainly, and texts and lists of held literals at random.

use std::fmt::Write as _;

/// A formula written plainly.
pub fn text_of(vars: i32, clauses: &[Vec<i32>]) -> String {
    let mut text = format!("p cnf {vars} {}\n", clauses.len());
    for c in clauses {
        for l in c {
            write!(text, "{l} ").expect("a string takes every byte");
        }
        text.push_str("0\n");
    }
    text
}

pub struct Random(u64);

impl Random {
    pub fn of_seed(seed: u64) -> Random {
        Random(seed.wrapping_mul(2).wrapping_add(0x9E37_79B9_7F4A_7C15))
    }

    pub fn below(&mut self, n: u64) -> u64 {
        self.0 ^= self.0 << 13;
        self.0 ^= self.0 >> 7;
        self.0 ^= self.0 << 17;
        self.0.wrapping_mul(0x2545_F491_4F6C_DD1D) % n
    }
}

/// What a changed byte may become.
const BYTES: &[u8] = b"0123456789- \t\r\npcnfx%\0\xff";

/// Comment lines put behind LFs, the header's among them or not: at the start of a line, or behind a blank, where they are none.
pub fn with_comments(r: &mut Random, text: &mut Vec<u8>) {
    for _ in 0..=r.below(3) {
        let lines: Vec<usize> = (0..text.len()).filter(|&i| text[i] == b'\n').collect();
        if lines.is_empty() {
            return;
        }
        let at = 1 + lines[r.below(lines.len() as u64) as usize];
        let comment: &[u8] = match r.below(8) {
            0 => b"c\n",
            1 => b"c1 2 0\n",
            2 => b"c %\n",
            3 => b"c\t0 x -0\r\n",
            4 => b"c p cnf 1 1\n\n",
            5 => b"c\ncc\n",
            6 => b" c 1\n",
            _ => b"c no LF behind ",
        };
        text.splice(at..at, comment.iter().copied());
    }
}

/// A closing `%` line with something behind it, at the end or anywhere else.
pub fn with_percent(r: &mut Random, text: &mut Vec<u8>) {
    let at = if r.below(4) == 0 { r.below(text.len() as u64 + 1) as usize } else { text.len() };
    let end: &[u8] = match r.below(8) {
        0 => b"\n%\n0\n\n",
        1 => b"%\n0\n",
        2 => b" % 1 x",
        3 => b"\n%",
        4 => b"\n%\nc\n-0 999 %\xff\0",
        5 => b"\n%%\n",
        6 => b" %0\n",
        _ => b"\n%\r\n%\r\n",
    };
    text.splice(at..at, end.iter().copied());
}

/// A formula's text with comment lines and a closing `%` or without, or one with a byte or two changed.
pub fn random_text(r: &mut Random) -> Vec<u8> {
    let most = if r.below(8) == 0 { 40 } else { 12 };
    let vars = r.below(most);
    let clauses = r.below(4 * vars + 3);
    let mut text = String::new();
    if r.below(4) == 0 {
        text.push_str("c a comment\n \t\n");
    }
    write!(text, "p cnf {vars} {clauses}\n").expect("a string takes every byte");
    for _ in 0..clauses {
        // some clauses are empty, of one literal, of one literal twice, of both signs
        for _ in 0..if vars == 0 { 0 } else { r.below(4) + u64::from(r.below(20) > 0) } {
            let sign = if r.below(2) == 0 { "-" } else { "" };
            write!(text, "{sign}{} ", 1 + r.below(vars)).expect("a string takes every byte");
        }
        text.push_str(if r.below(3) == 0 { "0\n" } else { "0 " });
    }
    let mut text = text.into_bytes();
    if r.below(3) == 0 {
        with_comments(r, &mut text);
    }
    if r.below(3) == 0 {
        with_percent(r, &mut text);
    }
    if r.below(3) == 0 {
        for _ in 0..=r.below(2) {
            let at = r.below(text.len() as u64) as usize;
            match r.below(3) {
                0 => text[at] = BYTES[r.below(BYTES.len() as u64) as usize],
                1 => text.insert(at, BYTES[r.below(BYTES.len() as u64) as usize]),
                _ => {
                    text.remove(at);
                }
            }
        }
    }
    text
}

/// So many literals, some of them twice or with both signs; none if there are no variables.
pub fn some_literals(r: &mut Random, vars: u32, count: u64) -> Vec<i32> {
    let mut literals = Vec::new();
    for _ in 0..if vars == 0 { 0 } else { count } {
        let v = 1 + r.below(vars.into()) as i32;
        literals.push(if r.below(2) == 0 { v } else { -v });
    }
    literals
}

/// Literals to hold: a few or many, and now and then one that is none or too many of them.
pub fn random_held(r: &mut Random, vars: u32) -> Vec<i32> {
    let count = match r.below(32) {
        0 => 250 + r.below(10),
        1 => r.below(2 * u64::from(vars) + 1),
        _ => 1 + r.below(4),
    };
    let mut held = some_literals(r, vars, count);
    if r.below(16) == 0 {
        let above = vars.min(300) as i32 + 1;
        let bad = [0, above, -above, i32::MIN, i32::MAX, 257][r.below(6) as usize];
        held.insert(r.below(held.len() as u64 + 1) as usize, bad);
    }
    held
}
