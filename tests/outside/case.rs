//! A case: one call of the library and the seed of the paint of its buffers. As a file it is lines of a word and what it is:
//!
//!   call run           or read, setup, close, why, witness, shorter, lines, table, groups, or groups_table
//!   paint 1
//!   vars 3             run and setup: variables, budget, and the list
//!   budget 100
//!   entries 1 2 3 0
//!   chunk_limit 2      run: chunk limit, and lengths of the buffers
//!   status_len 3
//!   calls_len 3
//!   ways_len 3
//!   hints_len 3
//!   log_len 24
//!   values_len 3       setup, close and why: length of the buffer
//!   held -1 2          run, setup, close, witness and table: the literals held; none if there is no such line
//!   literal -3         why: this, lengths of the buffers, and vars, budget and entries as above
//!   marks_len 1024
//!   variable 3         witness: this, lengths of the buffers, and vars, held, budget, chunk_limit and entries as above
//!   first_len 3
//!   witness_len 3
//!   room 9216          shorter: length of the buffer, and vars, budget, chunk_limit and entries as above; read, table, lines (with a variable too), groups
//!                      and groups_table: this and the text, with \n \t \r \\ and \xHH for what is not printed
//!   sizes_len 128      groups: length of the second buffer
//!   text p cnf 1 1\n1 0\n

use std::collections::BTreeMap;
use std::fmt;
use std::str::FromStr;

/// The least room that a table is put into.
pub const MAX_TABLE: usize = 9_216;

/// The least room that both lines of a witness are put into.
pub const MAX_LINES: usize = 4_096;

/// The least room that a table of groups is put into.
pub const MAX_GROUPS_TABLE: usize = 4_096;

/// The lengths of the buffers that a run is lent.
#[derive(Clone, Copy)]
pub struct Lengths {
    pub status: usize,
    pub calls: usize,
    pub ways: usize,
    pub hints: usize,
    pub log: usize,
}

#[derive(Clone)]
pub enum Call {
    Read { text: Vec<u8>, room: usize },
    Run { entries: Vec<i32>, vars: u32, held: Vec<i32>, budget: u32, chunk_limit: u32, lengths: Lengths },
    Setup { entries: Vec<i32>, vars: u32, held: Vec<i32>, budget: u32, values_len: usize },
    Close { entries: Vec<i32>, vars: u32, held: Vec<i32>, values_len: usize },
    Witness {
        entries: Vec<i32>,
        vars: u32,
        held: Vec<i32>,
        budget: u32,
        chunk_limit: u32,
        variable: u32,
        first_len: usize,
        witness_len: usize,
    },
    Why { entries: Vec<i32>, vars: u32, literal: i32, budget: u32, marks_len: usize, values_len: usize },
    Shorter { entries: Vec<i32>, vars: u32, budget: u32, chunk_limit: u32, room: usize },
    Table { text: Vec<u8>, held: Vec<i32>, room: usize },
    Lines { text: Vec<u8>, variable: u32, room: usize },
    Groups { text: Vec<u8>, room: usize, sizes_len: usize },
    GroupsTable { text: Vec<u8>, room: usize },
}

#[derive(Clone)]
pub struct Case {
    pub paint: u64,
    pub call: Call,
}

impl Call {
    pub fn name(&self) -> &'static str {
        match self {
            Call::Read { .. } => "read",
            Call::Run { .. } => "run",
            Call::Setup { .. } => "setup",
            Call::Close { .. } => "close",
            Call::Why { .. } => "why",
            Call::Witness { .. } => "witness",
            Call::Shorter { .. } => "shorter",
            Call::Table { .. } => "table",
            Call::Lines { .. } => "lines",
            Call::Groups { .. } => "groups",
            Call::GroupsTable { .. } => "groups_table",
        }
    }
}

fn escaped(text: &[u8]) -> String {
    let mut out = String::new();
    for &b in text {
        match b {
            b'\n' => out.push_str("\\n"),
            b'\t' => out.push_str("\\t"),
            b'\r' => out.push_str("\\r"),
            b'\\' => out.push_str("\\\\"),
            b' '..=b'~' => out.push(b as char),
            _ => out.push_str(&format!("\\x{b:02x}")),
        }
    }
    out
}

fn words(list: &[i32]) -> String {
    list.iter().map(i32::to_string).collect::<Vec<_>>().join(" ")
}

fn unescaped(word: &str) -> Option<Vec<u8>> {
    let mut out = Vec::new();
    let mut bytes = word.bytes();
    while let Some(b) = bytes.next() {
        out.push(match b {
            b'\\' => match bytes.next()? {
                b'n' => b'\n',
                b't' => b'\t',
                b'r' => b'\r',
                b'\\' => b'\\',
                b'x' => {
                    let digits = [bytes.next()?, bytes.next()?];
                    u8::from_str_radix(std::str::from_utf8(&digits).ok()?, 16).ok()?
                }
                _ => return None,
            },
            _ => b,
        });
    }
    Some(out)
}

impl fmt::Display for Case {
    fn fmt(&self, f: &mut fmt::Formatter<'_>) -> fmt::Result {
        writeln!(f, "call {}\npaint {}", self.call.name(), self.paint)?;
        match &self.call {
            Call::Read { text, room } => writeln!(f, "room {room}\ntext {}", escaped(text)),
            Call::Groups { text, room, sizes_len } => writeln!(f, "room {room}\nsizes_len {sizes_len}\ntext {}", escaped(text)),
            Call::GroupsTable { text, room } => writeln!(f, "room {room}\ntext {}", escaped(text)),
            Call::Table { text, held, room } => writeln!(f, "room {room}\nheld {}\ntext {}", words(held), escaped(text)),
            Call::Lines { text, variable, room } => writeln!(f, "variable {variable}\nroom {room}\ntext {}", escaped(text)),
            Call::Run { entries, vars, held, budget, chunk_limit, lengths: Lengths { status, calls, ways, hints, log } } => {
                writeln!(f, "vars {vars}\nbudget {budget}\nchunk_limit {chunk_limit}")?;
                writeln!(f, "status_len {status}\ncalls_len {calls}\nways_len {ways}\nhints_len {hints}\nlog_len {log}")?;
                writeln!(f, "held {}\nentries {}", words(held), words(entries))
            }
            Call::Setup { entries, vars, held, budget, values_len } => {
                writeln!(f, "vars {vars}\nbudget {budget}\nvalues_len {values_len}")?;
                writeln!(f, "held {}\nentries {}", words(held), words(entries))
            }
            Call::Close { entries, vars, held, values_len } => {
                writeln!(f, "vars {vars}\nvalues_len {values_len}\nheld {}\nentries {}", words(held), words(entries))
            }
            Call::Witness { entries, vars, held, budget, chunk_limit, variable, first_len, witness_len } => {
                writeln!(f, "vars {vars}\nbudget {budget}\nchunk_limit {chunk_limit}\nvariable {variable}")?;
                writeln!(f, "first_len {first_len}\nwitness_len {witness_len}\nheld {}\nentries {}", words(held), words(entries))
            }
            Call::Shorter { entries, vars, budget, chunk_limit, room } => {
                writeln!(f, "vars {vars}\nbudget {budget}\nchunk_limit {chunk_limit}\nroom {room}\nentries {}", words(entries))
            }
            Call::Why { entries, vars, literal, budget, marks_len, values_len } => {
                writeln!(f, "vars {vars}\nliteral {literal}\nbudget {budget}\nmarks_len {marks_len}\nvalues_len {values_len}")?;
                writeln!(f, "entries {}", words(entries))
            }
        }
    }
}

impl FromStr for Case {
    type Err = String;

    fn from_str(file: &str) -> Result<Case, String> {
        let lines: BTreeMap<&str, &str> = file.lines().map(|line| line.split_once(' ').unwrap_or((line, ""))).collect();
        let word = |name: &str| lines.get(name).copied().ok_or(format!("no line '{name}'"));
        fn number<T: FromStr>(word: &str) -> Result<T, String> {
            word.parse().map_err(|_| format!("'{word}' is not such a number"))
        }
        let text = || unescaped(word("text")?).ok_or("the text is malformed".to_string());
        let list = |word: &str| word.split_whitespace().map(number).collect::<Result<Vec<i32>, String>>();
        let held = || list(lines.get("held").copied().unwrap_or(""));
        let call = match word("call")? {
            "read" => Call::Read { text: text()?, room: number(word("room")?)? },
            "table" => Call::Table { text: text()?, held: held()?, room: number(word("room")?)? },
            "lines" => Call::Lines { text: text()?, variable: number(word("variable")?)?, room: number(word("room")?)? },
            "groups" => Call::Groups { text: text()?, room: number(word("room")?)?, sizes_len: number(word("sizes_len")?)? },
            "groups_table" => Call::GroupsTable { text: text()?, room: number(word("room")?)? },
            "setup" => Call::Setup {
                entries: list(word("entries")?)?,
                vars: number(word("vars")?)?,
                held: held()?,
                budget: number(word("budget")?)?,
                values_len: number(word("values_len")?)?,
            },
            "close" => Call::Close {
                entries: list(word("entries")?)?,
                vars: number(word("vars")?)?,
                held: held()?,
                values_len: number(word("values_len")?)?,
            },
            "run" => Call::Run {
                entries: list(word("entries")?)?,
                vars: number(word("vars")?)?,
                held: held()?,
                budget: number(word("budget")?)?,
                chunk_limit: number(word("chunk_limit")?)?,
                lengths: Lengths {
                    status: number(word("status_len")?)?,
                    calls: number(word("calls_len")?)?,
                    ways: number(word("ways_len")?)?,
                    hints: number(word("hints_len")?)?,
                    log: number(word("log_len")?)?,
                },
            },
            "witness" => Call::Witness {
                entries: list(word("entries")?)?,
                vars: number(word("vars")?)?,
                held: held()?,
                budget: number(word("budget")?)?,
                chunk_limit: number(word("chunk_limit")?)?,
                variable: number(word("variable")?)?,
                first_len: number(word("first_len")?)?,
                witness_len: number(word("witness_len")?)?,
            },
            "shorter" => Call::Shorter {
                entries: list(word("entries")?)?,
                vars: number(word("vars")?)?,
                budget: number(word("budget")?)?,
                chunk_limit: number(word("chunk_limit")?)?,
                room: number(word("room")?)?,
            },
            "why" => Call::Why {
                entries: list(word("entries")?)?,
                vars: number(word("vars")?)?,
                literal: number(word("literal")?)?,
                budget: number(word("budget")?)?,
                marks_len: number(word("marks_len")?)?,
                values_len: number(word("values_len")?)?,
            },
            other => return Err(format!("no call '{other}'")),
        };
        Ok(Case { paint: number(word("paint")?)?, call })
    }
}
