//! The cards of `examples/` and the small formulas of the rules, through the wrapper.

use igbezolum::{read, table, CallEnd, End, Formula, Limits, LogRow, Run, Status};
use std::fs;
use std::thread;

fn card(name: &str) -> Vec<u8> {
    fs::read(format!("{}/../examples/{name}.cnf", env!("CARGO_MANIFEST_DIR"))).expect("the card is there")
}

fn run_of(text: &[u8]) -> Run {
    read(text).expect("the card keeps the rules").run(Limits::default()).expect("so does its list")
}

#[test]
fn copy_before_release_is_forced() {
    let run = run_of(&card("surface_ring"));
    assert_eq!(run.end, End::Settled);
    assert_eq!(run.forced().collect::<Vec<_>>(), [(1, true), (2, true), (10, false)]);
    assert_eq!(run.free().collect::<Vec<_>>(), [3, 4, 5, 6, 7, 8, 9, 11, 12]);
    for (switch, on) in run.forced() {
        let clause = run.held_by(switch).expect("a clause holds it") as usize - 1;
        let literal = if on { switch as i32 } else { -(switch as i32) };
        assert!(read(&card("surface_ring")).expect("it keeps the rules").clauses().nth(clause).expect("it is one").contains(&literal));
    }
    assert_eq!([run.held_by(0), run.held_by(3), run.held_by(13)], [None; 3]);
}

#[test]
fn what_remains_after_a_choice() {
    let ring = read(&card("surface_ring")).expect("it keeps the rules");
    let rules = ring.clauses().count() as u32;
    let before: Vec<_> = ring.run(Limits::default()).expect("so does its list").forced().collect();
    let run = ring.run_held(&[12, -5], Limits::default()).expect("so do these");
    let after: Vec<_> = run.forced().collect();
    assert_eq!(after, [(1, true), (2, true), (3, true), (5, false), (6, false), (7, false), (8, false), (9, false), (10, false), (11, false), (12, true)]);
    assert!(before.iter().all(|forced| after.contains(forced)));
    assert_eq!(run.held_by(12), Some(rules + 1));
    assert_eq!(ring.run_held(&[], Limits::default()), ring.run(Limits::default()));
    assert_eq!(ring.run_held(&[12, 11], Limits::default()).expect("so do these").end, End::NoModel);

    let setup = ring.setup(&[12, -5], 100).expect("so do these");
    let on: Vec<usize> = (1..).zip(&setup.values).filter(|(_, &on)| on).map(|(v, _)| v).collect();
    assert_eq!((setup.end, on), (CallEnd::Model, vec![1, 2, 3, 12]));
    let none = ring.setup(&[12, -12], 0).expect("so do these");
    assert_eq!((none.end, none.tries, none.values.len()), (CallEnd::NoModel, 0, 0));
    assert_eq!(ring.setup(&[], 0).expect("so does its list").end, CallEnd::Stopped);
}

#[test]
fn an_encoder_with_ten_bits() {
    let forced: Vec<_> = run_of(&card("encoder")).forced().collect();
    assert_eq!(forced, [(1, false), (2, true), (3, false), (9, true), (11, false)]);
}

#[test]
fn no_setup() {
    let run = run_of(&card("no_setup"));
    assert_eq!((run.end, run.status), (End::NoModel, vec![Status::Open; 3]));
    assert_eq!(run.log, [LogRow { end: CallEnd::NoModel, chunk: 0, compared: 0, flipped: 0, tries: 0 }]);
}

#[test]
fn the_table_says_the_same() {
    for name in ["surface_ring", "encoder", "no_setup"] {
        let (text, run) = (card(name), run_of(&card(name)));
        let printed = table(&text);
        let mut lines = printed.lines();
        let (forced, free) = (run.forced().count(), run.free().count());
        let number = match run.end {
            End::Settled => 0,
            End::NoModel => 20,
            End::Stopped => 21,
        };
        let open = run.status.len() - forced - free;
        let (calls, tries) = (run.log.len(), run.tries);
        let first = format!("answer {number} calls {calls} tries {tries} forced {forced} free {free} open {open}");
        assert_eq!(lines.next(), Some(first.as_str()));
        let of_variables: Vec<String> = lines.map(str::to_string).collect();
        let expected: Vec<String> = (1..).zip(&run.status).map(|(v, s)| line(v, *s, run.held_by(v))).collect();
        assert_eq!(of_variables, if run.end == End::NoModel { vec![] } else { expected });
    }
    assert_eq!(table(b"p cnf 1 1\n2 0"), "refused 7 place 10\n");
}

fn line(v: u32, status: Status, held_by: Option<u32>) -> String {
    let word = match status {
        Status::Open => "open",
        Status::Free => "free",
        Status::ForcedOn => "forced on",
        Status::ForcedOff => "forced off",
    };
    let held = held_by.map_or(String::new(), |clause| format!(" held by clause {clause}"));
    format!("{v} {word}{held}")
}

#[test]
fn a_formula_gives_its_list_back() {
    let formula = read(b"p cnf 3 3\n1 -3 0\n0 2 2 0").expect("it keeps the rules");
    assert_eq!((formula.vars(), formula.entries()), (3, &[1, -3, 0, 0, 2, 2, 0][..]));
    assert_eq!(formula.clauses().collect::<Vec<_>>(), [&[1, -3][..], &[], &[2, 2]]);
    assert_eq!(formula, Formula::new(3, vec![1, -3, 0, 0, 2, 2, 0]));
}

#[test]
fn the_budget_stops_a_run() {
    let formula = Formula::new(3, vec![1, 2, 3, 0]);
    let run = formula.run(Limits { budget: 2, chunk_limit: 2 }).expect("it keeps the rules");
    assert_eq!((run.end, run.tries), (End::Stopped, 2));
    assert_eq!(run.status, [Status::Free, Status::Free, Status::Open]);
    assert_eq!(run.hints, [0, 0, 1]);
    let rows = [
        LogRow { end: CallEnd::Model, chunk: 0, compared: 0, flipped: 2, tries: 2 },
        LogRow { end: CallEnd::Stopped, chunk: 1, compared: 0, flipped: 0, tries: 0 },
    ];
    assert_eq!(run.log, rows);
}

#[test]
fn nothing_at_all() {
    let run = Formula::new(0, vec![]).run(Limits::default()).expect("it keeps the rules");
    assert_eq!((run.end, run.status.len(), run.log.len()), (End::Settled, 0, 1));
    assert_eq!(Formula::new(0, vec![0]).run(Limits::default()).expect("it keeps the rules").end, End::NoModel);
}

#[test]
fn threads_at_once_say_the_same() {
    let names = ["surface_ring", "encoder", "no_setup"];
    let alone: Vec<Run> = names.map(|name| run_of(&card(name))).to_vec();
    thread::scope(|scope| {
        for _ in 0..2 {
            scope.spawn(|| {
                for _ in 0..100 {
                    assert_eq!(names.map(|name| run_of(&card(name))).to_vec(), alone);
                }
            });
        }
    });
}
