//! Groups through the wrapper: sizes, values and refusals, and the table of a card.

use igbezolum::{groups_table, Groups, Limits, Status};

fn card() -> Vec<u8> {
    std::fs::read("../examples/encoder.groups").expect("the example is there")
}

#[test]
fn values_are_variables_group_after_group() {
    let card = Groups::read(&card()).expect("it is a file of groups");
    assert_eq!(card.count(), 4);
    assert_eq!((1..=4).map(|g| card.values(g).unwrap()).collect::<Vec<_>>(), [1..5, 5..8, 8..11, 11..13]);
    assert_eq!((card.values(0), card.values(5)), (None, None));
    assert_eq!(card.formula().vars(), 12);
    assert_eq!(card.formula().clauses().next().unwrap(), [1, 2, 3, 4]);
}

#[test]
fn dead_and_settled() {
    let card = Groups::read(&card()).expect("it is a file of groups");
    let run = card.formula().run(Limits::default()).expect("what is read is run");
    let of = |group| card.values(group).unwrap().map(|v| run.status[v as usize - 1]).collect::<Vec<_>>();
    assert_eq!(of(1), [Status::ForcedOff, Status::Free, Status::ForcedOff, Status::Free]);
    assert_eq!(of(4), [Status::ForcedOff, Status::ForcedOn]);
    let setup = card.formula().setup(&[4], 1_000).expect("it is not refused");
    assert_eq!(setup.values.iter().filter(|&&on| on).count(), 4, "ProRes can be chosen, with a value of each other group");
}

#[test]
fn tables_and_refusals() {
    let table = groups_table(&card());
    assert!(table.starts_with("answer 0 ") && table.ends_with("4:1 dead\n4:2 settled\n"));
    assert_eq!(groups_table(b"1 17 0"), "refused 16 place 2\n");
    let refusal = Groups::read(b"1 17 0").unwrap_err();
    assert_eq!((refusal.number(), refusal.place()), (16, 2));
    assert_eq!(refusal.to_string(), "refused 16 place 2: no number of groups or of values: 0 to 128 groups, of 2 to 16 values each");
    let early = Groups::read(b"1").unwrap_err().to_string();
    assert!(early.starts_with("refused 9 place 1: the text ends too early: the number of groups"), "{early}");
}
