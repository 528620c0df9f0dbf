//! The checker of traces: worked verdicts, the names of the rules, and what is no item.

use swd::{Ack, Checker, Item, NotAnItem, Shown, Start, Transaction};

fn transaction(ap: bool, read: bool, addr: u8, ack: Ack) -> Item {
    Item::Transaction(Transaction { ap, read, addr, ack })
}

fn ok(word: u32) -> Ack {
    Ack::Ok { word, parity_ok: true }
}

/// A session at a port that forgets STICKYERR, as docs/CONFORMANCE.md has it.
fn sticky() -> Vec<Item> {
    vec![
        Item::Reset(56),
        Item::Idle(2),
        transaction(false, true, 0, ok(0x2ba0_1477)),
        transaction(false, false, 4, ok(0x5000_0000)),
        transaction(false, true, 4, ok(0xf000_0000)),
        transaction(true, false, 0, ok(0x2300_0012)),
        transaction(true, false, 4, ok(0x3000_0000)),
        transaction(true, true, 12, ok(0)),
        transaction(false, true, 12, Ack::Fault),
        transaction(false, true, 12, ok(0)),
    ]
}

fn checked(items: &[Item], start: Start, clean: bool) -> Checker {
    let mut checker = Checker::new(start, clean);
    items.iter().for_each(|item| checker.watch(item).unwrap());
    checker
}

#[test]
fn a_port_that_forgets_an_error() {
    let items = sticky();
    let checker = checked(&items, Start::Made, true);
    let text = "breaks @347: FAULT is answered while a sticky flag is set, and not else";
    assert_eq!(checker.verdict().to_string(), text);
    assert!(matches!(checker.verdict().shown, Shown::Breaks { place: 347, rule } if rule.number() == 4));
    assert_eq!((checker.verdict().began, checker.verdict().gaps, checker.place()), (Some(0), 0, 393));
    assert_eq!(checked(&items[..9], Start::Made, true).verdict().shown, Shown::Fits);
    // Nothing is known of SELECT, so nothing is checked.
    let any = checked(&items, Start::Any, false).verdict();
    assert_eq!((any.shown, any.began), (Shown::Fits, None));
}

#[test]
fn damage_is_counted_and_refused_on_a_clean_line() {
    let mut items = sticky();
    items.truncate(5);
    items[2] = transaction(false, true, 0, Ack::Ok { word: 0x2ba0_1476, parity_ok: false });
    assert_eq!(checked(&items, Start::Made, false).verdict().faults, 1);
    assert!(matches!(checked(&items, Start::Made, true).verdict().shown, Shown::Breaks { place: 58, .. }));
}

#[test]
fn a_gap_is_counted() {
    let mut items = vec![Item::Reset(56), Item::Idle(2), transaction(false, true, 0, ok(0x2ba0_1477))];
    items.extend([Item::Junk(true); 40]);
    items.push(Item::Reset(56));
    assert_eq!(checked(&items, Start::Made, false).verdict().gaps, 1);
}

#[test]
fn what_is_no_item() {
    let mut checker = Checker::new(Start::AtRest, false);
    let none = [
        transaction(false, true, 3, Ack::Wait),
        transaction(false, true, 16, Ack::Wait),
        transaction(false, true, 0, Ack::None(1)),
        transaction(false, true, 0, Ack::None(4)),
        transaction(false, true, 0, Ack::None(8)),
        Item::Cut { bits: 0, count: 50 },
    ];
    for item in none {
        assert_eq!(checker.watch(&item), Err(NotAnItem(item)));
        assert_eq!(checker.place(), 0);
    }
    for (item, bits) in [
        (Item::Switch, 16),
        (transaction(true, false, 12, Ack::None(7)), 12),
        (transaction(true, false, 12, Ack::Wait), 13),
        (Item::Cut { bits: 5, count: 3 }, 3),
    ] {
        let before = checker.place();
        assert_eq!(checker.watch(&item), Ok(()));
        assert_eq!(checker.place() - before, bits);
    }
}

// The header is beside the crate in the repository, and in a release, where this test isn't.
#[test]
fn the_rules_are_those_of_the_header() {
    let header = include_str!("../../../include/swd.h");
    let names = header.split("*swd_rule_name").nth(1).unwrap().split("};").next().unwrap();
    let wanted = names.split('"').skip(1).step_by(2).collect::<Vec<_>>();
    assert_eq!(wanted.len(), 12);
    let source = include_str!("../src/checker.rs");
    let ours = source.split("const RULES").nth(1).unwrap().split("];").next().unwrap();
    assert_eq!(ours.split('"').skip(1).step_by(2).collect::<Vec<_>>(), wanted);
}
