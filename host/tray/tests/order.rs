//! `tray order`: exports as text, the order that the library finds, and what is told of it.

use crate::common::{files, tray, Random};
use std::collections::BTreeSet;
use tray::order::tell::{fault, words};
use tray::order::{line_of, parse, Action, Export, Found, Kind};

fn export(text: &str) -> Export {
    parse(text).unwrap_or_else(|fault| panic!("{}: {text}", fault.why))
}

/// What is told of the export, and that the proofs exclude nothing of it.
fn told(text: &str) -> String {
    let export = export(text);
    let found = export.find();
    assert_eq!(fault(&export, &found), None, "{text}");
    words(&export, &found)
}

/// The serial run of the transactions in this order.
fn succeeds(export: &Export, order: &[usize]) -> bool {
    let mut set = BTreeSet::new();
    order.iter().flat_map(|&position| &export.transactions[position]).all(|action| match action.kind {
        Kind::Write => set.insert(action.number),
        Kind::Read => set.contains(&action.number),
        Kind::Take => set.remove(&action.number),
    })
}

/// All lists of different positions below `count`, shorter ones too, place by place.
fn beginnings(count: usize) -> Vec<Vec<usize>> {
    let mut all = vec![Vec::new()];
    let mut last = all.clone();
    for _ in 0..count {
        let longer = |order: &Vec<usize>| {
            let order = order.clone();
            let next = (0..count).filter(|position| !order.contains(position)).collect::<Vec<usize>>();
            next.into_iter().map(move |position| [&order[..], &[position]].concat()).collect::<Vec<_>>()
        };
        last = last.iter().flat_map(longer).collect();
        all.extend(last.clone());
    }
    all
}

/// An export of few numbers, each written once at most, mostly early.
fn random_export(random: &mut Random) -> Export {
    let (mut written, count) = (Vec::new(), random.below(6));
    let mut action = || {
        let number = random.below(5) as u32;
        let kind = match random.below(4) {
            0 | 1 if !written.contains(&number) => Kind::Write,
            3 => Kind::Take,
            _ => Kind::Read,
        };
        if kind == Kind::Write {
            written.push(number);
        }
        Action { kind, number }
    };
    let transactions = (0..count).map(|position| (0..(position + 1) % 3).map(|_| action()).collect()).collect();
    Export { transactions }
}

#[test]
fn the_first_order_or_the_longest_beginning() {
    let (mut random, mut found, mut none) = (Random(12), 0, 0);
    for _ in 0..3000 {
        let export = random_export(&mut random);
        let count = export.transactions.len();
        let good: Vec<Vec<usize>> = beginnings(count).into_iter().filter(|order| succeeds(&export, order)).collect();
        let longest = good.iter().map(Vec::len).max().unwrap();
        let first = good.iter().find(|order| order.len() == longest).unwrap();
        let answer = export.find();
        assert_eq!(fault(&export, &answer), None);
        match answer {
            Found::Order(order) => assert_eq!((longest, first, found += 1), (count, &order, ()), "{export:?}"),
            Found::None => assert_eq!((longest < count, first, none += 1), (true, &export.longest_beginning(), ())),
            Found::Refused(number) => panic!("{number}: {export:?}"),
        }
    }
    assert!(found > 500 && none > 500, "{found} found, {none} none");
}

/// What is told to exclude every order does: the transactions that it names alone have none.
#[test]
fn reasons_are_true() {
    let (mut random, mut reasons) = (Random(5), 0);
    for _ in 0..3000 {
        let export = random_export(&mut random);
        let told = words(&export, &export.find());
        for reason in told.lines().filter(|line| line.starts_with("  transaction")) {
            let digits = reason.split(|c: char| !c.is_ascii_digit()).filter(|digits| !digits.is_empty());
            let numbers: Vec<usize> = digits.map(|digits| digits.parse().unwrap()).collect();
            // Whoever writes the entry belongs to it; what nobody writes needs only the one that looks for it.
            let entry =
                if reason.contains(" and ") && reason.contains("both") { numbers[2] } else { numbers[1] } as u32;
            let concerned = export.transactions.iter().filter(|actions| actions.iter().any(|it| it.number == entry));
            let only = |actions: &Vec<Action>| actions.iter().filter(|it| it.number == entry).copied().collect();
            let part = Export { transactions: concerned.map(only).collect() };
            assert_eq!(part.find(), Found::None, "{reason}\n{told}");
            reasons += 1;
        }
    }
    assert!(reasons > 1000, "{reasons}");
}

#[test]
fn each_reason_is_told() {
    for (text, reason) in [
        ("read 8", "transaction 0 reads 8, which no transaction writes"),
        ("take 8\nwrite 7", "transaction 0 takes 8, which no transaction writes"),
        ("read 3, write 3", "transaction 0 reads 3 before it writes it, and no other writes it"),
        ("write 1, take 1, read 1", "transaction 0 reads 1 after it has taken it"),
        ("write 1\ntake 1, take 1", "transaction 1 takes 1 after it has taken it"),
        ("write 1, take 1\nread 1", "transaction 1 reads 1, which transaction 0 writes and takes itself"),
        ("take 1\nwrite 1\ntake 1", "transactions 0 and 2 both take 1"),
    ] {
        let told = told(text);
        assert!(told.starts_with(&format!("no order succeeds\n  {reason}\n")), "{text}:\n{told}");
    }
    let ring = told("write 1, read 2\nwrite 2, read 1");
    assert_eq!(
        ring,
        "no order succeeds\nno transaction can be the first:\n   0  write 1, read 2\n        read 2 finds nothing\n   \
         1  write 2, read 1\n        read 1 finds nothing\n"
    );
}

#[test]
fn refused_in_words() {
    let limits = "refused 22: the export has too many transactions or actions, or writes a number twice\n";
    let nine = (1..10).map(|number| format!("write {number}")).collect::<Vec<String>>().join(", ");
    for (text, reasons) in [
        ("nothing\n".repeat(7), "  7 transactions: 6 at most\n"),
        (nine, "  transaction 0 has 9 actions: 8 at most\n"),
        ("write 5\nnothing\nread 5, write 5".to_string(), "  transactions 0 and 2 both write 5\n"),
        ("write 5, take 5, write 5".to_string(), "  transaction 0 writes 5 twice\n"),
    ] {
        assert_eq!(told(&text), format!("{limits}{reasons}"), "{text}");
        assert_eq!(tray(&["order", "-"], &text).status, 3, "{text}");
    }
}

/// What no sound archive gives is told.
#[test]
fn what_the_proofs_exclude_is_told() {
    let export = export("read 1\nwrite 1\nnothing");
    let right = Found::Order(vec![1, 0, 2]);
    assert_eq!((export.find(), fault(&export, &right)), (right, None));
    for order in [vec![0, 1, 2], vec![1, 0], vec![1, 0, 0], vec![1, 0, 3]] {
        assert_eq!(fault(&export, &Found::Order(order)), Some("the order does not account for it"));
    }
    assert_eq!(fault(&export, &Found::Refused(22)), Some("it is refused without a reason"));
    let twice = parse("write 1, write 1").unwrap();
    assert_eq!(fault(&twice, &Found::Refused(22)), None);
    assert_eq!(fault(&twice, &Found::Refused(21)), Some("it is refused without a reason"));
    assert_eq!(fault(&twice, &Found::None), Some("it is not refused"));
}

#[test]
fn texts_and_words() {
    let text = "# an export\n\n  write 1,read 4294967295 ,  take 3  # a comment, with a comma\nnothing # none\n";
    let read = export(text);
    assert_eq!(read.words(), [2, 3, 1, 1, 2, u32::MAX, 3, 3, 0]);
    let lines: String = read.transactions.iter().map(|actions| line_of(actions) + "\n").collect();
    assert_eq!(lines, "write 1, read 4294967295, take 3\nnothing\n");
    assert_eq!(export(&lines), read);
    assert_eq!(export("").words(), [0]);
    assert_eq!(told(""), "order: there are no transactions\n");
    assert_eq!(
        tray(&["order", "-"], "\u{feff}nothing\r\n").out,
        "order: 0\n   0  nothing\n        in the set: nothing\n"
    );
}

#[test]
fn bad_texts() {
    let action = "expected `write N`, `read N` or `take N`, more of these behind commas, or `nothing`";
    let number = "expected the number of an entry, 0 to 4294967295, behind";
    for (line, why) in [
        ("wrte 5", format!("{action} for a transaction without actions, found `wrte`")),
        ("write 1,", format!("{action} for a transaction without actions, the line ends")),
        (", write 1", format!("{action} for a transaction without actions, the line ends")),
        ("nothing, write 1", format!("{action} for a transaction without actions, found `nothing`")),
        ("Write 1", format!("{action} for a transaction without actions, found `Write`")),
        ("write", format!("{number} `write`, the line ends")),
        ("take -1", format!("{number} `take`, found `-1`")),
        ("read 4294967296", format!("{number} `read`, found `4294967296`")),
        ("write 1 read 2", "expected a comma or the end of the line, found `read`".to_string()),
        ("party 1 commit 1", "expected an export, found the text of a tray (`tray run` runs it)".to_string()),
    ] {
        let answer = tray(&["order", "-"], &format!("write 9\n{line}\n"));
        assert_eq!((answer.status, answer.out.as_str()), (2, ""), "{line}");
        assert!(answer.err.starts_with(&format!("tray: -:2: {why}")), "{line}: {}", answer.err);
    }
}

#[test]
fn the_verb() {
    let several = "../../examples/order-several.export";
    assert_eq!(tray(&["order", several, "--raw"], "").out, "2 3 0 1 4\n");
    assert_eq!(tray(&["order", "-", "--raw"], "read 1").out, "none\n");
    assert_eq!(tray(&["order", "-", "--raw"], "").out, "\n");
    let twice = tray(&["order", "-", "--raw"], "write 1, write 1");
    assert_eq!((twice.status, twice.out.as_str()), (3, "refused 22\n"));
    assert_eq!(tray(&["order", "-", "--bytes"], "take 258").out, "\u{1}\0\0\0\u{1}\0\0\0\u{3}\0\0\0\u{2}\u{1}\0\0");
    for (arguments, status) in [(vec!["order"], 2), (vec!["order", several, "--raw", "--bytes"], 2)] {
        let answer = tray(&arguments, "");
        assert_eq!((answer.status, answer.out.as_str()), (status, ""), "{}", answer.err);
    }
    assert_eq!(tray(&["order", "no/such/file"], "").status, 1);
    let bytes = tray(&["order", "-"], "\0\0\0\0");
    assert_eq!(bytes.err, "tray: -: expected a text in UTF-8; `study_order` reads the bytes of an export\n");
    assert_eq!((bytes.status, bytes.out.as_str()), (2, ""));
    assert!(tray(&["order", "--help"], "").out.contains("write 1, read 2, take 3"));
}

/// Each example is what its name says; of the forced one no other order succeeds.
#[test]
fn examples() {
    let mut kinds = BTreeSet::new();
    for file in files("examples", ".export") {
        let (name, export) = (file.display().to_string(), export(&std::fs::read_to_string(&file).unwrap()));
        let all = beginnings(export.transactions.len().min(6));
        let whole = all.iter().filter(|order| order.len() == export.transactions.len());
        let good = whole.filter(|order| succeeds(&export, order)).count();
        let kind = match export.find() {
            Found::Refused(_) => "refused",
            Found::None => "none",
            Found::Order(_) if good == 1 => "forced",
            Found::Order(_) => "several",
        };
        assert!(name.contains(&format!("order-{kind}")), "{name}: {kind}");
        kinds.insert(kind);
    }
    assert_eq!(kinds.len(), 4, "{kinds:?}");
}

#[test]
fn the_header_says_the_same() {
    let header = std::fs::read_to_string("../space.h").unwrap();
    let said = |words: &str| assert!(header.contains(words), "{words}");
    said(&format!("#define SPACE_ORDER_MAX_TRANSACTIONS {} ", tray::order::tell::MOST_TRANSACTIONS));
    said(&format!("#define SPACE_ORDER_MAX_ACTIONS {} ", tray::order::tell::MOST_ACTIONS));
    for (kind, name) in [(Kind::Write, "WRITE"), (Kind::Read, "READ"), (Kind::Take, "TAKE")] {
        said(&format!("SPACE_ORDER_{name} = {}", kind as u32));
    }
    said("SPACE_REFUSAL_BAD_EXPORT = 22");
}
