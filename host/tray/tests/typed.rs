//! `tray try`: frames and commands over standard input.

use crate::common::{scratch, tray};

#[test]
fn frames_undo_redo_save_draw() {
    let folder = scratch("try");
    let (text, page) = (folder.join("saved.txt"), folder.join("drawn.html"));
    let input = format!(
        "party 1 write 7 1 40 9 lease 2\nexpect written 1\nparty 2 take kind 7 timeout 0\nundo\nstate\nredo\nundo\n\
         party 2 read kind 7 timeout 0  # looks\nexpect found 1\nredo\nfrob\nsave {}\ndraw {}\nhistory\nquit\ntick\n",
        text.display(),
        page.display()
    );
    let answer = tray(&["try"], &input);
    assert_eq!(answer.status, 0);
    let count = |part: &str| answer.out.matches(part).count();
    assert_eq!(count("party 2: found entry 1"), 4, "taken, redone, read, history:\n{}", answer.out);
    assert_eq!(count("undone: party 2 take kind 7 timeout 0"), 2);
    assert_eq!(count("as expected"), 2);
    assert!(!answer.out.contains("ticked"), "nothing after quit");
    // A new frame forgets what was undone; a bad line changes nothing.
    assert!(answer.err.contains("expected a frame to redo") && answer.err.contains("found `frob`"), "{}", answer.err);
    let saved = std::fs::read_to_string(&text).unwrap();
    let wanted =
        "party 1 write 7 1 40 9 lease 2\nexpect written 1\nparty 2 read kind 7 timeout 0  # looks\nexpect found 1\n";
    assert_eq!(saved, wanted);
    assert_eq!(tray(&["run", text.to_str().unwrap()], "").status, 0);
    assert!(crate::xml::parse(&std::fs::read_to_string(&page).unwrap()).is_ok());
}

#[test]
fn from_a_file() {
    let answer = tray(&["try", "../../examples/sample.txt"], "state\nundo\nundo\nundo\nundo\n");
    assert_eq!(answer.status, 0);
    assert!(answer.out.starts_with("   3  clock 0   tick"), "{}", answer.out);
    assert!(answer.out.contains("clock 1\n| nothing stored"));
    assert!(answer.out.contains("clock 0\n| entry 1 of party 1: 7 1 40 9, committed, ends at clock 5"));
    assert!(answer.err.contains("expected a frame to undo"));
    assert_eq!(tray(&["try", "no/such/file"], "").status, 1);
    let help = tray(&["try"], "help\nsave\ndraw a.png\nexpect found\nundo x\n");
    assert!(help.out.contains("undo, redo"));
    for why in ["expected a file's name", ".html or .svg", "expected a frame before `expect`", "found `undo`"] {
        assert!(help.err.contains(why), "{why}: {}", help.err);
    }
}
