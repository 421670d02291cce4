//! What the example `signals` says, worked out by hand. It is taken in as a module: cargo runs an example's own tests only where it is asked.
#[allow(dead_code)]
#[path = "../examples/signals.rs"]
mod signals;

use houayletan::limits::SLOTS;
use houayletan::{write_as_bytes, MOST_VARS};
use signals::report;

/// x4, or x0 and x2, of five variables.
const A: [u32; 15] = [5, 0, 0, 5, 1, 1, 4, 0, 1, 2, 2, 1, 0, 2, 3];

/// A condition as the program has it.
fn file(name: &str, words: &[u32]) -> (String, Vec<u8>) {
    (name.into(), write_as_bytes(words).unwrap())
}

/// The first `count` of the most variables, all of them.
fn all_of_the_first(count: u32) -> Vec<u32> {
    let vars = MOST_VARS as u32;
    let mut words = vec![vars, 0, 0, vars, 1, 1];
    (0..count).rev().for_each(|i| words.extend([i, 0, words.len() as u32 / 3 - 1]));
    words
}

#[test]
fn what_hangs_on_each_signal() {
    // x4, which A has a node for, below a node that tests x1 for nothing; and not x4, the one new node
    let x4 = [5, 0, 0, 5, 1, 1, 4, 0, 1, 1, 2, 2];
    let not_x4 = [5, 0, 0, 5, 1, 1, 4, 1, 0];
    let lines = "3 conditions, 6 nodes in use of 4096 places\n\
        signal 0: 1 node, 1 condition\n\
        signal 2: 1 node, 1 condition\n\
        signal 4: 2 nodes, 3 conditions\n\
        on no other signal does a condition depend\n";
    assert_eq!(report(&[file("a", &A), file("x4", &x4), file("not x4", &not_x4)]).as_deref(), Ok(lines));
}

#[test]
fn one_condition_and_constants() {
    let lines = "1 condition, 5 nodes in use of 4096 places\n\
        signal 0: 1 node, 1 condition\n\
        signal 2: 1 node, 1 condition\n\
        signal 4: 1 node, 1 condition\n\
        on no other signal does a condition depend\n";
    assert_eq!(report(&[file("a", &A)]).as_deref(), Ok(lines));
    let lines = "2 conditions, 2 nodes in use of 4096 places\non no signal does a condition depend\n";
    assert_eq!(report(&[file("never", &[5, 0, 0]), file("always", &[5, 0, 0, 5, 1, 1])]).as_deref(), Ok(lines));
}

#[test]
fn damaged_files() {
    let mut short = file("short", &A);
    short.1.pop();
    // a link past the nodes: of all places the root's high one
    let mut link = file("link", &A);
    link.1[46] = 5;
    let short_said = "short: refused 52 at 0: the length of the file is not a multiple of ten bytes";
    let link_said = "link: refused 10 at 4: node 4 has a high link past the nodes";
    for (damaged, said) in [(short, short_said), (link, link_said)] {
        // as the first, which the pool is made for, and after another
        assert_eq!(report(&[damaged.clone(), file("a", &A)]), Err(said.into()));
        assert_eq!(report(&[file("a", &A), damaged]), Err(said.into()));
    }
    let said = "empty: refused 51 at 0: the file is empty";
    assert_eq!(report(&[file("a", &A), ("empty".into(), vec![])]), Err(said.into()));
    let said = "wide: refused 7 at 0: there are more than 511 variables";
    assert_eq!(report(&[file("wide", &[512, 0, 0])]), Err(said.into()));
}

#[test]
fn another_variable_count() {
    let said = "six: refused 35 at 0: the pool has another variable count than the diagram";
    assert_eq!(report(&[file("a", &A), file("six", &[6, 0, 0]), file("a", &A)]), Err(said.into()));
}

#[test]
fn no_room() {
    // no two have a node in common, as each ends at another variable: 511 + 510 + .. + 504 nodes, and 34 places are left
    let mut files: Vec<_> = (504..=511).rev().map(|count| file(&format!("first {count}"), &all_of_the_first(count))).collect();
    let text = report(&files).unwrap();
    assert!(text.starts_with("8 conditions, 4062 nodes in use of 4096 places\nsignal 0: 8 nodes, 8 conditions\n"), "{text}");
    assert!(text.ends_with("signal 509: 2 nodes, 2 conditions\nsignal 510: 1 node, 1 condition\non no other signal does a condition depend\n"));
    files.push(file("first 503", &all_of_the_first(503)));
    assert_eq!(report(&files), Err("first 503: refused 36 at 0: the pool has no room for so many distinct nodes".into()));
    let mut files = vec![file("a", &A); SLOTS];
    assert!(report(&files).unwrap().starts_with("64 conditions, 5 nodes in use of 4096 places\nsignal 0: 1 node, 64 conditions\n"));
    files.push(file("one more", &A));
    assert_eq!(report(&files), Err("one more: refused 33 at 0: a pool has 64 slots, from 0 on, and not this one".into()));
}
