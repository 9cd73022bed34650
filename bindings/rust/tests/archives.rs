//! Whether the archives have the interface of this crate. The linker compares names alone, and the functions of an earlier version with these names take or
//! answer something else.

use mewikofu::raw;
use std::process::Command;

/// In a process of its own, since such a call may end it.
#[test]
fn interface() {
    let program = std::env::current_exe().unwrap();
    let calls = ["--ignored", "--exact", "calls"];
    let ended = Command::new(program).args(calls).output().unwrap();
    assert!(
        ended.status.success() && String::from_utf8_lossy(&ended.stdout).contains(" 1 passed;"),
        "the archives aren't of this crate's version: run `tools/build engine_c cutter_c` in the repository\n{ended:?}"
    );
}

#[test]
#[ignore = "`interface` runs it"]
fn calls() {
    let refused = raw::View {
        number: 1,
        ..raw::View::default()
    };
    assert_eq!(raw::view(&[], 0, 0), refused);
    let mut shares = [-1; 5];
    assert_eq!((raw::uplift(&[], &mut shares), shares), (1, [0; 5]));
    let mut views = std::array::from_fn(|_| refused.clone());
    let mut count = 9;
    assert_eq!(raw::line_views(&[], 0, &mut views, &mut count), 1);
    assert_eq!(count, 0);
    assert!(views.iter().all(|view| *view == refused));
    let cut = raw::cut(&[]);
    assert_eq!((cut.number, cut.count, cut.reserved), (18, 0, 0));
}
