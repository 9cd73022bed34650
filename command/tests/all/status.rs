//! Exit statuses: 0 accepted, 1 refused, 2 usage, input or output error.

use crate::draw::EXAMPLES;
use crate::{k10_pulled, program, run, run_with, stored};
use std::fs::OpenOptions;
use std::process::{Command, Stdio};

const COMMANDS: [&str; 10] = [
    "settle", "uplift", "steps", "cut", "check", "show", "make", "book", "draw", "explain",
];

/// Runs the program in a shell, so that descriptors can be closed.
fn shell(script: &str) -> (i32, String) {
    let output = Command::new("sh")
        .arg("-c")
        .arg(script)
        .arg(env!("CARGO_BIN_EXE_mewikofu"))
        .arg(concat!(env!("CARGO_MANIFEST_DIR"), "/../examples/k10.day"))
        .stdin(Stdio::null())
        .output()
        .unwrap();
    (
        output.status.code().unwrap(),
        String::from_utf8(output.stderr).unwrap(),
    )
}

#[test]
fn accepted_and_refused() {
    let accepted = EXAMPLES.iter().map(|day| (*day, 0));
    for (day, status) in accepted.chain([("refused", 1)]) {
        let day = stored(&format!("examples/{day}.day"));
        for command in ["settle", "uplift", "steps", "check"] {
            for format in [&[][..], &["--csv"], &["--json"]] {
                let run = run(&[&[command], format].concat(), &day);
                assert_eq!(run.status, status, "{command} {format:?}: {}", run.message);
            }
        }
    }
}

/// A pulled bid is no error of any command; one of schedule 1 is refused by all that settle.
#[test]
fn pulled_bids() {
    for (pulled, status) in [(&[2, 3, 4, 5][..], 0), (&[4], 0), (&[1], 1)] {
        let day = k10_pulled(pulled);
        for command in ["settle", "uplift", "steps", "check", "explain"] {
            for format in [&[][..], &["--csv"], &["--json"]] {
                let run = run(&[&[command], format].concat(), &day);
                assert_eq!(run.status, status, "{command} {format:?}: {}", run.message);
            }
        }
        for format in [&[][..], &["--csv"], &["--json"]] {
            let cut = run(&[&["cut", "--line", "0"], format].concat(), &day);
            assert_eq!(cut.status, status, "{format:?}: {}", cut.message);
            assert_eq!(run(&[&["show"], format].concat(), &day).status, 0);
        }
        assert_eq!(run(&["draw"], &day).status, status);
    }
}

#[test]
fn wrong_usage() {
    let wrong: [&[&str]; 15] = [
        &[],
        &["tell"],
        &["settle"],
        &["settle", "--csv", "--json", "-"],
        &["settle", "--wide", "-"],
        &["draw", "--line"],
        &["draw", "--line", "-1", "-"],
        &["explain", "--schedule", "6", "-"],
        &["explain", "--schedule", "0", "-"],
        &["explain", "--step", "1", "-"],
        &["make", "-", "-"],
        &["settle", "--books", "-"],
        &["uplift"],
        &["uplift", "--days", "--schedules", "-"],
        &["uplift", "--books", "-"],
    ];
    for arguments in wrong {
        let run = run_with(arguments, &[]);
        assert_eq!((run.status, run.out.len()), (2, 0), "{arguments:?}");
        assert!(!run.message.is_empty(), "{arguments:?}");
    }
}

#[test]
fn help_and_version_everywhere() {
    let version = concat!(" ", env!("CARGO_PKG_VERSION"), "\n");
    for command in COMMANDS {
        assert!(run_with(&[command, "--version"], &[])
            .text()
            .ends_with(version));
        let help = run_with(&[command, "--help"], &[]).text();
        assert!(
            help.contains("Exit status: 0 accepted; 1 refused"),
            "{help}"
        );
        assert!(help.contains("Usage: mewikofu"), "{help}");
    }
    assert!(run_with(&["--version"], &[]).text().ends_with(version));
    let help = run_with(&["--help"], &[]).text();
    assert!(
        COMMANDS
            .iter()
            .all(|command| help.contains(&format!("\n  {command} "))),
        "{help}"
    );
    for shell in ["bash", "zsh", "fish"] {
        assert!(run_with(&["completion", shell], &[])
            .text()
            .contains("explain"));
    }
}

/// A missing file, a directory, a file that may not be read, standard input that is closed or a directory.
#[test]
fn input_errors() {
    for command in COMMANDS {
        for file in ["/nowhere/k10.day", "/"] {
            let run = run_with(&[command, file], &[]);
            assert_eq!(run.status, 2, "{command} {file}");
            assert!(
                run.message.starts_with(&format!("mewikofu: {file}: ")),
                "{}",
                run.message
            );
        }
        let (status, message) = shell(&format!("\"$0\" {command} - <&-"));
        assert_eq!(
            (status, message.as_str()),
            (2, "mewikofu: standard input: it is closed\n"),
            "{command}"
        );
        let (status, message) = shell(&format!("\"$0\" {command} - </"));
        assert_eq!(status, 2, "{command}: {message}");
    }
}

/// An empty input isn't a closed one: it is refused.
#[test]
fn empty_input() {
    for command in ["settle", "uplift"] {
        let run = run(&[command], &[]);
        assert_eq!((run.status, run.out.as_slice()), (1, &b"refused 1\n"[..]));
    }
    assert_eq!(shell("\"$0\" settle - </dev/null").0, 1);
}

/// A full disk and a closed output never look like success, whatever is written.
#[test]
fn output_errors() {
    let full = || OpenOptions::new().write(true).open("/dev/full").unwrap();
    let day = concat!(env!("CARGO_MANIFEST_DIR"), "/../examples/k10.day");
    let text = concat!(env!("CARGO_MANIFEST_DIR"), "/example.day.txt");
    let mut runs: Vec<Vec<&str>> = vec![
        vec!["--help"],
        vec!["--version"],
        vec!["settle", "--help"],
        vec!["completion", "bash"],
        vec!["make", text],
    ];
    for command in ["settle", "uplift", "steps", "check", "show", "explain"] {
        for format in [&[][..], &["--csv"], &["--json"]] {
            runs.push([&[command], format, &[day]].concat());
        }
    }
    runs.push(vec!["draw", day]);
    runs.push(vec!["cut", "--line", "0", day]);
    runs.push(vec!["settle", "--days", day, day]);
    runs.push(vec!["uplift", "--days", day, day]);
    for arguments in runs {
        let output = program()
            .args(&arguments)
            .stdout(full())
            .stderr(Stdio::piped())
            .output()
            .unwrap();
        let message = String::from_utf8(output.stderr).unwrap();
        assert_eq!(output.status.code(), Some(2), "{arguments:?}: {message}");
        assert!(
            message.contains("standard output: No space left on device"),
            "{arguments:?}: {message}"
        );
        assert_eq!(
            message.matches("standard output").count(),
            1,
            "{arguments:?}: {message}"
        );
    }
    let (status, message) = shell("\"$0\" settle \"$1\" >&-");
    assert_eq!(
        (status, message.as_str()),
        (2, "mewikofu: standard output is closed\n")
    );
    // Nowhere is a place that takes everything.
    assert_eq!(shell("\"$0\" settle \"$1\" >/dev/null").0, 0);
    // Standard error closed or full leaves the status.
    assert_eq!(shell("\"$0\" settle /nowhere 2>&-").0, 2);
    assert_eq!(shell("\"$0\" settle /nowhere 2>/dev/full").0, 2);
    assert_eq!(shell("\"$0\" settle \"$1\" 2>&-").0, 0);
}

/// A day made into a file; never over its text.
#[test]
fn made_files() {
    let folder = std::env::temp_dir();
    let [text, day] = ["txt", "day"]
        .map(|ending| folder.join(format!("mewikofu-made-{}.{ending}", std::process::id())));
    std::fs::write(&text, crate::example_text()).unwrap();
    let [text_name, day_name] = [&text, &day].map(|path| path.to_str().unwrap());
    let made = run_with(&["make", text_name, "-o", day_name], &[]);
    assert_eq!((made.status, made.out.len()), (0, 0), "{}", made.message);
    assert_eq!(std::fs::read(&day).unwrap(), stored("examples/k10.day"));
    let over = run_with(&["make", text_name, "--output", text_name], &[]);
    assert_eq!(over.status, 2);
    assert_eq!(
        std::fs::read_to_string(&text).unwrap(),
        crate::example_text()
    );
    assert_eq!(
        run_with(&["make", text_name, "-o", "/nowhere/k10.day"], &[]).status,
        2
    );
    assert_eq!(
        run_with(&["make", text_name, "-o", "/dev/full/k10.day"], &[]).status,
        2
    );
    std::fs::remove_file(text).unwrap();
    std::fs::remove_file(day).unwrap();
}

/// Files after a bad one are still settled; the worst status counts.
#[test]
fn several_files() {
    let path = |name: &str| format!("{}/../examples/{name}.day", env!("CARGO_MANIFEST_DIR"));
    let [k10, refused] = ["k10", "refused"].map(path);
    let status = |files: &[&str]| {
        let run = run_with(&[&["check"], files].concat(), &[]);
        assert!(run.out.ends_with(b"k10.day: accepted\n"));
        run.status
    };
    assert_eq!(status(&[&k10, &k10]), 0);
    assert_eq!(status(&[&refused, &k10]), 1);
    assert_eq!(status(&["/nowhere", &refused, &k10]), 2);
}
