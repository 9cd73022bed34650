//! The commands of command/README.md print what stands below them.

use crate::stored;
use std::path::Path;
use std::process::Command;

/// A command and the rows below it.
struct Shown {
    command: String,
    output: String,
}

/// Rows set in by four spaces: `$ ` begins a command. A paragraph is one shell's.
fn paragraphs(page: &str) -> Vec<Vec<Shown>> {
    let mut found: Vec<Vec<Shown>> = vec![Vec::new()];
    // Of an output an empty row is part where more of it follows.
    let mut empty = 0;
    for row in page.lines() {
        match row.strip_prefix("    ") {
            Some(row) => {
                let last = found.last_mut().unwrap();
                if let Some(command) = row.strip_prefix("$ ") {
                    last.push(Shown {
                        command: command.to_string(),
                        output: String::new(),
                    });
                } else if let Some(shown) = last.last_mut() {
                    shown.output.push_str(&"\n".repeat(empty));
                    shown.output.push_str(row);
                    shown.output.push('\n');
                }
                empty = 0;
            }
            None if row.is_empty() => empty += 1,
            None => {
                empty = 0;
                found.push(Vec::new());
            }
        }
    }
    found.retain(|commands| !commands.is_empty());
    found
}

#[test]
fn commands_print_what_the_page_says() {
    let page = String::from_utf8(stored("command/README.md")).unwrap();
    let folder = Path::new(env!("CARGO_BIN_EXE_mewikofu")).parent().unwrap();
    let path = format!("{}:{}", folder.display(), std::env::var("PATH").unwrap());
    let mut count = 0;
    for commands in paragraphs(&page) {
        // Each command's output after a mark, so that `echo $?` has the status of the one before.
        let mark = "== next ==";
        let script: Vec<&str> = commands
            .iter()
            .map(|shown| shown.command.as_str())
            .collect();
        let script = script.join(&format!("\nstatus=$?; echo '{mark}'; (exit $status)\n"));
        let output = Command::new("bash")
            .arg("-c")
            .arg(&script)
            .env("PATH", &path)
            .current_dir(concat!(env!("CARGO_MANIFEST_DIR"), "/.."))
            .output()
            .unwrap();
        let text = String::from_utf8(output.stdout).unwrap();
        let parts: Vec<&str> = text.split(&format!("{mark}\n")).collect();
        assert_eq!(parts.len(), commands.len(), "{script}");
        for (shown, part) in commands.iter().zip(parts) {
            assert_eq!(part, shown.output, "{}", shown.command);
            count += 1;
        }
    }
    assert!(count >= 15, "{count}");
}
