//! Instructions of a call, counted by valgrind's callgrind in runs of this program.

use crate::calls::{Call, Pass};
use crate::streams::{Block, Stream};
use std::process::Command;

/// Makes a pass. Callgrind counts between its start and its end.
#[no_mangle]
#[inline(never)]
fn bench_counted_pass(pass: Pass, block: &Block) {
    pass(block);
}

/// What `count` runs: one pass over the stream's first block.
pub fn pass(call: &Call, by: Pass, stream: &Stream) {
    bench_counted_pass(by, &stream.block(0, call.lines_of_block));
}

/// Instructions of one call; none where valgrind isn't installed.
pub fn count(call: &Call, by: &str, stream: &Stream) -> Option<u64> {
    let program = std::env::current_exe().ok()?;
    let run = Command::new("valgrind")
        .args(["--tool=callgrind", "--callgrind-out-file=/dev/null"])
        .arg("--toggle-collect=bench_counted_pass")
        .arg(program)
        .args(["pass", call.name, by])
        .args(stream.words())
        .output()
        .ok()?;
    let said = String::from_utf8_lossy(&run.stderr).into_owned();
    let (_, collected) = said.split_once("Collected : ")?;
    let collected: u64 = collected.lines().next()?.trim().parse().ok()?;
    let block = stream.block(0, call.lines_of_block);
    let calls: usize = block.iter().map(call.count).sum();
    Some(collected / calls as u64)
}
