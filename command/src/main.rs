//! The program.

use std::process::ExitCode;

/// The system calls these before main, and so before Rust's own start.
#[used]
#[link_section = ".init_array"]
static BEFORE: extern "C" fn() = mewikofu_command::start::look;

fn main() -> ExitCode {
    mewikofu_command::run(std::env::args_os()).into()
}
