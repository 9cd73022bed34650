//! Writes so many generated days of 64 lines into a folder, to measure with: `days FOLDER COUNT`.

use reference::generate::valid_day;
use reference::layout::day_length;
use std::path::Path;

fn main() -> std::io::Result<()> {
    let arguments: Vec<String> = std::env::args().skip(1).collect();
    let [folder, count] = &arguments[..] else {
        eprintln!("usage: days FOLDER COUNT");
        std::process::exit(2);
    };
    let count = count.parse().expect("a number of days");
    std::fs::create_dir_all(folder)?;
    let days = (0..)
        .map(valid_day)
        .filter(|day| day.len() == day_length(64));
    for (k, day) in days.take(count).enumerate() {
        std::fs::write(Path::new(folder).join(format!("{k:04}.day")), day)?;
    }
    Ok(())
}
