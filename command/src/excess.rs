//! A line's excess in words: what its totals and its effective actual have above the greatest break of its bids (document 02, F-2).

use crate::ad_hoc;
use crate::amounts::grouped;
use crate::figures::{Line, Totals};
use crate::layout::{BySchedule, Layout, SCHEDULES};
use crate::lists::joined;
use mewikofu::{Excess, Refusal};

/// `the operating total (by 98 in schedule 2) is above the greatest break of the line's bids, 8`; none where there is no excess. `write` writes a
/// number of MJ.
fn clause(excess: Excess, most: u32, write: impl Fn(u32) -> String) -> Option<String> {
    let Excess {
        operating,
        pricing,
        actual,
    } = excess;
    let total = |name: &str, row: BySchedule<u32>| {
        let above = (0..SCHEDULES).filter(|&s| row[s] > 0);
        let above = above.map(|s| format!("{} in schedule {}", write(row[s]), s + 1));
        let above: Vec<String> = above.collect();
        (!above.is_empty()).then(|| format!("the {name} total (by {})", joined(&above)))
    };
    let actual = (actual > 0).then(|| format!("the effective actual (by {})", write(actual)));
    let totals = [total("operating", operating), total("pricing", pricing)];
    let above: Vec<String> = totals.into_iter().chain([actual]).flatten().collect();
    let are = match above.len() {
        0 => return None,
        1 => "is",
        _ => "are",
    };
    let (above, most) = (joined(&above), write(most));
    Some(format!(
        "{above} {are} above the greatest break of the line's bids, {most}"
    ))
}

/// A line's `clause` with what becomes of the excess: `the operating total .., 8: no step takes this excess, and it is neither ..`.
pub fn statement(line: &Line, write: impl Fn(u32) -> String) -> Option<String> {
    let clause = clause(line.excess(), line.greatest_break(), write)?;
    Some(format!(
        "{clause}: no step takes this excess, and it is neither constrained on nor paid."
    ))
}

/// The same as a sentence to stand after others, ` The operating total ..`; nothing where there is no excess.
pub fn sentence(line: &Line, write: impl Fn(u32) -> String) -> String {
    let statement = statement(line, write);
    statement.map_or(String::new(), |words| format!(" T{}", &words[1..]))
}

/// The lines of an accepted day with an excess, from 0, each with its `clause` in MJ.
pub fn of_day(day: &[u8]) -> Result<Vec<(usize, String)>, Refusal> {
    let write = |value: u32| format!("{} MJ", grouped(value.into()));
    let mut found = Vec::new();
    let layout = Layout::named(day);
    let records = ad_hoc::records(day, &layout);
    for k in 0..layout.lines {
        let part = mewikofu::line_part(day, k)?;
        let line = ad_hoc::with_rows(part, &ad_hoc::in_force(&records, part, k));
        let most = mewikofu::cut(&line)?.ends().last().copied().unwrap_or(0);
        let Totals {
            pricing, operating, ..
        } = Totals::new(&line);
        // A view works on the whole day, so only lines with a total above the greatest break are viewed.
        let mut totals = pricing.into_iter().chain(operating);
        if totals.any(|total| total > most.into()) {
            let excess = mewikofu::view(day, k, 0)?.excess;
            found.extend(clause(excess, most, write).map(|words| (k, words)));
        }
    }
    Ok(found)
}
