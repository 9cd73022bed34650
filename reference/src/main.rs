//! The program: reports of days and lines, and generated ones to report on.

use reference::generate::*;
use reference::k10::k10;
use reference::k3_to_k7::k3_to_k7;
use reference::layout::Side;
use reference::pack;
use reference::refusal::day_number;
use reference::report::{cut_report, settle_report, steps_report, uplift_report};
use std::io::{self, BufReader, BufWriter, Read, Write};
use std::process::ExitCode;

const USAGE: &str = "usage: reference settle|steps|uplift < DAY
       reference cut < LINE
       reference day SEED KIND
       reference days SEED COUNT KIND
       reference lines SEED COUNT [sets|pulled|excess|ad-hoc]
       reference edges|accreditations|pulled
       reference excess|excess-lines|ad-hoc [withdrawals]
       reference ad-hoc-lengths|ad-hoc-long|uplift-rows|uplift-limits
       reference expect settle|steps|uplift|cut|number < PACK
       reference k10|k3-to-k7
KIND is valid, small, damaged, mixed, sets, small-sets, set-faults, pulled, small-pulled, pulled-faults, excess,
small-excess, excess-faults, over-delivery, small-over-delivery, ad-hoc, small-ad-hoc, ad-hoc-faults,
ad-hoc-damaged, uplift or uplift-faults.";

fn main() -> ExitCode {
    let arguments: Vec<String> = std::env::args().skip(1).collect();
    let arguments: Vec<&str> = arguments.iter().map(String::as_str).collect();
    let mut out = BufWriter::new(io::stdout().lock());
    match run(&arguments, &mut out).and_then(|known| out.flush().map(|()| known)) {
        Ok(true) => ExitCode::SUCCESS,
        Ok(false) => {
            eprintln!("{USAGE}");
            ExitCode::from(2)
        }
        Err(error) => {
            eprintln!("{error}");
            ExitCode::FAILURE
        }
    }
}

/// Whether the arguments are known ones.
fn run(arguments: &[&str], out: &mut impl Write) -> io::Result<bool> {
    match *arguments {
        ["k10"] => out.write_all(&k10())?,
        ["k3-to-k7"] => out.write_all(&k3_to_k7())?,
        ["edges"] => write_pack(edge_days(), out)?,
        ["accreditations"] => write_pack(accreditation_days(), out)?,
        ["pulled"] => write_pack(pulled_k10_days(), out)?,
        ["excess"] => write_pack(excess_k10_days(Side::Injection), out)?,
        ["excess", "withdrawals"] => write_pack(excess_k10_days(Side::Withdrawal), out)?,
        ["excess-lines"] => write_pack(excess_k10_lines(Side::Injection), out)?,
        ["excess-lines", "withdrawals"] => write_pack(excess_k10_lines(Side::Withdrawal), out)?,
        ["ad-hoc"] => write_pack(ad_hoc_k10_days(Side::Injection), out)?,
        ["ad-hoc", "withdrawals"] => write_pack(ad_hoc_k10_days(Side::Withdrawal), out)?,
        ["ad-hoc-lengths"] => write_pack(ad_hoc_length_days(), out)?,
        ["ad-hoc-long"] => write_pack(ad_hoc_long_days(), out)?,
        ["uplift-rows"] => write_pack(uplift_row_days(), out)?,
        ["uplift-limits"] => write_pack(uplift_limit_days(), out)?,
        ["expect", kind] => return expect(kind, out),
        [kind] => return report(kind, out),
        ["day", seed, kind] => {
            let (Some(seed), Some(draw)) = (number(seed), generator(kind)) else {
                return Ok(false);
            };
            out.write_all(&draw(0, seed))?;
        }
        ["days", seed, count, kind] => return packed(seed, count, generator(kind), out),
        ["lines", seed, count] => return packed(seed, count, line_generator(""), out),
        ["lines", seed, count, kind] => return packed(seed, count, line_generator(kind), out),
        _ => return Ok(false),
    }
    Ok(true)
}

fn write_pack(entries: Vec<Vec<u8>>, out: &mut impl Write) -> io::Result<()> {
    entries.iter().try_for_each(|entry| pack::write(out, entry))
}

fn number(argument: &str) -> Option<u64> {
    argument.parse().ok()
}

/// Draws entry k of a pack from its seed.
type Draw = fn(u64, u64) -> Vec<u8>;

fn generator(kind: &str) -> Option<Draw> {
    match kind {
        "valid" => Some(|_, seed| valid_day(seed)),
        "small" => Some(|_, seed| small_day(seed)),
        "damaged" => Some(|_, seed| damaged_day(seed)),
        "mixed" => Some(|k, seed| match k % 2 {
            0 => valid_day(seed),
            _ => damaged_day(seed),
        }),
        "sets" => Some(|_, seed| set_day(seed)),
        "small-sets" => Some(|_, seed| small_set_day(seed)),
        "set-faults" => Some(|_, seed| set_fault_day(seed)),
        "pulled" => Some(|_, seed| pulled_day(seed)),
        "small-pulled" => Some(|_, seed| small_pulled_day(seed)),
        "pulled-faults" => Some(|_, seed| pulled_fault_day(seed)),
        "excess" => Some(|_, seed| excess_day(seed)),
        "small-excess" => Some(|_, seed| small_excess_day(seed)),
        "excess-faults" => Some(|_, seed| excess_fault_day(seed)),
        "over-delivery" => Some(|_, seed| over_delivery_day(seed)),
        "small-over-delivery" => Some(|_, seed| small_over_delivery_day(seed)),
        "ad-hoc" => Some(|_, seed| ad_hoc_day(seed)),
        "small-ad-hoc" => Some(|_, seed| small_ad_hoc_day(seed)),
        "ad-hoc-faults" => Some(|_, seed| ad_hoc_fault_day(seed)),
        "ad-hoc-damaged" => Some(|_, seed| ad_hoc_damaged_day(seed)),
        "uplift" => Some(|_, seed| uplift_day(seed)),
        "uplift-faults" => Some(|_, seed| uplift_fault_day(seed)),
        _ => None,
    }
}

type DrawLine = fn(u64) -> Vec<u8>;

/// Every third line is damaged, or at a limit that lines of its kind have.
fn line_generator(kind: &str) -> Option<Draw> {
    match kind {
        "" => Some(|k, seed| every_third(k, seed, damaged_line, line)),
        "sets" => Some(|k, seed| every_third(k, seed, set_fault_line, set_line)),
        "pulled" => Some(|k, seed| every_third(k, seed, pulled_fault_line, pulled_line)),
        "excess" => Some(|k, seed| every_third(k, seed, excess_fault_line, excess_line)),
        "ad-hoc" => Some(|_, seed| ad_hoc_line(seed)),
        _ => None,
    }
}

fn every_third(k: u64, seed: u64, third: DrawLine, other: DrawLine) -> Vec<u8> {
    match k % 3 {
        2 => third(seed),
        _ => other(seed),
    }
}

/// Entry k has the seed SEED + k.
fn packed(seed: &str, count: &str, draw: Option<Draw>, out: &mut impl Write) -> io::Result<bool> {
    let (Some(seed), Some(count), Some(draw)) = (number(seed), number(count), draw) else {
        return Ok(false);
    };
    for k in 0..count {
        pack::write(out, &draw(k, seed.wrapping_add(k)))?;
    }
    Ok(true)
}

fn reporter(kind: &str) -> Option<fn(&[u8]) -> String> {
    match kind {
        "settle" => Some(settle_report),
        "steps" => Some(steps_report),
        "uplift" => Some(uplift_report),
        "cut" => Some(cut_report),
        _ => None,
    }
}

fn report(kind: &str, out: &mut impl Write) -> io::Result<bool> {
    let Some(report) = reporter(kind) else {
        return Ok(false);
    };
    let mut input = Vec::new();
    io::stdin().lock().read_to_end(&mut input)?;
    out.write_all(report(&input).as_bytes())?;
    Ok(true)
}

fn expect(kind: &str, out: &mut impl Write) -> io::Result<bool> {
    let report = match kind {
        "number" => |day: &[u8]| format!("{}\n", day_number(day)),
        _ => match reporter(kind) {
            Some(report) => report,
            None => return Ok(false),
        },
    };
    let mut input = BufReader::new(io::stdin().lock());
    while let Some(entry) = pack::read(&mut input)? {
        out.write_all(report(&entry).as_bytes())?;
    }
    Ok(true)
}
