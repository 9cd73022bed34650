//! A day file from its text.

use crate::arguments::Options;
use crate::check;
use crate::form::{is_ad_hoc_word, read_schedules, Field, Section, NONE};
use crate::input::{read_text, Input};
use crate::layout::*;
use crate::many::{canonical, replace};
use crate::outcome::{Problem, Status};
use crate::output::Format;
use crate::refusals::Explained;
use crate::tables;
use crate::values::read_words;
use std::fmt;
use std::io::Write;

pub fn run(options: &Options, out: &mut dyn Write) -> crate::outcome::Result<Status> {
    let input = read_text(&options.files[0])?;
    let made = match options.format {
        Format::Text => make(&input.bytes).map_err(|fault| fault.to_string()),
        Format::Csv => tables::sheet::make(&input.bytes),
        Format::Json => tables::json::make(&input.bytes),
    };
    let bytes = made.map_err(|why| Problem::refused(format!("{}: {why}", input.name)))?;
    let day = Input { bytes, ..input };
    let mut verdict = check::check(&day)?;
    if let Some(explained) = &mut verdict {
        put_hints(explained, options.format);
    }
    if options.check {
        writeln!(out, "{}", check::text(&day, &verdict, options.all)?)?;
    } else {
        match &options.output {
            Some(path) if day.path.as_deref().map(canonical) == Some(canonical(path)) => {
                let name = path.display();
                return Err(Problem::failed(format!(
                    "{name}: the day would be written over its text"
                )));
            }
            Some(path) => replace(path, &day.bytes)?,
            None => out.write_all(&day.bytes)?,
        }
        if let Some(explained) = &verdict {
            let refused = Problem::refused(format!("{}: {}", day.name, explained.first()));
            return Ok(refused.report());
        }
    }
    Ok(if verdict.is_some() {
        Status::Refused
    } else {
        Status::Accepted
    })
}

/// A lone number is the accreditation word itself; where it is one of the schedules 2 to 5, how that schedule alone is written.
fn put_hints(explained: &mut Explained, format: Format) {
    for fault in &mut explained.faults {
        let schedule = fault.value;
        if fault.words.contains(", accreditation: ") && (2..=5).contains(&schedule) {
            let set = match format {
                Format::Json => format!("[{schedule}]"),
                _ => format!("'in {schedule}'"),
            };
            fault.words += &format!("; schedule {schedule} alone is {set}");
        }
    }
}

/// What is wrong with a text, and in which of its lines, from 1.
#[derive(Clone, Debug, PartialEq, Eq)]
pub struct Fault {
    pub line: usize,
    pub message: String,
}

impl fmt::Display for Fault {
    fn fmt(&self, out: &mut fmt::Formatter) -> fmt::Result {
        write!(out, "line {}: {}", self.line, self.message)
    }
}

type Parsed<T> = Result<T, Fault>;

fn fault<T>(line: usize, message: String) -> Parsed<T> {
    Err(Fault { line, message })
}

/// A key's row with the words it gives.
struct Entry {
    field: Field,
    line: usize,
    words: Vec<u32>,
}

/// One section of the text.
struct Block {
    section: Section,
    line: usize,
    fields: Vec<Field>,
    entries: Vec<Entry>,
    /// Whether this is `line = none`, which stands for no ad hoc record.
    none: bool,
}

/// The day file that a text says.
pub fn make(text: &[u8]) -> Parsed<Vec<u8>> {
    let text = match std::str::from_utf8(text) {
        Ok(text) => text,
        Err(error) => {
            let before = &text[..error.valid_up_to()];
            let line = 1 + before.iter().filter(|&&byte| byte == b'\n').count();
            return fault(line, "the text isn't UTF-8".to_string());
        }
    };
    // Some editors put this mark before the text.
    let text = text.strip_prefix('\u{feff}').unwrap_or(text);
    assemble(&read_blocks(text)?, text.lines().count())
}

/// The text's sections, each complete.
fn read_blocks(text: &str) -> Parsed<Vec<Block>> {
    let mut blocks: Vec<Block> = Vec::new();
    for (number, row) in text.lines().enumerate() {
        let line = number + 1;
        let row = row.split('#').next().unwrap_or("").trim();
        if row.starts_with('[') {
            blocks.last().map_or(Ok(()), Block::check_complete)?;
            let block = Block::open(row, line)?;
            check_sections(&blocks, &block)?;
            blocks.push(block);
        } else if !row.is_empty() {
            match blocks.last_mut() {
                Some(block) => block.add(row, line)?,
                None => return fault(line, "a section comes first, such as [market]".to_string()),
            }
        }
    }
    blocks.last().map_or(Ok(()), Block::check_complete)?;
    Ok(blocks)
}

/// Header and market stand once; lines and ad hoc records aren't too many.
fn check_sections(blocks: &[Block], next: &Block) -> Parsed<()> {
    let same = blocks.iter().filter(|block| block.section == next.section);
    let same: Vec<&Block> = same.collect();
    let (heading, most) = (next.section.heading(), next.section.most());
    match same.first() {
        Some(before) if most == 1 => {
            let message = format!("{heading} is repeated; it stands in line {}", before.line);
            fault(next.line, message)
        }
        _ if same.len() == most => fault(next.line, format!("more than {most} {heading} sections")),
        _ => Ok(()),
    }
}

impl Block {
    fn open(row: &str, line: usize) -> Parsed<Block> {
        let named = |section: &Section| section.heading() == row;
        match Section::ALL.into_iter().find(named) {
            Some(section) => Ok(Block {
                section,
                line,
                fields: section.fields(),
                entries: Vec::new(),
                none: false,
            }),
            None => {
                let known = Section::ALL.map(Section::heading).join(", ");
                fault(line, format!("unknown section {row}; there are {known}"))
            }
        }
    }

    /// Reads `key = values`, where the key may name a range of schedules.
    fn add(&mut self, row: &str, line: usize) -> Parsed<()> {
        let Some((key, values)) = row.split_once('=') else {
            return fault(line, format!("'{row}' is not 'key = values'"));
        };
        let at_line = |message| Fault { line, message };
        if self.section == Section::AdHoc && (key.trim(), values.trim()) == ("line", NONE) {
            return match std::mem::replace(&mut self.none, true) {
                false => Ok(()),
                true => fault(line, "'line' is repeated".to_string()),
            };
        }
        for field in self.named(key).map_err(at_line)? {
            if let Some(before) = self.entries.iter().find(|entry| entry.field == field) {
                let key = field.key();
                let message = format!("'{key}' is repeated; it stands in line {}", before.line);
                return fault(line, message);
            }
            let words = read_words(&field, values).map_err(at_line)?;
            self.entries.push(Entry { field, line, words });
        }
        Ok(())
    }

    /// The fields that a key names.
    fn named(&self, key: &str) -> Result<Vec<Field>, String> {
        let parts: Vec<&str> = key.split_whitespace().collect();
        let name = parts.first().copied().unwrap_or("");
        let fields = self.fields.iter().copied().filter(|f| f.name == name);
        let fields: Vec<Field> = fields.collect();
        let scheduled = fields.first().map(|field| field.schedule.is_some());
        match (scheduled, &parts[..]) {
            (None, _) => {
                let heading = self.section.heading();
                Err(format!("unknown key '{}' in {heading}", key.trim()))
            }
            (Some(false), [_]) => Ok(fields),
            (Some(false), _) => Err(format!("'{name}' has no schedule")),
            (Some(true), [_, schedules]) => {
                let (first, last) = read_schedules(schedules)?;
                Ok(fields[first - 1..last].to_vec())
            }
            (Some(true), _) => Err(format!(
                "'{name}' needs a schedule, 1 to 5, such as '{name} 1'"
            )),
        }
    }

    /// Every key that a section needs is there.
    fn check_complete(&self) -> Parsed<()> {
        if let (true, Some(entry)) = (self.none, self.entries.first()) {
            let (heading, key) = (self.section.heading(), entry.field.key());
            let message =
                format!("'{key}' in an {heading} with 'line = {NONE}', which stands alone");
            return fault(entry.line, message);
        }
        let given = |field: &Field| self.none || self.entries.iter().any(|e| e.field == *field);
        let mut missing = self.fields.iter().filter(|f| f.required && !given(f));
        match missing.next() {
            Some(field) => {
                let message = format!("this {} has no '{}'", self.section.heading(), field.key());
                fault(self.line, message)
            }
            None => Ok(()),
        }
    }

    /// A header has only words of the layout.
    fn check_words(&self, layout: &Layout) -> Parsed<()> {
        let mut entries = self.entries.iter();
        let none_there = layout.records.is_none();
        match entries.find(|entry| none_there && is_ad_hoc_word(entry.field.place)) {
            Some(Entry { field, line, .. }) => {
                let (key, heading) = (field.key(), Section::AdHoc.heading());
                let message = format!("'{key}' is a word of a file with ad hoc records, and the text has no {heading}");
                fault(*line, message)
            }
            None => Ok(()),
        }
    }

    /// Writes the words of the entries, in the order of the fields.
    fn put(&self, bytes: &mut [u8]) {
        for field in &self.fields {
            let entries = self.entries.iter().filter(|entry| entry.field == *field);
            for entry in entries {
                put_words(&mut bytes[4 * field.place..], &entry.words);
            }
        }
    }
}

/// The file of complete sections; `last` is the text's last line.
fn assemble(blocks: &[Block], last: usize) -> Parsed<Vec<u8>> {
    let of = |section| blocks.iter().filter(move |block| block.section == section);
    let Some(market) = of(Section::Market).next() else {
        return fault(last.max(1), "the text has no [market]".to_string());
    };
    let records = || of(Section::AdHoc).filter(|block| !block.none);
    if let (Some(none), true) = (
        of(Section::AdHoc).find(|b| b.none),
        of(Section::AdHoc).count() > 1,
    ) {
        let heading = Section::AdHoc.heading();
        let message = format!(
            "'line = {NONE}' stands for no ad hoc record, and the text has another {heading}"
        );
        return fault(none.line, message);
    }
    let layout = Layout {
        lines: of(Section::Line).count(),
        records: of(Section::AdHoc).next().map(|_| records().count()),
    };
    let mut day = layout.empty_day();
    for header in of(Section::Header) {
        header.check_words(&layout)?;
        header.put(&mut day);
    }
    market.put(&mut day[layout.market_at()..]);
    for (k, line) in of(Section::Line).enumerate() {
        line.put(&mut day[layout.line_at(k)..]);
    }
    for (j, record) in records().enumerate() {
        record.put(&mut day[layout.record_at(j)..]);
    }
    Ok(day)
}
