//! Days as tables for spreadsheets, there and back: a header row and a row for each line of the day, then one for each ad hoc record. The market table's values
//! stand on every line's row alike.

use super::{layout, lines, not_said};
use crate::arguments::Options;
use crate::form::{pulled_hint, Kind, NONE};
use crate::input::{read_day, Input};
use crate::layout::*;
use crate::outcome::{each, Result, Status};
use crate::output::{Format, Table, Unit};
use crate::values::{read_value, write_value};
use std::collections::BTreeMap;
use std::io::Write;

/// Or where and what is wrong.
type Read<T> = std::result::Result<T, String>;

/// One column: its name without the unit, and the word that it holds.
struct Column {
    name: String,
    kind: Kind,
    place: Place,
    /// Bid steps past the bid's count are empty, and columns after those of the first step may be left out. A pulled bid has `none` for its first break.
    slot: Option<(usize, usize)>,
}

#[derive(Clone, Copy, PartialEq, Eq)]
enum Place {
    Market(usize),
    Line(usize),
    Record(usize),
}

/// What the names of the columns of ad hoc records begin with.
const AD_HOC: &str = "ad_hoc_";

/// The columns of a day whose bids have at most so many steps.
fn columns(slots: usize, ad_hoc: bool) -> Vec<Column> {
    let mut columns = line_columns(slots);
    if ad_hoc {
        columns.extend(ad_hoc_columns());
    }
    columns
}

fn ad_hoc_columns() -> Vec<Column> {
    let named = [
        ("line", AD_HOC_LINE),
        ("schedule", AD_HOC_SCHEDULE),
        ("order", AD_HOC_ORDER),
    ];
    let named = named.map(|(name, place)| (name.to_string(), place));
    let quantities =
        (0..SCHEDULES).map(|i| (format!("operating_{}", i + 1), AD_HOC_QUANTITIES + i));
    let columns = named.into_iter().chain(quantities);
    let column = |(name, place): (String, usize)| Column {
        name: format!("{AD_HOC}{name}"),
        kind: Kind::Number,
        place: Place::Record(place),
        slot: None,
    };
    columns.map(column).collect()
}

/// The columns of market and line.
fn line_columns(slots: usize) -> Vec<Column> {
    let mut columns = Vec::new();
    let mut add = |name: String, kind, place, slot| {
        columns.push(Column {
            name,
            kind,
            place,
            slot,
        })
    };
    for s in 0..SCHEDULES {
        add(
            format!("market_price_{}", s + 1),
            Kind::Price,
            Place::Market(MARKET_PRICE + s),
            None,
        );
    }
    for s in 0..SCHEDULES {
        add(
            format!("capped_{}", s + 1),
            Kind::YesNo,
            Place::Market(CAP_MARK + s),
            None,
        );
    }
    add("apc".into(), Kind::Price, Place::Market(PRICE_CAP), None);
    add(
        "clawback".into(),
        Kind::YesNo,
        Place::Market(CLAWBACK),
        None,
    );
    add(
        "participant".into(),
        Kind::Number,
        Place::Line(PARTICIPANT),
        None,
    );
    add("point".into(), Kind::Number, Place::Line(POINT), None);
    add("side".into(), Kind::Side, Place::Line(SIDE), None);
    add(
        "accredited".into(),
        Kind::Accreditation,
        Place::Line(ACCREDITATION),
        None,
    );
    add("hedge".into(), Kind::Number, Place::Line(HEDGE), None);
    for s in 0..SCHEDULES {
        for k in 0..slots {
            add(
                format!("bid_{}_break_{}", s + 1, k + 1),
                Kind::Number,
                Place::Line(break_place(s, k)),
                Some((s, k)),
            );
            add(
                format!("bid_{}_price_{}", s + 1, k + 1),
                Kind::Price,
                Place::Line(price_place(s, k)),
                Some((s, k)),
            );
        }
    }
    for s in 0..SCHEDULES {
        for i in s..SCHEDULES {
            add(
                format!("pricing_{}_{}", s + 1, i + 1),
                Kind::Number,
                Place::Line(pricing_place(s, i)),
                None,
            );
        }
    }
    for s in 0..SCHEDULES {
        for i in 0..SCHEDULES {
            add(
                format!("operating_{}_{}", s + 1, i + 1),
                Kind::Number,
                Place::Line(operating_place(s, i)),
                None,
            );
        }
    }
    for i in 0..SCHEDULES {
        add(
            format!("actual_{}", i + 1),
            Kind::Number,
            Place::Line(actual_place(i)),
            None,
        );
    }
    columns
}

impl Column {
    /// Whether a cell says that the column's bid is pulled.
    fn is_pulled(&self, text: &str) -> bool {
        matches!((self.slot, self.kind), (Some((_, 0)), Kind::Number)) && text == NONE
    }

    /// How a pulled bid is written, where that is in this column.
    fn pulled_hint(&self) -> String {
        match (self.slot, self.kind) {
            (Some((s, 0)), Kind::Number) => pulled_hint(s, Format::Csv),
            _ => String::new(),
        }
    }

    /// Prices have the unit in the name.
    fn written(&self, unit: Unit) -> String {
        match self.kind {
            Kind::Price => format!("{}_{}", self.name, unit.name()),
            _ => self.name.clone(),
        }
    }
}

/// The most steps of a bid; at least 1, so that a pulled bid has a cell.
fn most_slots(day: &[u8], layout: &Layout) -> usize {
    let counts = lines(day, layout)
        .flat_map(|line| (0..SCHEDULES).map(|s| word(line, count_place(s)) as usize));
    counts.max().unwrap_or(0).clamp(1, BID_SLOTS)
}

/// The rows of all files under one header.
pub fn show(options: &Options, out: &mut dyn Write) -> Result<Status> {
    let mut days = Vec::new();
    let read = each(&options.files, |file| {
        let input = read_day(file)?;
        match layout(&input.bytes) {
            Some(layout) => days.push((input, layout)),
            None => return Err(not_said(&input)),
        }
        Ok(())
    })?;
    let slots = days
        .iter()
        .map(|(input, layout)| most_slots(&input.bytes, layout));
    let ad_hoc = days.iter().any(|(_, layout)| layout.records.is_some());
    let columns = columns(slots.max().unwrap_or(0), ad_hoc);
    let names = columns.iter().map(|column| column.written(options.unit));
    let names: Vec<String> = ["day".to_string()].into_iter().chain(names).collect();
    let mut table = Table::new(out, &names)?;
    let shown = each(&days, |(input, layout)| {
        let rows = rows(input, layout, &columns, options.unit);
        if make_rows(&names, &rows).as_ref() != Ok(&input.bytes) {
            return Err(not_said(input));
        }
        rows.iter().try_for_each(|row| table.row(&row.cells))
    })?;
    table.finish()?;
    Ok(read.max(shown))
}

/// A row and the line of the text that it stands in.
struct Row {
    line: u64,
    cells: Vec<String>,
}

fn rows(input: &Input, layout: &Layout, columns: &[Column], unit: Unit) -> Vec<Row> {
    let (name, day) = (&input.name, &input.bytes);
    let market = layout.market(day);
    let lines = lines(day, layout).map(|line| row(name, market, line, columns, unit));
    let records = (0..layout.record_count()).map(|j| Some(layout.record(day, j)));
    // A day in the layout with ad hoc records that has none.
    let none = (layout.records == Some(0)).then_some(None);
    let records = records
        .chain(none)
        .map(|bytes| record_row(name, bytes, columns));
    let rows = lines.chain(records).zip(2..);
    rows.map(|(cells, line)| Row { line, cells }).collect()
}

fn row(name: &str, market: &[u8], line: &[u8], columns: &[Column], unit: Unit) -> Vec<String> {
    let cell = |column: &Column| {
        let value = match column.place {
            Place::Market(place) => word(market, place),
            Place::Line(place) => word(line, place),
            Place::Record(_) => return String::new(),
        };
        match (column.slot, column.kind) {
            (Some((s, 0)), Kind::Number) if word(line, count_place(s)) == 0 => NONE.to_string(),
            (Some((s, k)), _) if k >= word(line, count_place(s)) as usize => String::new(),
            (_, Kind::Price) => unit.price(value),
            (_, kind) => write_value(kind, value, Unit::Units),
        }
    };
    named(name, columns.iter().map(cell))
}

/// The row of an ad hoc record, or of none.
fn record_row(name: &str, record: Option<&[u8]>, columns: &[Column]) -> Vec<String> {
    let cell = |column: &Column| match (column.place, record) {
        (Place::Record(place), Some(record)) => word(record, place).to_string(),
        (Place::Record(AD_HOC_LINE), None) => NONE.to_string(),
        _ => String::new(),
    };
    named(name, columns.iter().map(cell))
}

/// The cells after the day's name.
fn named(name: &str, cells: impl Iterator<Item = String>) -> Vec<String> {
    [name.to_string()].into_iter().chain(cells).collect()
}

/// The day that a table says.
pub fn make(text: &[u8]) -> Read<Vec<u8>> {
    // Spreadsheets put this mark before the text.
    let text = text.strip_prefix(b"\xEF\xBB\xBF").unwrap_or(text);
    let mut reader = csv::ReaderBuilder::new()
        .has_headers(false)
        .trim(csv::Trim::All)
        .from_reader(text);
    let mut rows = Vec::new();
    for record in reader.records() {
        let record = record.map_err(|error| table_error(&error))?;
        let cells: Vec<String> = record.iter().map(String::from).collect();
        // Spreadsheets have empty rows.
        if cells.iter().any(|cell| !cell.is_empty()) {
            let line = record.position().map_or(0, csv::Position::line);
            rows.push(Row { line, cells });
        }
    }
    match rows.split_first() {
        Some((names, rows)) => make_rows(&names.cells, rows),
        None => Err("the table has no header row".to_string()),
    }
}

fn table_error(error: &csv::Error) -> String {
    let at = |pos: &Option<csv::Position>| pos.as_ref().map_or(0, csv::Position::line);
    match error.kind() {
        csv::ErrorKind::UnequalLengths {
            pos,
            expected_len,
            len,
        } => {
            format!(
                "row {}: it has {len} cells, and the header has {expected_len}",
                at(pos)
            )
        }
        csv::ErrorKind::Utf8 { pos, .. } => format!("row {}: the text isn't UTF-8", at(pos)),
        _ => error.to_string(),
    }
}

/// Where each column stands, and in which unit.
struct Found {
    column: Column,
    place: Option<(usize, Unit)>,
}

fn make_rows(names: &[String], rows: &[Row]) -> Read<Vec<u8>> {
    let found = find_columns(names)?;
    let (records, lines): (Vec<&Row>, Vec<&Row>) =
        rows.iter().partition(|row| is_record(&found, &row.cells));
    let layout = Layout {
        lines: lines.len(),
        records: count_records(&found, &records)?,
    };
    if !(1..=MOST_LINES).contains(&layout.lines) {
        let count = layout.lines;
        return Err(format!(
            "the table has {count} rows of lines below its header; a day has 1 to 64 lines"
        ));
    }
    let mut day = layout.empty_day();
    let at = |row: &Row, (name, message)| format!("row {}, {name}: {message}", row.line);
    for (k, row) in lines.iter().enumerate() {
        let filled = put_row(&mut day, &layout, k, &found, &row.cells)
            .and_then(|()| put_counts(&mut day[layout.line_at(k)..], &found, &row.cells));
        filled.map_err(|fault| at(row, fault))?;
    }
    for (j, row) in records.iter().enumerate() {
        let filled = put_record(&mut day[layout.record_at(j)..], &found, &row.cells);
        filled.map_err(|fault| at(row, fault))?;
    }
    check_day_names(names, rows)?;
    Ok(day)
}

/// Whether a row is that of an ad hoc record: a cell of one is filled.
fn is_record(found: &[Found], cells: &[String]) -> bool {
    record_cells(found, cells).any(|(_, text)| !text.is_empty())
}

/// The cells of an ad hoc record, with the word places that they are for.
fn record_cells<'a>(
    found: &'a [Found],
    cells: &'a [String],
) -> impl Iterator<Item = (usize, &'a str)> {
    found
        .iter()
        .filter_map(|Found { column, place }| match column.place {
            Place::Record(at) => Some((at, cells[(*place)?.0].as_str())),
            _ => None,
        })
}

/// How many ad hoc records the rows are; none where the table has no such row.
fn count_records(found: &[Found], rows: &[&Row]) -> Read<Option<usize>> {
    let says_none = |row: &&&Row| {
        let mut cells = record_cells(found, &row.cells);
        cells.any(|cell| cell == (AD_HOC_LINE, NONE))
    };
    match (rows.len(), rows.iter().find(says_none)) {
        (0, _) => Ok(None),
        (1, Some(_)) => Ok(Some(0)),
        (_, Some(row)) => Err(format!(
            "row {}, {AD_HOC}line: '{NONE}' stands for no ad hoc record, and the table has another",
            row.line
        )),
        (count, None) if count > MOST_AD_HOC => Err(format!(
            "the table has {count} rows of ad hoc records; a day has at most {MOST_AD_HOC}"
        )),
        (count, None) => Ok(Some(count)),
    }
}

/// Column and message.
type Filled = std::result::Result<(), (String, String)>;

/// The words of an ad hoc record, whose row has no other cell than these and the day's name. With `none` for its line there is no record.
fn put_record(record: &mut [u8], found: &[Found], cells: &[String]) -> Filled {
    let none = record.is_empty();
    for Found { column, place } in found {
        let Some((place, unit)) = *place else {
            continue;
        };
        let (name, text) = (column.written(unit), &cells[place]);
        match column.place {
            Place::Record(AD_HOC_LINE) if none => {}
            Place::Record(at) if !none => {
                let value = read_cell(column.kind, unit, text);
                put_word(record, at, value.map_err(|message| (name, message))?);
            }
            _ if text.is_empty() => {}
            Place::Record(_) => {
                let rule = format!("with '{NONE}' for the line there is no ad hoc record");
                return Err((
                    name,
                    format!("'{text}' stands where the cell must be empty: {rule}"),
                ));
            }
            _ => {
                let rule = "the row is that of an ad hoc record";
                return Err((
                    name,
                    format!("'{text}' stands where the cell must be empty: {rule}"),
                ));
            }
        }
    }
    Ok(())
}

/// The words of line k, and of the market with the first line.
fn put_row(day: &mut [u8], layout: &Layout, k: usize, found: &[Found], cells: &[String]) -> Filled {
    for Found { column, place } in found {
        let Some((place, unit)) = *place else {
            continue;
        };
        let text = &cells[place];
        let skipped = column.slot.is_some() && (text.is_empty() || column.is_pulled(text));
        if skipped || matches!(column.place, Place::Record(_)) {
            continue;
        }
        let name = || column.written(unit);
        let value = read_cell(column.kind, unit, text)
            .map_err(|message| (name(), message + &column.pulled_hint()))?;
        let market = &mut day[layout.market_at()..];
        match column.place {
            Place::Market(place) if k > 0 && word(market, place) != value => {
                let rule = "the market is the same on every row";
                return Err((name(), format!("'{text}' isn't the first row's; {rule}")));
            }
            Place::Market(place) => put_word(market, place, value),
            Place::Line(place) => put_word(&mut day[layout.line_at(k)..], place, value),
            Place::Record(_) => {}
        }
    }
    Ok(())
}

fn check_day_names(names: &[String], rows: &[Row]) -> Read<()> {
    let Some(place) = names.iter().position(|name| name == "day") else {
        return Ok(());
    };
    let first = &rows[0].cells[place];
    match rows.iter().find(|row| row.cells[place] != *first) {
        Some(Row { line, cells }) => {
            let other = &cells[place];
            Err(format!(
                "row {line}, day: '{other}' isn't '{first}'; a table is of one day"
            ))
        }
        None => Ok(()),
    }
}

/// A bid's count is that of its filled steps, which come first.
fn put_counts(line: &mut [u8], found: &[Found], cells: &[String]) -> Filled {
    let mut filled = [[[false; 2]; BID_SLOTS]; SCHEDULES];
    let mut pulled = [false; SCHEDULES];
    for Found { column, place } in found {
        if let (Some((s, k)), Some((place, _))) = (column.slot, place) {
            let text = &cells[*place];
            match column.is_pulled(text) {
                true => pulled[s] = true,
                false => filled[s][k][usize::from(column.kind == Kind::Price)] = !text.is_empty(),
            }
        }
    }
    for (s, slots) in filled.iter().enumerate() {
        let count = count(slots, pulled[s], s).map_err(|(k, message)| {
            let name = format!("bid_{}_break_{}", s + 1, k + 1);
            (name, message)
        })?;
        put_word(line, count_place(s), count as u32);
    }
    Ok(())
}

/// The count of the bid of a schedule, from 0, by which of its cells are filled; or the place of a wrong step, and a message.
fn count(
    slots: &[[bool; 2]; BID_SLOTS],
    pulled: bool,
    bid: usize,
) -> std::result::Result<usize, (usize, String)> {
    let count = slots.iter().take_while(|slot| **slot != [false; 2]).count();
    if let Some(k) = slots[..count].iter().position(|slot| *slot != [true; 2]) {
        return Err((k, "a bid's step has a break and a price".to_string()));
    }
    if let Some(k) = (count..BID_SLOTS).find(|&k| slots[k] != [false; 2]) {
        return Err((k, "a step stands after an empty one".to_string()));
    }
    if count == 0 && !pulled {
        let hint = pulled_hint(bid, Format::Csv);
        return Err((0, format!("the bid has no step{hint}")));
    }
    Ok(count)
}

/// In dollars a price is a decimal number, with or without a dollar sign.
fn read_cell(kind: Kind, unit: Unit, text: &str) -> Read<u32> {
    match (kind, unit) {
        (Kind::Price, Unit::Dollars) if !text.starts_with('$') => {
            read_value(kind, &format!("${text}"))
        }
        _ => read_value(kind, text),
    }
}

fn find_columns(names: &[String]) -> Read<Vec<Found>> {
    let mut places = BTreeMap::new();
    for (place, name) in names.iter().enumerate() {
        if places.insert(name.as_str(), place).is_some() {
            return Err(format!("two columns have the name '{name}'"));
        }
    }
    places.remove("day");
    let ad_hoc = names.iter().any(|name| name.starts_with(AD_HOC));
    let mut found = Vec::new();
    for column in columns(BID_SLOTS, ad_hoc) {
        let mut units = [Unit::Dollars, Unit::Units].into_iter().filter_map(|unit| {
            let place = places.remove(column.written(unit).as_str())?;
            Some((place, unit))
        });
        let place = units.next();
        if units.next().is_some() {
            return Err(format!(
                "'{}' is there in dollars and in units",
                column.name
            ));
        }
        if place.is_none() && column.slot.is_none_or(|(_, k)| k == 0) {
            return Err(format!(
                "the table has no column '{}'{}",
                column.written(Unit::Dollars),
                column.pulled_hint()
            ));
        }
        found.push(Found { column, place });
    }
    match places.keys().next() {
        Some(name) => Err(format!("unknown column '{name}'")),
        None => Ok(found),
    }
}
