//! Reads the CSV files of a GTFS feed.

use std::borrow::Cow;
use std::collections::HashMap;
use std::fs;
use std::io::ErrorKind;

/// A record of a file, with its fields by the names of their columns.
pub struct Record<'a> {
    columns: &'a HashMap<&'a str, usize>,
    fields: &'a [Cow<'a, str>],
}

impl Record<'_> {
    /// Returns a field without surrounding spaces; it is empty if the file has no such column.
    pub fn text(&self, column: &str) -> &str {
        self.columns.get(column).and_then(|&at| self.fields.get(at)).map_or("", |field| field.trim())
    }

    /// Returns a field as a whole number; an empty field is 0.
    pub fn number(&self, column: &str) -> Result<u32, String> {
        match self.text(column) {
            "" => Ok(0),
            text => number(text).ok_or_else(|| format!("{column}: {text} is no whole number")),
        }
    }

    /// Returns a time of day, in seconds since midnight.
    pub fn time(&self, column: &str) -> Result<u32, String> {
        let text = self.text(column);
        time(text).ok_or_else(|| format!("{column}: {text} is no time HH:MM:SS"))
    }
}

/// Parses a whole number.
pub fn number(text: &str) -> Option<u32> {
    text.parse().ok()
}

/// Parses a time of day HH:MM:SS, in seconds since midnight; hours may exceed 23.
pub fn time(text: &str) -> Option<u32> {
    let mut parts = text.split(':').map(number);
    let (hours, minutes, seconds) = (parts.next()??, parts.next()??, parts.next()??);
    (parts.next().is_none() && minutes < 60 && seconds < 60).then(|| hours * 3600 + minutes * 60 + seconds)
}

/// Splits a line into its fields. A quoted field may contain commas and doubled quotes, but no line breaks.
fn split<'a>(line: &'a str, fields: &mut Vec<Cow<'a, str>>) {
    fields.clear();
    if !line.contains('"') {
        fields.extend(line.split(',').map(Cow::Borrowed));
        return;
    }
    let (mut field, mut quoted, mut characters) = (String::new(), false, line.chars().peekable());
    while let Some(character) = characters.next() {
        match character {
            '"' if quoted && characters.next_if_eq(&'"').is_some() => field.push('"'),
            '"' => quoted = !quoted,
            ',' if !quoted => fields.push(Cow::Owned(std::mem::take(&mut field))),
            _ => field.push(character),
        }
    }
    fields.push(Cow::Owned(field));
}

/// Calls `take` with each record of a file. A file that doesn't exist has no records, if it is `optional`.
///
/// The error names the file and the record, counted from 1 with the header.
pub fn each_record(
    path: &str,
    optional: bool,
    mut take: impl FnMut(&Record) -> Result<(), String>,
) -> Result<(), String> {
    let text = match fs::read_to_string(path) {
        Ok(text) => text,
        Err(error) if optional && error.kind() == ErrorKind::NotFound => return Ok(()),
        Err(error) => return Err(format!("{path}: {error}")),
    };
    let mut lines = text.trim_start_matches('\u{feff}').lines();
    let (mut header, mut fields) = (Vec::new(), Vec::new());
    split(lines.next().unwrap_or(""), &mut header);
    let columns = header.iter().enumerate().map(|(at, name)| (name.trim(), at)).collect();
    for (line, record) in lines.zip(2..).filter(|(line, _)| !line.is_empty()) {
        split(line, &mut fields);
        let taken = take(&Record { columns: &columns, fields: &fields });
        taken.map_err(|error| format!("{path}: record {record}: {error}"))?;
    }
    Ok(())
}

#[cfg(test)]
mod tests {
    use super::*;

    #[test]
    fn times_may_be_past_midnight() {
        assert_eq!(time("08:10:05"), Some(8 * 3600 + 10 * 60 + 5));
        assert_eq!(time("24:05:00"), Some(86_700));
        assert_eq!((time("08:10"), time("08:61:00"), time("8h")), (None, None, None));
    }

    #[test]
    fn quoted_fields_keep_commas_and_quotes() {
        let mut fields = Vec::new();
        split("A,\"Mill, \"\"old\"\"\",", &mut fields);
        assert_eq!(fields, ["A", "Mill, \"old\"", ""]);
        split("A,,B", &mut fields);
        assert_eq!(fields, ["A", "", "B"]);
    }
}
