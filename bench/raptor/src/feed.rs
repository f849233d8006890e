//! Reads what a search needs of an unpacked GTFS feed: stops, the trips of one date, walks and change times.

use crate::tables::{each_record, Record};
use crate::walks::Walks;
use std::collections::HashMap;

/// What a trip does at a stop; times are seconds since midnight.
#[derive(Clone, Copy)]
pub struct Visit {
    pub stop: u32,
    pub arrival: u32,
    pub departure: u32,
    pub boarding: bool,
    pub alighting: bool,
}

/// The stops of a feed, numbered in the order of `stops.txt`.
#[derive(Default)]
pub struct Stops {
    numbers: HashMap<String, u32>,
    /// The stops that an identifier means: the stop itself, or the platforms of a station.
    meant: HashMap<String, Vec<u32>>,
}

impl Stops {
    pub fn count(&self) -> usize {
        self.numbers.len()
    }

    /// Returns the number of the stop that a record names in a column.
    pub fn number(&self, record: &Record, column: &str) -> Result<u32, String> {
        let id = record.text(column);
        self.numbers.get(id).copied().ok_or_else(|| format!("{column}: {id} is no stop"))
    }

    fn meant(&self, id: &str) -> &[u32] {
        self.meant.get(id).map_or(&[], Vec::as_slice)
    }
}

pub fn read_stops(folder: &str) -> Result<Stops, String> {
    let mut stops = Stops::default();
    let mut stations: HashMap<String, Vec<u32>> = HashMap::new();
    let mut parents = Vec::new();
    each_record(&format!("{folder}/stops.txt"), false, |record| {
        let id = record.text("stop_id").to_string();
        match record.number("location_type")? {
            0 => {
                let number = stops.numbers.len() as u32;
                parents.push((number, record.text("parent_station").to_string()));
                stops.meant.insert(id.clone(), vec![number]);
                stops.numbers.insert(id, number);
            }
            1 => drop(stations.insert(id, Vec::new())),
            _ => {}
        }
        Ok(())
    })?;
    for (stop, parent) in parents {
        if let Some(platforms) = stations.get_mut(&parent) {
            platforms.push(stop);
        }
    }
    stops.meant.extend(stations);
    Ok(stops)
}

/// Reads a file that lists stops in its column `stop_id`.
pub fn read_origins(path: &str, stops: &Stops) -> Result<Vec<u32>, String> {
    let mut origins = Vec::new();
    each_record(path, false, |record| {
        origins.push(stops.number(record, "stop_id")?);
        Ok(())
    })?;
    Ok(origins)
}

const WEEKDAYS: [&str; 7] = ["monday", "tuesday", "wednesday", "thursday", "friday", "saturday", "sunday"];

/// Returns the day of the week of a date YYYYMMDD, 0 for Monday. (Sakamoto's method.)
fn weekday(date: u32) -> usize {
    let (year, month, day) = (date / 10_000, date / 100 % 100, date % 100);
    let year = if month < 3 { year - 1 } else { year };
    let offset = [0, 3, 2, 5, 0, 3, 5, 1, 4, 6, 2, 4][(month as usize + 11) % 12];
    ((year + year / 4 - year / 100 + year / 400 + offset + day + 6) % 7) as usize
}

/// Returns whether each service runs on a date.
fn read_services(folder: &str, date: u32) -> Result<HashMap<String, bool>, String> {
    let mut runs = HashMap::new();
    each_record(&format!("{folder}/calendar.txt"), true, |record| {
        let covers = record.number("start_date")? <= date && date <= record.number("end_date")?;
        let on_weekday = record.number(WEEKDAYS[weekday(date)])? == 1;
        runs.insert(record.text("service_id").to_string(), covers && on_weekday);
        Ok(())
    })?;
    each_record(&format!("{folder}/calendar_dates.txt"), true, |record| {
        if record.number("date")? == date {
            runs.insert(record.text("service_id").to_string(), record.number("exception_type")? == 1);
        }
        Ok(())
    })?;
    Ok(runs)
}

/// Reads the trips that run on a date, each with its visits by ascending `stop_sequence`.
///
/// Every stop time must have both times, and `frequencies.txt` isn't read: the generated feeds are of this kind.
pub fn read_trips(folder: &str, stops: &Stops, date: u32) -> Result<Vec<Vec<Visit>>, String> {
    let services = read_services(folder, date)?;
    let mut trips: Vec<Vec<(u32, Visit)>> = Vec::new();
    let mut numbers = HashMap::new();
    each_record(&format!("{folder}/trips.txt"), false, |record| {
        if services.get(record.text("service_id")) == Some(&true) {
            numbers.insert(record.text("trip_id").to_string(), trips.len());
            trips.push(Vec::new());
        }
        Ok(())
    })?;
    each_record(&format!("{folder}/stop_times.txt"), false, |record| {
        if let Some(&trip) = numbers.get(record.text("trip_id")) {
            let visit = Visit {
                stop: stops.number(record, "stop_id")?,
                arrival: record.time("arrival_time")?,
                departure: record.time("departure_time")?,
                boarding: record.number("pickup_type")? != 1,
                alighting: record.number("drop_off_type")? != 1,
            };
            trips[trip].push((record.number("stop_sequence")?, visit));
        }
        Ok(())
    })?;
    for trip in &mut trips {
        trip.sort_by_key(|&(sequence, _)| sequence);
    }
    Ok(trips.into_iter().map(|trip| trip.into_iter().map(|(_, visit)| visit).collect()).collect())
}

/// Reads `transfers.txt` and a file of footpaths (`-` for none): walks of at most `limit` seconds, and change times.
///
/// A transfer that names a route or a trip is left out, as are transfers without a time, or of type 3 and above.
pub fn read_walks(folder: &str, footpaths: &str, stops: &Stops, limit: u32) -> Result<Walks, String> {
    let mut direct = Vec::new();
    let mut changes = vec![0; stops.count()];
    let mut add = |from: &str, to: &str, seconds: u32| {
        for &start in stops.meant(from) {
            let ends = stops.meant(to).iter().filter(|&&end| end != start);
            direct.extend(ends.map(|&end| (start, end, seconds)));
        }
    };
    each_record(&format!("{folder}/transfers.txt"), true, |record| {
        let narrower = ["from_route_id", "to_route_id", "from_trip_id", "to_trip_id"];
        let kind = record.number("transfer_type")?;
        let timeless = record.text("min_transfer_time").is_empty();
        if kind > 2 || timeless || narrower.iter().any(|column| !record.text(column).is_empty()) {
            return Ok(());
        }
        let (from, to) = (record.text("from_stop_id"), record.text("to_stop_id"));
        let seconds = record.number("min_transfer_time")?;
        add(from, to, seconds);
        if kind == 2 && from == to {
            for &stop in stops.meant(from) {
                changes[stop as usize] = seconds.max(changes[stop as usize]);
            }
        }
        Ok(())
    })?;
    if footpaths != "-" {
        each_record(footpaths, false, |record| {
            add(record.text("from_stop_id"), record.text("to_stop_id"), record.number("seconds")?);
            Ok(())
        })?;
    }
    Ok(Walks::closed(&direct, changes, limit))
}

#[cfg(test)]
mod tests {
    use super::weekday;

    #[test]
    fn weekdays_count_from_monday() {
        assert_eq!(weekday(20_260_504), 0);
        assert_eq!(weekday(20_240_229), 3);
        assert_eq!(weekday(20_000_101), 5);
    }
}
