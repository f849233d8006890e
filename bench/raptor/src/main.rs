//! Textbook RAPTOR and range RAPTOR over an unpacked GTFS feed, with the definitions of `ttm`: the baselines of its
//! benchmark, and an independent computation of the same durations.
//!
//! Departures are each minute of a window on one service day. A journey has at most a given number of rides; walks are
//! shortest chains of footpaths up to a limit, also first and last, and never one after another; change times count
//! between two rides at a stop. Nothing but the standard library is used.
//!
//! - `tables` and `feed` read the files, `walks` closes the footpaths, `network` groups trips into lines;
//! - `search` has both algorithms; `percentiles` summarises a window.

mod feed;
mod network;
mod percentiles;
mod search;
mod tables;
mod walks;

use network::Network;
use percentiles::{each_percentile, Total};
use search::{Search, Window};
use std::process::ExitCode;
use std::time::{Duration, Instant};

/// No time, no duration: greater than all others.
const NEVER: u32 = u32::MAX;

const USAGE: &str = "usage: raptor textbook|range FEED YYYYMMDD HH:MM:SS MINUTES RIDES WALK FOOTPATHS ORIGINS [PERCENTILES]

  FEED        a folder with an unpacked GTFS feed
  MINUTES     departures each minute, so many from HH:MM:SS on
  RIDES       the greatest number of rides of a journey
  WALK        the longest walk, in seconds
  FOOTPATHS   a CSV file with from_stop_id, to_stop_id and seconds, or - for none
  ORIGINS     a CSV file with stop_id
  PERCENTILES such as 25,50,75: also computes these percentiles over the minutes

Prints the time of the search from each origin, and a checksum of all durations; of each percentile the sum of all cells
and how many there are.";

/// What the command line asks for.
struct Request<'a> {
    algorithm: &'a str,
    folder: &'a str,
    date: u32,
    window: Window,
    walk: u32,
    footpaths: &'a str,
    origins: &'a str,
    percentiles: Vec<u32>,
}

impl<'a> Request<'a> {
    fn parse(words: &'a [String]) -> Option<Request<'a>> {
        let [algorithm, folder, date, first, minutes, rides, walk, footpaths, origins, rest @ ..] = words else {
            return None;
        };
        let percentiles = match rest {
            [] => Some(Vec::new()),
            [list] => list.split(',').map(tables::number).collect(),
            _ => None,
        };
        let request = Request {
            algorithm,
            folder,
            date: tables::number(date)?,
            window: Window {
                first: tables::time(first)?,
                minutes: tables::number(minutes)? as usize,
                rides: tables::number(rides)? as usize,
            },
            walk: tables::number(walk)?,
            footpaths,
            origins,
            percentiles: percentiles?,
        };
        let known = ["textbook", "range"].contains(&request.algorithm);
        (known && request.percentiles.iter().all(|percentile| (1..=100).contains(percentile))).then_some(request)
    }
}

/// Continues a checksum with the durations from one more origin: stop by stop, and minute by minute of each stop.
fn add_to(checksum: u64, durations: &[u32], stops: usize) -> u64 {
    let in_order = (0..stops).flat_map(|stop| durations.iter().skip(stop).step_by(stops));
    in_order.fold(checksum, |sum, &duration| sum.wrapping_mul(1_000_003).wrapping_add(u64::from(duration)))
}

fn run(request: &Request) -> Result<(), String> {
    let stops = feed::read_stops(request.folder)?;
    let origins = feed::read_origins(request.origins, &stops)?;
    let trips = feed::read_trips(request.folder, &stops, request.date)?;
    let walks = feed::read_walks(request.folder, request.footpaths, &stops, request.walk)?;
    let network = Network::new(&trips, walks);
    drop(trips);
    let mut search = Search::new(&network, request.window);
    let mut durations = vec![NEVER; stops.count() * request.window.minutes];
    let mut totals = vec![Total::default(); request.percentiles.len()];
    let (mut checksum, mut whole) = (0, Duration::ZERO);
    for (origin, number) in origins.into_iter().zip(1..) {
        let start = Instant::now();
        match request.algorithm {
            "textbook" => search.textbook(origin, &mut durations),
            _ => search.range(origin, &mut durations),
        }
        let took = start.elapsed();
        whole += took;
        println!("{}, origin {number}, us: {}", request.algorithm, took.as_micros());
        each_percentile(&durations, stops.count(), &request.percentiles, |at, cell| totals[at].add(cell));
        checksum = add_to(checksum, &durations, stops.count());
    }
    println!("{}, whole, us: {}", request.algorithm, whole.as_micros());
    println!("{}, checksum: {checksum}", request.algorithm);
    for (percentile, total) in request.percentiles.iter().zip(&totals) {
        println!("percentile {percentile}, cells: {}", total.reached);
        println!("percentile {percentile}, seconds: {}", total.seconds);
    }
    Ok(())
}

fn main() -> ExitCode {
    let words: Vec<String> = std::env::args().skip(1).collect();
    let Some(request) = Request::parse(&words) else {
        eprintln!("{USAGE}");
        return ExitCode::from(2);
    };
    match run(&request) {
        Ok(()) => ExitCode::SUCCESS,
        Err(error) => {
            eprintln!("raptor: {error}");
            ExitCode::FAILURE
        }
    }
}
