//! Textbook RAPTOR and range RAPTOR. (Delling, Pajor, Werneck: Round-Based Public Transit Routing, ALENEX 2012.)

use crate::network::{LineView, Network};
use crate::NEVER;

/// Departures each minute from `first` on, in seconds since midnight, and the greatest number of rides.
#[derive(Clone, Copy)]
pub struct Window {
    pub first: u32,
    pub minutes: usize,
    pub rides: usize,
}

/// A set of stops.
struct StopSet {
    contains: Vec<bool>,
    stops: Vec<u32>,
}

impl StopSet {
    fn new(count: usize) -> StopSet {
        StopSet { contains: vec![false; count], stops: Vec::new() }
    }

    #[inline]
    fn insert(&mut self, stop: u32) {
        if !self.contains[stop as usize] {
            self.contains[stop as usize] = true;
            self.stops.push(stop);
        }
    }

    fn clear(&mut self) {
        for &stop in &self.stops {
            self.contains[stop as usize] = false;
        }
        self.stops.clear();
    }
}

/// For each stop the earliest arrival by a ride, and the earliest time from which a traveller can board a vehicle there
/// or is there on foot.
struct Labels {
    ride: Vec<u32>,
    ready: Vec<u32>,
}

impl Labels {
    fn new(stops: usize) -> Labels {
        Labels { ride: vec![NEVER; stops], ready: vec![NEVER; stops] }
    }

    fn clear(&mut self) {
        self.ride.fill(NEVER);
        self.ready.fill(NEVER);
    }

    #[inline]
    fn lower_ready(&mut self, stop: u32, time: u32, marked: &mut StopSet) {
        if time < self.ready[stop as usize] {
            self.ready[stop as usize] = time;
            marked.insert(stop);
        }
    }

    /// Starts at the origin, where no change time applies, or with a walk from it.
    fn start(&mut self, network: &Network, origin: u32, departure: u32, marked: &mut StopSet) {
        self.ride[origin as usize] = departure;
        self.lower_ready(origin, departure, marked);
        for &(to, seconds) in network.walks.leaving(origin) {
            self.lower_ready(to, departure + seconds, marked);
        }
    }

    /// Changes vehicles at the stops that rides newly reached, and walks from them.
    fn transfer(&mut self, network: &Network, reached: &StopSet, marked: &mut StopSet) {
        for &stop in &reached.stops {
            let arrival = self.ride[stop as usize];
            self.lower_ready(stop, arrival + network.walks.changes[stop as usize], marked);
            for &(to, seconds) in network.walks.leaving(stop) {
                self.lower_ready(to, arrival + seconds, marked);
            }
        }
    }

    /// Writes the duration to each stop, by a last ride or a last walk.
    fn write(&self, departure: u32, durations: &mut [u32]) {
        for ((duration, &ride), &ready) in durations.iter_mut().zip(&self.ride).zip(&self.ready) {
            let arrival = ride.min(ready);
            *duration = if arrival == NEVER { NEVER } else { arrival - departure };
        }
    }
}

/// The lines that a round scans, each with the first call at a marked stop.
struct Queue {
    first_call: Vec<u32>,
    lines: Vec<u32>,
}

impl Queue {
    /// Collects the lines that can be boarded at a marked stop, and clears the marks.
    fn fill(&mut self, network: &Network, marked: &mut StopSet) {
        for &stop in &marked.stops {
            for &(line, call) in network.boardings(stop) {
                let first = &mut self.first_call[line as usize];
                if *first == NEVER {
                    self.lines.push(line);
                }
                *first = call.min(*first);
            }
        }
        marked.clear();
    }

    /// Rides along each line of the queue, on the earliest trip that can be caught, and empties the queue.
    fn scan(&mut self, network: &Network, ready: &[u32], ride: &mut [u32], reached: &mut StopSet) {
        for line in self.lines.drain(..) {
            let call = std::mem::replace(&mut self.first_call[line as usize], NEVER);
            scan_line(&network.line(line), call as usize, ready, ride, reached);
        }
    }
}

#[inline(always)]
fn scan_line(line: &LineView, from: usize, ready: &[u32], ride: &mut [u32], reached: &mut StopSet) {
    let length = line.calls.len();
    let mut trip = line.trips; // none
    for (at, call) in line.calls.iter().enumerate().skip(from) {
        let stop = call.stop as usize;
        if trip < line.trips && call.alighting {
            let arrival = line.arrivals[trip * length + at];
            if arrival < ride[stop] {
                ride[stop] = arrival;
                reached.insert(call.stop);
            }
        }
        let time = ready[stop];
        if call.boarding && time != NEVER {
            let departs = |trip: usize| line.departures[trip * length + at];
            if trip == line.trips {
                trip = partition_point(line.trips, |trip| departs(trip) < time);
            } else {
                while trip > 0 && departs(trip - 1) >= time {
                    trip -= 1;
                }
            }
        }
    }
}

/// Returns the first of `count` numbers that isn't `before`, by halving.
#[inline(always)]
fn partition_point(count: usize, before: impl Fn(usize) -> bool) -> usize {
    let (mut low, mut high) = (0, count);
    while low < high {
        let middle = (low + high) / 2;
        if before(middle) {
            low = middle + 1;
        } else {
            high = middle;
        }
    }
    low
}

/// A search over a network, with the memory that it uses from one origin to the next.
pub struct Search<'a> {
    network: &'a Network,
    window: Window,
    /// The labels of each number of rides.
    labels: Vec<Labels>,
    /// Stops where somebody newly can board.
    marked: StopSet,
    /// Stops that a ride of this round reached earlier.
    reached: StopSet,
    /// Stops where some label of this minute fell.
    touched: StopSet,
    queue: Queue,
}

impl<'a> Search<'a> {
    pub fn new(network: &'a Network, window: Window) -> Search<'a> {
        let stops = network.stop_count();
        Search {
            network,
            window,
            labels: (0..=window.rides).map(|_| Labels::new(stops)).collect(),
            marked: StopSet::new(stops),
            reached: StopSet::new(stops),
            touched: StopSet::new(stops),
            queue: Queue { first_call: vec![NEVER; network.line_count()], lines: Vec::new() },
        }
    }

    /// Computes the durations from an origin by textbook RAPTOR: each minute is searched by itself.
    ///
    /// `durations` has a row of all stops for each minute, in seconds, `NEVER` where no journey leads.
    #[inline(never)]
    pub fn textbook(&mut self, origin: u32, durations: &mut [u32]) {
        let (network, stops, labels) = (self.network, self.network.stop_count(), &mut self.labels[0]);
        for minute in 0..self.window.minutes {
            let departure = self.window.first + 60 * minute as u32;
            labels.clear();
            labels.start(network, origin, departure, &mut self.marked);
            for _ in 0..self.window.rides {
                self.queue.fill(network, &mut self.marked);
                if self.queue.lines.is_empty() {
                    break;
                }
                self.queue.scan(network, &labels.ready, &mut labels.ride, &mut self.reached);
                labels.transfer(network, &self.reached, &mut self.marked);
                self.reached.clear();
            }
            self.marked.clear();
            labels.write(departure, &mut durations[minute * stops..][..stops]);
        }
    }

    /// Computes the same by range RAPTOR: from the last minute to the first, with the labels of each number of rides
    /// kept, because a traveller who leaves earlier arrives no later.
    #[inline(never)]
    pub fn range(&mut self, origin: u32, durations: &mut [u32]) {
        let (network, stops) = (self.network, self.network.stop_count());
        self.labels.iter_mut().for_each(Labels::clear);
        for minute in (0..self.window.minutes).rev() {
            let departure = self.window.first + 60 * minute as u32;
            self.labels[0].start(network, origin, departure, &mut self.marked);
            self.touch_marked();
            self.touched.insert(origin);
            for round in 1..=self.window.rides {
                let (before, after) = self.labels.split_at_mut(round);
                let (before, labels) = (&before[round - 1], &mut after[0]);
                for &stop in &self.touched.stops {
                    let stop = stop as usize;
                    labels.ride[stop] = labels.ride[stop].min(before.ride[stop]);
                    labels.ready[stop] = labels.ready[stop].min(before.ready[stop]);
                }
                self.queue.fill(network, &mut self.marked);
                self.queue.scan(network, &before.ready, &mut labels.ride, &mut self.reached);
                labels.transfer(network, &self.reached, &mut self.marked);
                for &stop in &self.reached.stops {
                    self.touched.insert(stop);
                }
                self.reached.clear();
                self.touch_marked();
            }
            self.marked.clear();
            self.touched.clear();
            self.labels[self.window.rides].write(departure, &mut durations[minute * stops..][..stops]);
        }
    }

    fn touch_marked(&mut self) {
        for &stop in &self.marked.stops {
            self.touched.insert(stop);
        }
    }
}

#[cfg(test)]
mod tests {
    use super::*;
    use crate::feed::Visit;
    use crate::walks::Walks;

    const EIGHT: u32 = 8 * 3600;

    fn visit(stop: u32, minutes: u32) -> Visit {
        let time = EIGHT + 60 * minutes;
        Visit { stop, arrival: time, departure: time, boarding: true, alighting: true }
    }

    /// From stop 0 at 08:00 to stop 1 at 08:10, and from there at 08:15 to stop 2 at 08:30.
    fn two_trips() -> Vec<Vec<Visit>> {
        vec![vec![visit(0, 0), visit(1, 10)], vec![visit(1, 15), visit(2, 30)]]
    }

    /// The durations from stop 0 by both algorithms, minute by minute; they must be equal.
    fn durations(trips: &[Vec<Visit>], walks: Walks, window: Window) -> Vec<Vec<u32>> {
        let network = Network::new(trips, walks);
        let stops = network.stop_count();
        let mut search = Search::new(&network, window);
        let (mut textbook, mut range) = (vec![0; stops * window.minutes], vec![0; stops * window.minutes]);
        search.textbook(0, &mut textbook);
        search.range(0, &mut range);
        assert_eq!(textbook, range);
        search.range(0, &mut range);
        assert_eq!(textbook, range, "a search leaves nothing behind");
        textbook.chunks(stops).map(<[u32]>::to_vec).collect()
    }

    #[test]
    fn waiting_counts_and_a_missed_trip_leads_nowhere() {
        let window = Window { first: EIGHT - 120, minutes: 4, rides: 2 };
        let found = durations(&two_trips(), Walks::closed(&[], vec![0; 3], 600), window);
        let expected = [[0, 720, 1920], [0, 660, 1860], [0, 600, 1800], [0, NEVER, NEVER]];
        assert_eq!(found, expected);
    }

    #[test]
    fn rides_are_limited() {
        let window = Window { first: EIGHT, minutes: 1, rides: 1 };
        let found = durations(&two_trips(), Walks::closed(&[], vec![0; 3], 600), window);
        assert_eq!(found, [[0, 600, NEVER]]);
    }

    #[test]
    fn a_change_takes_its_time_but_delays_no_arrival() {
        let window = Window { first: EIGHT, minutes: 1, rides: 2 };
        let within = durations(&two_trips(), Walks::closed(&[], vec![0, 300, 900], 600), window);
        assert_eq!(within, [[0, 600, 1800]]);
        let missed = durations(&two_trips(), Walks::closed(&[], vec![0, 301, 0], 600), window);
        assert_eq!(missed, [[0, 600, NEVER]]);
    }

    #[test]
    fn a_walk_may_come_first_or_last() {
        let trips = vec![vec![visit(1, 5), visit(2, 10)]];
        let walks = Walks::closed(&[(0, 1, 240), (2, 3, 100)], vec![0, 900, 0, 0], 600);
        let window = Window { first: EIGHT, minutes: 2, rides: 1 };
        let found = durations(&trips, walks, window);
        assert_eq!(found, [[0, 240, 600, 700], [0, 240, 540, 640]]);
    }

    #[test]
    fn no_walk_follows_a_walk() {
        let walks = Walks::closed(&[(0, 1, 400), (1, 2, 400)], vec![0; 3], 600);
        let found = durations(&[], walks, Window { first: EIGHT, minutes: 1, rides: 2 });
        assert_eq!(found, [[0, 400, NEVER]]);
    }

    #[test]
    fn an_overtaking_trip_is_caught() {
        let trips = vec![vec![visit(0, 0), visit(1, 40)], vec![visit(0, 5), visit(1, 20)]];
        let found = durations(&trips, Walks::closed(&[], vec![0; 2], 0), Window { first: EIGHT, minutes: 1, rides: 1 });
        assert_eq!(found, [[0, 1200]]);
    }

    #[test]
    fn nobody_boards_or_alights_where_it_is_forbidden() {
        let mut trips = vec![vec![visit(0, 0), visit(1, 10), visit(2, 20)]];
        trips[0][1].alighting = false;
        let window = Window { first: EIGHT, minutes: 1, rides: 1 };
        assert_eq!(durations(&trips, Walks::closed(&[], vec![0; 3], 0), window), [[0, NEVER, 1200]]);
        trips[0][0].boarding = false;
        assert_eq!(durations(&trips, Walks::closed(&[], vec![0; 3], 0), window), [[0, NEVER, NEVER]]);
    }
}
