//! Nearest-rank percentiles over the minutes of a window.

use crate::NEVER;

/// Calls `take` with each stop's percentiles, in the order of `percentiles`.
///
/// The percentile P is the least duration that at least P percent of all minutes attain; a minute without a journey
/// counts as longer than any other, so a percentile may be `NEVER`. `durations` has a row of all stops for each minute.
pub fn each_percentile(durations: &[u32], stops: usize, percentiles: &[u32], mut take: impl FnMut(usize, u32)) {
    let minutes = durations.len() / stops.max(1);
    let mut of_stop = Vec::with_capacity(minutes);
    for stop in 0..stops {
        of_stop.clear();
        of_stop.extend(durations.iter().skip(stop).step_by(stops));
        for (number, &percentile) in percentiles.iter().enumerate() {
            let rank = (percentile as usize * minutes).div_ceil(100);
            take(number, *of_stop.select_nth_unstable(rank - 1).1);
        }
    }
}

/// The sum of some percentiles, and how many there are; those that are `NEVER` don't count.
#[derive(Clone, Default, PartialEq, Debug)]
pub struct Total {
    pub seconds: u64,
    pub reached: u64,
}

impl Total {
    pub fn add(&mut self, cell: u32) {
        if cell != NEVER {
            self.seconds += u64::from(cell);
            self.reached += 1;
        }
    }
}

#[cfg(test)]
mod tests {
    use super::*;

    #[test]
    fn percentiles_are_of_the_nearest_rank() {
        // to one stop, in four minutes
        let durations = [720, 660, 600, NEVER];
        let mut found = Vec::new();
        each_percentile(&durations, 1, &[1, 25, 26, 50, 75, 76, 100], |_, cell| found.push(cell));
        assert_eq!(found, [600, 600, 660, 660, 720, NEVER, NEVER]);
    }

    #[test]
    fn stops_are_apart() {
        let (mut totals, durations) = (vec![Total::default(); 2], [10, 500, 30, NEVER, 20, 700]);
        each_percentile(&durations, 2, &[50, 100], |number, cell| totals[number].add(cell));
        assert_eq!(totals, [Total { seconds: 20 + 700, reached: 2 }, Total { seconds: 30, reached: 1 }]);
    }
}
