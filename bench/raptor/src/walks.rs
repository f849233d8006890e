//! Walks between stops, closed under chaining, and change times.

use crate::NEVER;
use std::cmp::Reverse;
use std::collections::BinaryHeap;

/// For each stop the shortest walks that leave it, and the time of a change between two vehicles there; in seconds.
pub struct Walks {
    /// The walks of stop `s` are `all[first[s]..first[s + 1]]`.
    first: Vec<usize>,
    all: Vec<(u32, u32)>,
    pub changes: Vec<u32>,
}

impl Walks {
    /// Finds the shortest chain of direct walks between each two stops, if it takes at most `limit` seconds.
    /// (Dijkstra's algorithm from each stop.) RAPTOR requires walks that are closed under chaining.
    pub fn closed(direct: &[(u32, u32, u32)], changes: Vec<u32>, limit: u32) -> Walks {
        let mut leaving = vec![Vec::new(); changes.len()];
        for &(from, to, seconds) in direct {
            leaving[from as usize].push((to, seconds));
        }
        let mut walks = Walks { first: vec![0], all: Vec::new(), changes };
        let mut shortest = vec![NEVER; leaving.len()];
        for origin in 0..leaving.len() as u32 {
            let mut reached = settle(&leaving, origin, limit, &mut shortest);
            reached.sort_unstable();
            let others = reached.iter().filter(|&&stop| stop != origin);
            walks.all.extend(others.map(|&stop| (stop, shortest[stop as usize])));
            walks.first.push(walks.all.len());
            for stop in reached {
                shortest[stop as usize] = NEVER;
            }
        }
        walks
    }

    /// Returns the stops within the walking limit of a stop, with the seconds.
    pub fn leaving(&self, stop: u32) -> &[(u32, u32)] {
        &self.all[self.first[stop as usize]..self.first[stop as usize + 1]]
    }
}

/// Lowers `shortest` to the walking time of each stop within the limit, and returns these stops.
fn settle(leaving: &[Vec<(u32, u32)>], origin: u32, limit: u32, shortest: &mut [u32]) -> Vec<u32> {
    shortest[origin as usize] = 0;
    let mut reached = vec![origin];
    let mut open = BinaryHeap::from([(Reverse(0), origin)]);
    while let Some((Reverse(seconds), stop)) = open.pop() {
        if seconds > shortest[stop as usize] {
            continue;
        }
        for &(to, more) in &leaving[stop as usize] {
            let sum = seconds.saturating_add(more);
            if sum <= limit && sum < shortest[to as usize] {
                if shortest[to as usize] == NEVER {
                    reached.push(to);
                }
                shortest[to as usize] = sum;
                open.push((Reverse(sum), to));
            }
        }
    }
    reached
}

#[cfg(test)]
mod tests {
    use super::Walks;

    #[test]
    fn chains_count_up_to_the_limit() {
        let direct = [(0, 1, 100), (1, 2, 100), (0, 2, 250), (2, 3, 150)];
        let walks = Walks::closed(&direct, vec![0; 4], 300);
        assert_eq!(walks.leaving(0), [(1, 100), (2, 200)]);
        assert_eq!(walks.leaving(1), [(2, 100), (3, 250)]);
        assert!(walks.leaving(3).is_empty());
    }
}
