//! A third opinion on networks: the least sum of a way from each event to each other.

use crate::network::{constraints, Network};

/// Networks with more events than this are left out: the work grows with the third power.
pub const EVENTS: u64 = 20;

/// The latest times with none above zero, or none where a way from an event to itself has a sum below 0. The network is one
/// that is not refused.
pub fn latest(network: &Network) -> Option<Vec<i64>> {
    let events = network.events as usize;
    let mut sums: Vec<Vec<Option<i64>>> = vec![vec![None; events]; events];
    let shorter = |known: Option<i64>, sum: i64| Some(known.map_or(sum, |known| known.min(sum)));
    for constraint in constraints(network) {
        let sum = &mut sums[constraint.from][constraint.to];
        *sum = shorter(*sum, constraint.most);
    }
    for via in 0..events {
        for from in 0..events {
            for to in 0..events {
                if let (Some(first), Some(second)) = (sums[from][via], sums[via][to]) {
                    sums[from][to] = shorter(sums[from][to], first + second);
                }
            }
        }
        if (0..events).any(|event| sums[event][event].map_or(false, |sum| sum < 0)) {
            return None;
        }
    }
    Some((0..events).map(|to| (0..events).filter_map(|from| sums[from][to]).fold(0, i64::min)).collect())
}
