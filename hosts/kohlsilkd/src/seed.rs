//! The seed of the engine, by which machines spread their replies and refreshes.
use std::fs::File;
use std::io::{self, Read};

/// What a reply waits at the least, in milliseconds, so that searches which come at full speed share it.
const SHARED: u32 = 10;
/// What it has left of its searcher's window at the least, for its way.
const ON_THE_WAY: u32 = 100;

pub fn random_seed() -> io::Result<u32> {
    let mut bytes = [0; 4];
    File::open("/dev/urandom")?.read_exact(&mut bytes)?;
    Ok(in_time(u32::from_ne_bytes(bytes)))
}

/// A seed by which no reply is due in the first or the last milliseconds of a window: windows are whole seconds, and the delay is the seed's
/// remainder by them.
fn in_time(seed: u32) -> u32 {
    let milliseconds = seed % 1000;
    seed - milliseconds + SHARED + milliseconds * (1000 - SHARED - ON_THE_WAY) / 1000
}

#[cfg(test)]
mod tests {
    use super::*;

    #[test]
    fn every_reply_can_be_shared_and_has_time_for_its_way() {
        let seeds = (0..10_000).chain((0..1000).map(|k| u32::MAX - k));
        for (seed, window) in seeds.flat_map(|seed| (1..=5).map(move |mx| (seed, 1000 * mx))) {
            assert!((SHARED..=window - ON_THE_WAY).contains(&(in_time(seed) % window)), "{seed}");
        }
    }

    /// The seconds stay, and every millisecond between is taken.
    #[test]
    fn seeds_stay_spread() {
        let taken: std::collections::BTreeSet<u32> = (7000..8000).map(in_time).collect();
        assert_eq!(taken, (7010..7900).collect());
    }
}
