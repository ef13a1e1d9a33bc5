//! How maps hash what strangers choose: by seeds that are drawn when a map is made. Who sends frames from addresses of
//! its choice doesn't know which of them fall together.
use std::collections::hash_map::RandomState as OfStd;
use std::hash::{BuildHasher, Hasher};

use ahash::{AHasher, RandomState};

/// Hashes by the crate ahash with seeds of its own.
#[derive(Debug, Clone)]
pub struct Seeds(RandomState);

impl Default for Seeds {
    /// Other ones each time. Only some versions of ahash draw seeds by themselves; std draws its own of the kernel, and
    /// what its hash makes of nothing is as hard to guess.
    fn default() -> Seeds {
        let [a, b, c, d] = [(); 4].map(|()| OfStd::new().build_hasher().finish());
        Seeds(RandomState::with_seeds(a, b, c, d))
    }
}

impl BuildHasher for Seeds {
    type Hasher = AHasher;

    #[inline]
    fn build_hasher(&self) -> AHasher {
        self.0.build_hasher()
    }
}

#[cfg(test)]
mod tests {
    use super::*;
    use std::collections::HashSet;

    fn hash(seeds: &Seeds, number: u64) -> u64 {
        let mut hasher = seeds.build_hasher();
        hasher.write_u64(number);
        hasher.finish()
    }

    #[test]
    fn one_map_hashes_a_number_always_alike_and_others_otherwise() {
        let all: Vec<Seeds> = (0..64).map(|_| Seeds::default()).collect();
        let found: HashSet<u64> = all.iter().map(|seeds| hash(seeds, 7)).collect();
        assert_eq!(found.len(), all.len());
        assert!(all.iter().all(|seeds| hash(seeds, 7) == hash(&seeds.clone(), 7)));
    }

    #[test]
    fn numbers_fall_into_all_parts_of_a_map() {
        let seeds = Seeds::default();
        let mut parts = [0; 64];
        (0..64 * 100).for_each(|number| parts[(hash(&seeds, number) % 64) as usize] += 1);
        assert!(parts.iter().all(|number| (40..180).contains(number)), "{parts:?}");
    }
}
