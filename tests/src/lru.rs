//! An exact LRU cache, simulated one size at a time. It shares nothing with the model and knows nothing of sampling.

use std::collections::{BTreeMap, HashMap};

struct Cache {
    size: usize,
    clock: u64,
    last_use: HashMap<u64, u64>,
    by_use: BTreeMap<u64, u64>,
}

impl Cache {
    fn new(size: usize) -> Cache {
        Cache {
            size,
            clock: 0,
            last_use: HashMap::new(),
            by_use: BTreeMap::new(),
        }
    }

    /// Refers to the block, and returns whether it was in the cache.
    fn touch(&mut self, block: u64) -> bool {
        self.clock += 1;
        let before = self.last_use.insert(block, self.clock);
        if let Some(time) = before {
            self.by_use.remove(&time);
        }
        self.by_use.insert(self.clock, block);
        if self.by_use.len() > self.size {
            let first = *self.by_use.keys().next().expect("the cache holds a block");
            let oldest = self.by_use.remove(&first).expect("this block");
            self.last_use.remove(&oldest);
        }
        before.is_some()
    }
}

/// The blocks of an I/O: that of its first byte, then the one that begins after each, as long as the I/O reaches it.
pub fn blocks(offset: u64, length: u32) -> Vec<u64> {
    let end = u128::from(offset) + u128::from(length);
    let mut blocks = Vec::new();
    let mut at = u128::from(offset);
    while at < end {
        let block = at / 4096;
        blocks.push(block as u64);
        at = (block + 1) * 4096;
    }
    blocks
}

/// How many references of the trace miss in a cache of this many blocks.
pub fn misses(trace: &[u64], size: usize) -> u64 {
    let mut cache = Cache::new(size);
    let mut missed = 0;
    for block in trace {
        if !cache.touch(*block) {
            missed += 1;
        }
    }
    missed
}
