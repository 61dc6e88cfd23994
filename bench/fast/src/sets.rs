//! Locksets with numbers, and their intersections.

use crate::maps::{mix, spread_16, HashIndex};

/// The number of the empty set, which takes no place in the table.
pub const EMPTY: u32 = 0;

const MOST_SETS: usize = 1_048_576;
const REMEMBERED: usize = 1 << 16;

/// There are as many different sets as there may be, and another is needed.
pub struct TableFull;

pub struct Sets {
    locks: Vec<u32>,
    ends: Vec<usize>,
    index: HashIndex,
    /// The intersection of the last pair of each hash.
    remembered: Vec<(u64, u32)>,
    scratch: Vec<u32>,
}

impl Sets {
    pub fn new() -> Self {
        Sets { locks: Vec::new(), ends: vec![0], index: HashIndex::new(), remembered: vec![(0, 0); REMEMBERED], scratch: Vec::new() }
    }

    /// The locks of a set, rising.
    #[inline]
    pub fn get(&self, number: u32) -> &[u32] {
        match number as usize {
            0 => &[],
            at => &self.locks[self.ends[at - 1]..self.ends[at]],
        }
    }

    /// The number of a set, given as a rising list.
    pub fn number(&mut self, set: &[u32]) -> Result<u32, TableFull> {
        if set.is_empty() {
            return Ok(EMPTY);
        }
        let hash = set.iter().fold(set.len() as u64, |state, &lock| mix(state, u64::from(lock) + 1));
        let hash = (hash ^ (hash >> 32)) as u32;
        if let Some(number) = self.index.find(hash, |number| self.get(number) == set) {
            return Ok(number);
        }
        let number = self.ends.len();
        if number > MOST_SETS {
            return Err(TableFull);
        }
        self.locks.extend_from_slice(set);
        self.ends.push(self.locks.len());
        self.index.insert(hash, number as u32);
        Ok(number as u32)
    }

    #[inline(always)]
    pub fn intersection(&mut self, left: u32, right: u32) -> Result<u32, TableFull> {
        if left == right {
            return Ok(left);
        }
        if left == EMPTY || right == EMPTY {
            return Ok(EMPTY);
        }
        let pair = u64::from(left) << 32 | u64::from(right);
        let place = spread_16(pair);
        let (known, result) = self.remembered[place];
        if known == pair {
            return Ok(result);
        }
        let number = self.compute(left, right)?;
        self.remembered[place] = (pair, number);
        Ok(number)
    }

    #[cold]
    #[inline(never)]
    fn compute(&mut self, left: u32, right: u32) -> Result<u32, TableFull> {
        let mut both = std::mem::take(&mut self.scratch);
        both.clear();
        let (mut left, mut right) = (self.get(left), self.get(right));
        while let (Some(&first), Some(&second)) = (left.first(), right.first()) {
            if first == second {
                both.push(first);
            }
            if first <= second {
                left = &left[1..];
            }
            if second <= first {
                right = &right[1..];
            }
        }
        let number = self.number(&both);
        self.scratch = both;
        number
    }
}
