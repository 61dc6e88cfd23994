//! Shadow words of 32 bits: two bits of state above the number of a thread or a set.

use crate::maps::KeyMap;

pub const VIRGIN: u32 = 0;
pub const EXCLUSIVE: u32 = 1;
pub const SHARED: u32 = 2;
pub const SHARED_MODIFIED: u32 = 3;

#[inline(always)]
pub fn pack(state: u32, number: u32) -> u32 {
    state << 30 | number
}

#[inline(always)]
pub fn state_of(shadow: u32) -> u32 {
    shadow >> 30
}

#[inline(always)]
pub fn number_of(shadow: u32) -> u32 {
    shadow & ((1 << 30) - 1)
}

const PAGE_WORDS: usize = 1024;
const BLOCK_PAGES: usize = 512;
const BLOCK_WORDS: usize = PAGE_WORDS * BLOCK_PAGES;

/// Pages lie in blocks by their first access, so neighbours in time are neighbours in memory. A new block is all zeros, and 0 is the virgin word.
type Block = Box<[u32; BLOCK_WORDS]>;

/// Where a shadow word lies. Places never move.
#[derive(Clone, Copy, Default)]
pub struct Place(u64);

impl Place {
    #[inline(always)]
    fn new(page: u32, word: u64) -> Place {
        Place(u64::from(page) << 10 | word & 1023)
    }

    #[inline(always)]
    fn block(self) -> usize {
        self.0 as usize / BLOCK_WORDS
    }

    #[inline(always)]
    fn word(self) -> usize {
        self.0 as usize % BLOCK_WORDS
    }
}

pub struct Shadow {
    /// The number of each page, under the page's place in memory and one more.
    numbers: KeyMap,
    blocks: Vec<Block>,
    pages: u32,
}

impl Shadow {
    pub fn new() -> Self {
        Shadow { numbers: KeyMap::new(), blocks: Vec::new(), pages: 0 }
    }

    /// Where a word lies. Its page is made if it isn't there.
    #[inline(always)]
    pub fn find(&mut self, word: u64) -> Place {
        let page = word >> 10;
        let number = match self.numbers.get(page + 1) {
            Some(number) => number,
            None => self.add(page),
        };
        Place::new(number, word)
    }

    #[inline(always)]
    pub fn get(&self, place: Place) -> u32 {
        self.blocks[place.block()][place.word()]
    }

    #[inline(always)]
    pub fn put(&mut self, place: Place, shadow: u32) {
        self.blocks[place.block()][place.word()] = shadow;
    }

    /// Fetches a word that will be needed soon.
    #[inline(always)]
    pub fn fetch(&self, place: Place) {
        #[cfg(target_arch = "x86_64")]
        {
            use std::arch::x86_64::{_mm_prefetch, _MM_HINT_T0};
            let word: *const u32 = &self.blocks[place.block()][place.word()];
            // Sound: a prefetch changes nothing that a program sees.
            unsafe { _mm_prefetch::<_MM_HINT_T0>(word.cast()) };
        }
        #[cfg(not(target_arch = "x86_64"))]
        let _ = place;
    }

    /// A word that may have no page.
    pub fn read(&self, word: u64) -> u32 {
        match self.numbers.get((word >> 10) + 1) {
            Some(number) => self.get(Place::new(number, word)),
            None => VIRGIN,
        }
    }

    /// Makes words of one page virgin, from `first` to `last`.
    pub fn reset(&mut self, first: u64, last: u64) {
        if let Some(number) = self.numbers.get((first >> 10) + 1) {
            let (first, last) = (Place::new(number, first), Place::new(number, last));
            self.blocks[first.block()][first.word()..=last.word()].fill(VIRGIN);
        }
    }

    #[cold]
    #[inline(never)]
    fn add(&mut self, page: u64) -> u32 {
        let number = self.pages;
        if number as usize == self.blocks.len() * BLOCK_PAGES {
            let zeros = vec![VIRGIN; BLOCK_WORDS].into_boxed_slice();
            self.blocks.push(zeros.try_into().expect("a block of this size"));
        }
        self.pages += 1;
        self.numbers.insert(page + 1, number);
        number
    }
}
