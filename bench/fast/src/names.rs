//! Names, numbered by their first appearance.

use crate::bytes::key;
use crate::maps::{mix, HashIndex, KeyMap};

const fn name_bytes() -> [bool; 256] {
    let mut table = [false; 256];
    let mut byte = 0;
    while byte < 256 {
        table[byte] = matches!(byte as u8, b'a'..=b'z' | b'A'..=b'Z' | b'0'..=b'9' | b'_' | b'.' | b':' | b'/' | b'-');
        byte += 1;
    }
    table
}

static IN_NAMES: [bool; 256] = name_bytes();
const LONGEST: usize = 128;

pub fn is_name(word: &[u8]) -> bool {
    !word.is_empty() && word.len() <= LONGEST && word.iter().all(|&byte| IN_NAMES[byte as usize])
}

/// Whether the word can be a site of a suppression: 1 to 128 printable bytes.
pub fn is_site(word: &[u8]) -> bool {
    !word.is_empty() && word.len() <= LONGEST && word.iter().all(u8::is_ascii_graphic)
}

/// The hash of a word of more than 8 bytes.
#[inline]
fn hash_of(word: &[u8]) -> u32 {
    let eight = |bytes: &[u8]| u64::from_le_bytes(bytes.try_into().unwrap());
    let mut state = word.len() as u64;
    let mut chunks = word.chunks_exact(8);
    for chunk in &mut chunks {
        state = mix(state, eight(chunk));
    }
    // The last 8 bytes, some of which the chunks may have had.
    state = mix(state, eight(&word[word.len() - 8..]).rotate_left(17));
    (state ^ (state >> 32)) as u32
}

/// The names of one sort. What is found was a name when it was added, so only a new word is looked at byte by byte.
pub struct Names {
    short: KeyMap,
    long: HashIndex,
    bytes: Vec<u8>,
    ends: Vec<usize>,
    forbidden: &'static [u8],
}

impl Names {
    pub fn new(forbidden: &'static [u8]) -> Self {
        Names { short: KeyMap::new(), long: HashIndex::new(), bytes: Vec::new(), ends: vec![0], forbidden }
    }

    pub fn name(&self, number: u32) -> &[u8] {
        let at = number as usize;
        &self.bytes[self.ends[at]..self.ends[at + 1]]
    }

    /// The number of the word at a place that parts no words, or `None` if it is no name of this sort. Any 8 bytes must lie at the place.
    #[inline(always)]
    pub fn number_at(&mut self, text: &[u8], at: usize, len: usize) -> Option<u32> {
        let word = &text[at..at + len];
        if len > 8 {
            return self.number_of_long(word);
        }
        let key = key(text, at, len);
        match self.short.get(key) {
            Some(number) => Some(number),
            None => self.add_short(key, word),
        }
    }

    /// The number of any word.
    pub fn number(&mut self, word: &[u8]) -> Option<u32> {
        if word.len() > 8 {
            return self.number_of_long(word);
        }
        // In a key a zero byte would look like the word's end.
        if word.is_empty() || word.contains(&0) {
            return None;
        }
        let mut padded = [0; 8];
        padded[..word.len()].copy_from_slice(word);
        self.number_at(&padded, 0, word.len())
    }

    #[inline]
    fn number_of_long(&mut self, word: &[u8]) -> Option<u32> {
        if word.len() > LONGEST {
            return None;
        }
        let hash = hash_of(word);
        if let Some(number) = self.long.find(hash, |number| self.name(number) == word) {
            return Some(number);
        }
        let number = self.add(word)?;
        self.long.insert(hash, number);
        Some(number)
    }

    #[cold]
    #[inline(never)]
    fn add_short(&mut self, key: u64, word: &[u8]) -> Option<u32> {
        let number = self.add(word)?;
        self.short.insert(key, number);
        Some(number)
    }

    fn add(&mut self, word: &[u8]) -> Option<u32> {
        if !is_name(word) || word == self.forbidden {
            return None;
        }
        self.bytes.extend_from_slice(word);
        self.ends.push(self.bytes.len());
        Some(self.ends.len() as u32 - 2)
    }
}
