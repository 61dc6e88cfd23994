//! Open-addressing tables with multiplicative hashes.

const SPREAD: u64 = 0x9e37_79b9_7f4a_7c15;

/// A step of a hash: the two halves of a product, folded.
#[inline(always)]
pub fn mix(state: u64, value: u64) -> u64 {
    let product = u128::from(state ^ value) * u128::from(SPREAD);
    (product as u64) ^ ((product >> 64) as u64)
}

/// The upper 16 bits of a number's multiplicative hash.
#[inline(always)]
pub fn spread_16(value: u64) -> usize {
    (value.wrapping_mul(SPREAD) >> 48) as usize
}

#[derive(Clone, Copy)]
struct Slot {
    key: u64,
    value: u32,
}

const NO_KEY: Slot = Slot { key: 0, value: 0 };

/// A map from keys above 0 to numbers.
pub struct KeyMap {
    slots: Vec<Slot>,
    shift: u32,
    len: usize,
}

impl KeyMap {
    pub fn new() -> Self {
        KeyMap { slots: vec![NO_KEY; 64], shift: 64 - 6, len: 0 }
    }

    #[inline(always)]
    fn place(&self, key: u64) -> usize {
        // The fold lets the high bytes of a key take part as well.
        ((key ^ (key >> 29)).wrapping_mul(SPREAD) >> self.shift) as usize
    }

    #[inline(always)]
    pub fn get(&self, key: u64) -> Option<u32> {
        let mask = self.slots.len() - 1;
        let mut at = self.place(key) & mask;
        loop {
            let slot = self.slots[at & mask];
            if slot.key == key {
                return Some(slot.value);
            }
            if slot.key == 0 {
                return None;
            }
            at += 1;
        }
    }

    /// Adds a key that isn't there yet.
    #[cold]
    pub fn insert(&mut self, key: u64, value: u32) {
        if (self.len + 1) * 2 > self.slots.len() {
            let doubled = vec![NO_KEY; self.slots.len() * 2];
            let old = std::mem::replace(&mut self.slots, doubled);
            self.shift -= 1;
            for slot in old.into_iter().filter(|slot| slot.key != 0) {
                let at = self.free_from(slot.key);
                self.slots[at] = slot;
            }
        }
        let at = self.free_from(key);
        self.slots[at] = Slot { key, value };
        self.len += 1;
    }

    /// Gives a key its value, whether or not it has one.
    pub fn set(&mut self, key: u64, value: u32) {
        let mask = self.slots.len() - 1;
        let mut at = self.place(key) & mask;
        while self.slots[at].key != 0 {
            if self.slots[at].key == key {
                self.slots[at].value = value;
                return;
            }
            at = (at + 1) & mask;
        }
        self.insert(key, value);
    }

    fn free_from(&self, key: u64) -> usize {
        let mask = self.slots.len() - 1;
        let mut at = self.place(key) & mask;
        while self.slots[at].key != 0 {
            at = (at + 1) & mask;
        }
        at
    }
}

const FREE: u32 = u32::MAX;

/// Numbers by the hashes of what they stand for, which the caller keeps.
pub struct HashIndex {
    slots: Vec<(u32, u32)>,
    len: usize,
}

impl HashIndex {
    pub fn new() -> Self {
        HashIndex { slots: vec![(0, FREE); 64], len: 0 }
    }

    /// The number with this hash that `is_it` accepts.
    #[inline]
    pub fn find(&self, hash: u32, is_it: impl Fn(u32) -> bool) -> Option<u32> {
        let mask = self.slots.len() - 1;
        let mut at = hash as usize & mask;
        loop {
            let (known, number) = self.slots[at];
            if number == FREE {
                return None;
            }
            if known == hash && is_it(number) {
                return Some(number);
            }
            at = (at + 1) & mask;
        }
    }

    #[cold]
    pub fn insert(&mut self, hash: u32, number: u32) {
        if (self.len + 1) * 2 > self.slots.len() {
            let doubled = vec![(0, FREE); self.slots.len() * 2];
            let old = std::mem::replace(&mut self.slots, doubled);
            for (hash, number) in old.into_iter().filter(|&(_, number)| number != FREE) {
                self.put(hash, number);
            }
        }
        self.put(hash, number);
        self.len += 1;
    }

    fn put(&mut self, hash: u32, number: u32) {
        let mask = self.slots.len() - 1;
        let mut at = hash as usize & mask;
        while self.slots[at].1 != FREE {
            at = (at + 1) & mask;
        }
        self.slots[at] = (hash, number);
    }
}
