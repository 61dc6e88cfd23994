//! The bytes of a report.

use crate::names::Names;

/// The number of the lock of level 0, which doesn't exist. Those of the levels above it follow.
const LEVEL_LOCKS: u32 = 0xffff_ffe0;

/// The lock that a thread holds by its interrupt level, 1 to 31.
pub fn level_lock(level: u32) -> u32 {
    LEVEL_LOCKS + level
}

#[derive(Default)]
pub struct Report(Vec<u8>);

impl Report {
    pub fn into_bytes(self) -> Vec<u8> {
        self.0
    }

    pub fn text(&mut self, text: impl AsRef<[u8]>) {
        self.0.extend_from_slice(text.as_ref());
    }

    pub fn number(&mut self, mut value: u64) {
        let mut digits = [0; 20];
        let mut at = digits.len();
        loop {
            at -= 1;
            digits[at] = b'0' + (value % 10) as u8;
            value /= 10;
            if value == 0 {
                break;
            }
        }
        self.text(&digits[at..]);
    }

    /// The beginning of a line about a line of the trace.
    pub fn line(&mut self, line: u64) {
        self.text("line ");
        self.number(line);
        self.text(": ");
    }

    pub fn address(&mut self, word: u64) {
        self.text("0x");
        for place in (0..12).rev() {
            let digit = (word << 2) >> (4 * place) & 15;
            self.0.push(b"0123456789abcdef"[digit as usize]);
        }
    }

    pub fn lock(&mut self, names: &Names, lock: u32) {
        if lock > LEVEL_LOCKS {
            self.text("!");
            self.number(u64::from(lock - LEVEL_LOCKS));
        } else {
            self.text(names.name(lock));
        }
    }

    pub fn locks(&mut self, names: &Names, locks: impl Iterator<Item = u32>) {
        let start = self.0.len();
        for lock in locks {
            if self.0.len() > start {
                self.text(" ");
            }
            self.lock(names, lock);
        }
        if self.0.len() == start {
            self.text("none");
        }
    }
}
