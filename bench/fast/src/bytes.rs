//! Words and numbers out of bytes, several at a time.

/// A bit for each of the 64 bytes at `at` that is a space or a control character.
#[cfg(target_arch = "x86_64")]
#[inline(always)]
pub fn breaks(text: &[u8], at: usize) -> u64 {
    use std::arch::x86_64::*;
    assert!(at + 64 <= text.len());
    // Sound: the 64 bytes lie in the slice, and each x86-64 processor has SSE2.
    unsafe {
        let space = _mm_set1_epi8(b' ' as i8);
        let mut mask = 0;
        for piece in 0..4 {
            let bytes = _mm_loadu_si128(text.as_ptr().add(at + piece * 16).cast());
            let low = _mm_cmpeq_epi8(_mm_min_epu8(bytes, space), bytes);
            mask |= (_mm_movemask_epi8(low) as u16 as u64) << (piece * 16);
        }
        mask
    }
}

#[cfg(not(target_arch = "x86_64"))]
#[inline(always)]
pub fn breaks(text: &[u8], at: usize) -> u64 {
    text[at..at + 64].iter().enumerate().fold(0, |mask, (bit, &byte)| mask | u64::from(byte <= b' ') << bit)
}

#[inline(always)]
pub fn is_space(byte: u8) -> bool {
    byte == b' ' || byte == b'\t'
}

/// The words of a line.
pub fn words_of(line: &[u8]) -> impl Iterator<Item = &[u8]> {
    line.split(|&byte| is_space(byte)).filter(|word| !word.is_empty())
}

#[inline(always)]
fn load(text: &[u8], at: usize) -> u64 {
    u64::from_le_bytes(text[at..at + 8].try_into().unwrap())
}

/// A word of 1 to 8 bytes as an integer. Any 8 bytes must lie at its place.
#[inline(always)]
pub fn key(text: &[u8], at: usize, len: usize) -> u64 {
    load(text, at) & (!0 >> (64 - 8 * len))
}

/// The same of a word by itself.
pub const fn key_of(word: &[u8]) -> u64 {
    let (mut key, mut at) = (0, 0);
    while at < word.len() {
        key |= (word[at] as u64) << (8 * at);
        at += 1;
    }
    key
}

/// The place of the first line feed at or after `at`. There must be one, with 64 bytes of anything behind it.
#[inline]
pub fn line_feed(text: &[u8], mut at: usize) -> usize {
    loop {
        let mut mask = breaks(text, at);
        while mask != 0 {
            let place = at + mask.trailing_zeros() as usize;
            if text[place] == b'\n' {
                return place;
            }
            mask &= mask - 1;
        }
        at += 64;
    }
}

pub fn last_line_feed(bytes: &[u8]) -> Option<usize> {
    bytes.iter().rposition(|&byte| byte == b'\n')
}

const ONES: u64 = 0x0101_0101_0101_0101;
const TOPS: u64 = 0x8080_8080_8080_8080;

/// The value of 1 to 8 hexadecimal digits. All bytes must be ASCII.
#[inline(always)]
fn hex_eight(text: &[u8], at: usize, len: usize) -> Option<u64> {
    let missing = 8 * (8 - len as u32);
    // Zeros take the places before the first digit.
    let zeros = 0x3030_3030_3030_3030_u64.checked_shr(64 - missing).unwrap_or(0);
    let bytes = load(text, at) << missing | zeros;
    let lower = bytes | ONES * 0x20;
    let digit = (bytes + ONES * 0x50) & !(bytes + ONES * 0x46);
    let letter = (lower + ONES * 0x1f) & !(lower + ONES * 0x19);
    if (digit | letter) & TOPS != TOPS {
        return None;
    }
    let value = (bytes & ONES * 0x0f) + ((bytes >> 6) & ONES) * 9;
    let value = (value << 4 | value >> 8) & 0x00ff_00ff_00ff_00ff;
    let value = (value << 8 | value >> 16) & 0x0000_ffff_0000_ffff;
    Some((value << 16 | value >> 32) & 0xffff_ffff)
}

/// The number at a place if it has at most 16 hexadecimal or 19 decimal digits. `None` says only that it must be read by `number`.
#[inline(always)]
pub fn usual_number(text: &[u8], at: usize, len: usize) -> Option<u64> {
    if len > 2 && text[at] == b'0' && text[at + 1] == b'x' {
        return match len - 2 {
            digits @ 1..=8 => hex_eight(text, at + 2, digits),
            digits @ 9..=16 => {
                let high = hex_eight(text, at + 2, digits - 8)?;
                let low = hex_eight(text, at + len - 8, 8)?;
                Some(high << 32 | low)
            }
            _ => None,
        };
    }
    if len == 0 || len > 19 {
        return None;
    }
    let mut value = 0;
    for &byte in &text[at..at + len] {
        let digit = byte.wrapping_sub(b'0');
        if digit > 9 {
            return None;
        }
        value = value * 10 + u64::from(digit);
    }
    Some(value)
}

/// The number that a word is, of any length.
#[inline]
pub fn number(word: &[u8]) -> Option<u64> {
    let (digits, base) = match word {
        [b'0', b'x', rest @ ..] => (rest, 16),
        _ => (word, 10),
    };
    if digits.is_empty() {
        return None;
    }
    digits.iter().try_fold(0_u64, |value, &byte| {
        let digit = char::from(byte).to_digit(base)?;
        value.checked_mul(u64::from(base))?.checked_add(u64::from(digit))
    })
}

const ADDRESSES: u64 = 1 << 48;
const OUT_OF_RANGE: &str = "address out of range";

/// The word of an address.
#[inline(always)]
pub fn word_at(address: u64) -> Result<u64, &'static str> {
    match address < ADDRESSES {
        true => Ok(address >> 2),
        false => Err(OUT_OF_RANGE),
    }
}

/// The first and the last word of a range of bytes, `None` if it has no bytes.
pub fn words_in(address: u64, size: u64) -> Result<Option<(u64, u64)>, &'static str> {
    if address >= ADDRESSES || size > ADDRESSES - address {
        return Err(OUT_OF_RANGE);
    }
    Ok((size > 0).then(|| (address >> 2, (address + size - 1) >> 2)))
}
