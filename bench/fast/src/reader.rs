//! Bytes in pieces to whole lines, and the faults that a line of any text can have.

use crate::bytes::last_line_feed;
use std::io::Read;

/// The first fault of a text: its line, and what is wrong there.
pub struct TextFault {
    pub line: u64,
    pub kind: &'static str,
}

pub enum Fault {
    Text(TextFault),
    Read,
}

impl From<TextFault> for Fault {
    fn from(fault: TextFault) -> Self {
        Fault::Text(fault)
    }
}

/// Who takes the lines of a text.
pub trait Lines {
    /// Takes the lines of `text[..end]`. Each ends with a line feed and is ASCII, and `SLACK` bytes of anything lie behind them.
    fn take(&mut self, text: &[u8], end: usize) -> Result<(), TextFault>;

    /// How many lines were taken.
    fn taken(&self) -> u64;

    /// The text has ended.
    fn end(&mut self) -> Result<(), TextFault>;
}

const PIECE: usize = 256 * 1024;
/// How many bytes behind the lines may be looked at.
const SLACK: usize = 128;
/// The most bytes of a line, its line feed not counted.
pub const LONGEST: usize = 1024;

pub fn too_long(line: u64) -> TextFault {
    TextFault { line, kind: "line too long" }
}

/// Reads a text to its end or to its first fault, and hands its lines on.
pub fn feed(reader: &mut impl Read, byte_limit: u64, lines: &mut impl Lines) -> Result<(), Fault> {
    let mut buffer = vec![0; PIECE + SLACK];
    let (mut offset, mut filled) = (0_u64, 0);
    let most = byte_limit.saturating_add(LONGEST as u64 + 1);
    loop {
        let room = ((PIECE - filled) as u64).min(most - offset - filled as u64) as usize;
        let got = match room {
            0 => 0,
            _ => reader.read(&mut buffer[filled..filled + room]).map_err(|_| Fault::Read)?,
        };
        let whole = last_line_feed(&buffer[filled..filled + got]).map_or(0, |at| filled + at + 1);
        filled += got;
        take_whole(&buffer, whole, offset, byte_limit, lines)?;
        buffer.copy_within(whole..filled, 0);
        offset += whole as u64;
        filled -= whole;
        if filled > LONGEST {
            return Err(too_long(lines.taken() + 1).into());
        }
        if got == 0 {
            break;
        }
    }
    if filled > 0 {
        // The last line has no line feed. It gets one here, which counts for no limit.
        let fault = |kind| TextFault { line: lines.taken() + 1, kind };
        if offset + filled as u64 > byte_limit {
            return Err(fault("text too long").into());
        }
        if !buffer[..filled].is_ascii() {
            return Err(fault("not ascii").into());
        }
        buffer[filled] = b'\n';
        lines.take(&buffer, filled + 1)?;
    }
    Ok(lines.end()?)
}

/// Hands on the whole lines up to the first that passes the limit or isn't ASCII.
fn take_whole(buffer: &[u8], end: usize, offset: u64, byte_limit: u64, lines: &mut impl Lines) -> Result<(), TextFault> {
    let passing = (offset + end as u64 > byte_limit).then(|| (byte_limit - offset) as usize);
    let foreign = match buffer[..end].is_ascii() {
        true => None,
        false => buffer[..end].iter().position(|&byte| byte >= 128),
    };
    let Some(bad) = passing.into_iter().chain(foreign).min() else {
        return lines.take(buffer, end);
    };
    let start = last_line_feed(&buffer[..bad]).map_or(0, |at| at + 1);
    lines.take(buffer, start)?;
    let line = lines.taken() + 1;
    let len = buffer[start..end].iter().position(|&byte| byte == b'\n').expect("a whole line");
    let kind = match passing {
        _ if len > LONGEST => return Err(too_long(line)),
        Some(at) if at <= start + len => "text too long",
        _ => "not ascii",
    };
    Err(TextFault { line, kind })
}
