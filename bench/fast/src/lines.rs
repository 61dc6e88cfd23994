//! The lines of a trace. Most have a usual form and are cut by masks. Some of them are read before the first of them is stepped, so that their shadow
//! words are on their way. All other lines are read by the whole grammar.

use crate::bytes::{breaks, is_space, key, key_of, line_feed, number, usual_number, word_at, words_in, words_of};
use crate::machine::{Machine, MISSING};
use crate::reader::{feed, Fault, Lines, TextFault, LONGEST};
use crate::rules::Rules;
use crate::shadow::Place;
use std::io::Read;

/// A whole replay: its report and its exit status.
pub fn replay<const EXPLAIN: bool>(reader: &mut impl Read, byte_limit: u64, rules: &Rules) -> Result<(Vec<u8>, u8), Fault> {
    let mut trace = Trace { machine: Machine::<EXPLAIN>::new(rules), edition: 0 };
    feed(reader, byte_limit, &mut trace)?;
    Ok(trace.machine.finish())
}

type Kind = &'static str;

const LARGEST_REUSE: u64 = 4_194_304;
const MOST_LEVEL: u64 = 31;
/// How many lines are read before the first of them is stepped.
const AHEAD: usize = 32;
/// The bytes of a line of a usual form, and what may be looked at behind it.
const WINDOW: usize = 96;

const READ: u64 = key_of(b"read");
const WRITE: u64 = key_of(b"write");
const LOCK: u64 = key_of(b"lock");
const UNLOCK: u64 = key_of(b"unlock");
const RLOCK: u64 = key_of(b"rlock");
const RUNLOCK: u64 = key_of(b"runlock");
const SHOW: u64 = key_of(b"show");

#[derive(Clone, Copy, Default)]
enum Verb {
    Acquire(bool),
    Release(bool),
    Access(bool),
    #[default]
    Show,
    Reuse,
    IgnoreOn,
    IgnoreOff,
    Level,
}

/// A line of a usual form that is read and not yet stepped.
#[derive(Clone, Copy, Default)]
struct Ready {
    line: u64,
    /// The number of the lock, or the word.
    operand: u64,
    place: Place,
    thread: u32,
    site: u32,
    verb: Verb,
}

struct Trace<'r, const EXPLAIN: bool> {
    machine: Machine<'r, EXPLAIN>,
    /// The number of the header, 0 before it.
    edition: u8,
}

impl<const EXPLAIN: bool> Trace<'_, EXPLAIN> {
    /// Reads a line of a usual form: an access, a lock's line or a show, at most 64 bytes, one byte between two words, no fault. It returns where the
    /// next line begins. If it returns `None`, it has numbered at most names that the line has.
    #[inline(always)]
    fn usual_line(&mut self, text: &[u8], at: usize, ready: &mut Ready) -> Option<usize> {
        // The bounds are looked at once: no place below is past the 65th byte.
        let text: &[u8; WINDOW] = text[at..at + WINDOW].try_into().unwrap();
        let mask = breaks(text, 0);
        let thread_end = mask.trailing_zeros() as usize;
        let mask = mask & mask.wrapping_sub(1);
        let verb_end = mask.trailing_zeros() as usize;
        let mask = mask & mask.wrapping_sub(1);
        let operand_end = mask.trailing_zeros() as usize;
        if thread_end == 0 || operand_end == 64 || !is_space(text[thread_end]) || !is_space(text[verb_end]) {
            return None;
        }
        let verb_len = verb_end - thread_end - 1;
        let (operand, operand_len) = (verb_end + 1, operand_end - verb_end - 1);
        if verb_len == 0 || verb_len > 8 || operand_len == 0 {
            return None;
        }
        let machine = &mut self.machine;
        ready.thread = machine.threads.number_at(text, 0, thread_end)?;
        machine.seat(ready.thread);
        let verb = key(text, thread_end + 1, verb_len);
        if verb == READ || verb == WRITE {
            let word = word_at(usual_number(text, operand, operand_len)?).ok()?;
            ready.verb = Verb::Access(verb == WRITE);
            ready.operand = word;
            ready.place = machine.shadow.find(word);
            machine.shadow.fetch(ready.place);
            if text[operand_end] == b'\n' {
                ready.site = MISSING;
                return Some(at + operand_end + 1);
            }
            let mask = mask & mask.wrapping_sub(1);
            let (site, site_end) = (operand_end + 1, mask.trailing_zeros() as usize);
            let site_len = site_end.wrapping_sub(site);
            if site_end == 64 || site_len == 0 || !is_space(text[operand_end]) || text[site_end] != b'\n' {
                return None;
            }
            ready.site = match text[site] {
                b'-' if site_len == 1 => MISSING,
                _ => machine.sites.number_at(text, site, site_len)?,
            };
            return Some(at + site_end + 1);
        }
        if text[operand_end] != b'\n' {
            return None;
        }
        ready.verb = match verb {
            LOCK => Verb::Acquire(true),
            UNLOCK => Verb::Release(true),
            RLOCK => Verb::Acquire(false),
            RUNLOCK => Verb::Release(false),
            SHOW => {
                ready.verb = Verb::Show;
                ready.operand = word_at(usual_number(text, operand, operand_len)?).ok()?;
                return Some(at + operand_end + 1);
            }
            _ => return None,
        };
        ready.operand = u64::from(machine.locks.number_at(text, operand, operand_len)?);
        Some(at + operand_end + 1)
    }

    /// Steps what was read ahead, up to a stop.
    #[inline(always)]
    fn step_all(&mut self, ready: &[Ready]) {
        let machine = &mut self.machine;
        for &Ready { line, operand, place, thread, site, verb } in ready {
            machine.line = line;
            match verb {
                Verb::Access(write) => {
                    machine.access(thread, operand, place, write, site);
                    if machine.stopped.is_some() {
                        return;
                    }
                }
                Verb::Acquire(write) => machine.acquire(thread, operand as u32, write),
                Verb::Release(write) => machine.release(thread, operand as u32, write),
                Verb::Show => machine.show(operand),
                _ => unreachable!("no line of a usual form"),
            }
        }
    }

    /// Reads a line by the whole grammar and steps it.
    #[cold]
    #[inline(never)]
    fn any_line(&mut self, line: &[u8]) -> Result<(), Kind> {
        if line.len() > LONGEST {
            return Err("line too long");
        }
        if line.first() == Some(&b'#') {
            return Ok(());
        }
        let mut words = words_of(line);
        let Some(thread) = words.next() else {
            return Ok(());
        };
        if self.edition == 0 {
            self.edition = match (thread, words.next(), words.next(), words.next()) {
                (b"eraser", Some(b"trace"), Some(b"1"), None) => 1,
                (b"eraser", Some(b"trace"), Some(b"2"), None) => 2,
                _ => return Err("no header"),
            };
            return Ok(());
        }
        let thread = self.machine.threads.number(thread).ok_or("bad name")?;
        self.machine.seat(thread);
        let verb = match words.next().ok_or("missing operand")? {
            b"lock" => Verb::Acquire(true),
            b"rlock" => Verb::Acquire(false),
            b"unlock" => Verb::Release(true),
            b"runlock" => Verb::Release(false),
            b"read" => Verb::Access(false),
            b"write" => Verb::Access(true),
            b"reuse" => Verb::Reuse,
            b"ignore-on" => Verb::IgnoreOn,
            b"ignore-off" => Verb::IgnoreOff,
            b"show" => Verb::Show,
            b"level" if self.edition == 2 => Verb::Level,
            _ => return Err("bad verb"),
        };
        let (needed, allowed) = match verb {
            Verb::IgnoreOn | Verb::IgnoreOff => (0, 0),
            Verb::Reuse => (2, 2),
            Verb::Access(_) => (1, 2),
            _ => (1, 1),
        };
        let (mut operands, mut count): ([&[u8]; 2], _) = ([b""; 2], 0);
        for word in words {
            if count == allowed {
                return Err("extra operand");
            }
            operands[count] = word;
            count += 1;
        }
        if count < needed {
            return Err("missing operand");
        }
        self.step(thread, verb, &operands[..count])
    }

    /// Reads the operands of a line and steps it, unless the replay has stopped.
    #[inline(always)]
    fn step(&mut self, thread: u32, verb: Verb, operands: &[&[u8]]) -> Result<(), Kind> {
        let machine = &mut self.machine;
        let running = machine.stopped.is_none();
        let value = |place: usize| number(operands[place]).ok_or("bad number");
        match verb {
            Verb::Acquire(_) | Verb::Release(_) => {
                let lock = machine.locks.number(operands[0]).ok_or("bad name")?;
                match verb {
                    Verb::Acquire(write) if running => machine.acquire(thread, lock, write),
                    Verb::Release(write) if running => machine.release(thread, lock, write),
                    _ => {}
                }
            }
            Verb::Access(write) => {
                let address = value(0)?;
                let site = match operands.get(1) {
                    Some(site) if site != b"-" => machine.sites.number(site).ok_or("bad name")?,
                    _ => MISSING,
                };
                let word = word_at(address)?;
                if running {
                    let place = machine.shadow.find(word);
                    machine.access(thread, word, place, write, site);
                }
            }
            Verb::Reuse => {
                let (start, size) = (value(0)?, value(1)?);
                if size > LARGEST_REUSE {
                    return Err("size too large");
                }
                if let (Some((first, last)), true) = (words_in(start, size)?, running) {
                    machine.reuse(first, last);
                }
            }
            Verb::Show => {
                let word = word_at(value(0)?)?;
                if running {
                    machine.show(word);
                }
            }
            Verb::Level => {
                let level = value(0)?;
                if level > MOST_LEVEL {
                    return Err("level too high");
                }
                if running {
                    machine.level(thread, level as u32);
                }
            }
            Verb::IgnoreOn if running => machine.ignore_on(thread),
            Verb::IgnoreOff if running => machine.ignore_off(thread),
            Verb::IgnoreOn | Verb::IgnoreOff => {}
        }
        Ok(())
    }
}

impl<const EXPLAIN: bool> Lines for Trace<'_, EXPLAIN> {
    fn take(&mut self, text: &[u8], end: usize) -> Result<(), TextFault> {
        let mut ready = [Ready::default(); AHEAD];
        let mut waiting = 0;
        let mut at = 0;
        let mut line = self.machine.line;
        while at < end {
            line += 1;
            if self.edition != 0 && self.machine.stopped.is_none() {
                ready[waiting].line = line;
                if let Some(next) = self.usual_line(text, at, &mut ready[waiting]) {
                    at = next;
                    waiting += 1;
                    if waiting == AHEAD {
                        self.step_all(&ready);
                        waiting = 0;
                    }
                    continue;
                }
            }
            self.step_all(&ready[..waiting]);
            waiting = 0;
            self.machine.line = line;
            let stop = line_feed(text, at);
            self.any_line(&text[at..stop]).map_err(|kind| TextFault { line, kind })?;
            at = stop + 1;
        }
        self.step_all(&ready[..waiting]);
        self.machine.line = line;
        Ok(())
    }

    fn taken(&self) -> u64 {
        self.machine.line
    }

    fn end(&mut self) -> Result<(), TextFault> {
        match self.edition {
            0 => Err(TextFault { line: self.machine.line + 1, kind: "no header" }),
            _ => Ok(()),
        }
    }
}
