//! The steps of a trace, and what each adds to the report.

use crate::names::Names;
use crate::reasons::{Mark, Reasons};
use crate::report::{level_lock, Report};
use crate::rules::Rules;
use crate::sets::{Sets, TableFull, EMPTY};
use crate::shadow::{self, Place, Shadow, EXCLUSIVE, SHARED, SHARED_MODIFIED, VIRGIN};

const MOST_LOCKS: usize = 64;
const MOST_BRACKETS: u32 = 255;
/// A held set whose number isn't known.
const UNKNOWN: u32 = u32::MAX;
/// The site of an access that names none.
pub const MISSING: u32 = u32::MAX;

/// What a thread holds.
#[derive(Default)]
struct Seat {
    /// The locks that it acquired, rising, each with whether it is held in write mode.
    locks: Vec<(u32, bool)>,
    level: u32,
    depth: u32,
    /// The number of its held set, and of what it holds in write mode, or `UNKNOWN`.
    held: u32,
    write_held: u32,
}

/// A replay with `EXPLAIN`, if its races are explained.
pub struct Machine<'r, const EXPLAIN: bool> {
    /// The line of the step.
    pub line: u64,
    pub threads: Names,
    pub locks: Names,
    pub sites: Names,
    pub shadow: Shadow,
    pub stopped: Option<u64>,
    rules: &'r Rules,
    taken: Vec<u64>,
    seats: Vec<Seat>,
    sets: Sets,
    /// A held set, while it is looked up.
    scratch: Vec<u32>,
    reasons: Reasons,
    report: Report,
    steps: u64,
    races: u64,
    suppressed: u64,
    refused: u64,
}

impl<'r, const EXPLAIN: bool> Machine<'r, EXPLAIN> {
    pub fn new(rules: &'r Rules) -> Self {
        Machine {
            line: 0,
            threads: Names::new(b""),
            locks: Names::new(b"none"),
            sites: Names::new(b""),
            shadow: Shadow::new(),
            stopped: None,
            rules,
            taken: vec![0; rules.len()],
            seats: Vec::new(),
            sets: Sets::new(),
            scratch: Vec::with_capacity(MOST_LOCKS),
            reasons: Reasons::new(),
            report: Report::default(),
            steps: 0,
            races: 0,
            suppressed: 0,
            refused: 0,
        }
    }

    /// The whole report, and the exit status.
    pub fn finish(mut self) -> (Vec<u8>, u8) {
        if let Some(line) = self.stopped {
            self.report.line(line);
            self.report.text("stopped: table full\n");
        }
        for (place, count) in self.taken.iter().enumerate() {
            self.report.text(format!("suppression {}: {count}\n", place + 1));
        }
        let Machine { steps, races, suppressed, refused, .. } = self;
        self.report.text(format!("steps {steps}, races {races}, suppressed {suppressed}, refused {refused}\n"));
        let status = match self.stopped {
            Some(_) => 3,
            None => u8::from(races > 0),
        };
        (self.report.into_bytes(), status)
    }

    /// Gives a thread that is new its seat.
    #[inline(always)]
    pub fn seat(&mut self, thread: u32) {
        if thread as usize == self.seats.len() {
            self.seats.push(Seat::default());
        }
    }

    // ---- Accesses

    #[inline(always)]
    pub fn access(&mut self, thread: u32, word: u64, place: Place, write: bool, site: u32) {
        let seat = &self.seats[thread as usize];
        if seat.depth > 0 {
            self.steps += 1;
            return;
        }
        let old = self.shadow.get(place);
        let (state, number) = (shadow::state_of(old), shadow::number_of(old));
        if state <= EXCLUSIVE && (old == VIRGIN || number == thread) {
            self.steps += 1;
            if old == VIRGIN {
                self.shadow.put(place, shadow::pack(EXCLUSIVE, thread));
                if EXPLAIN {
                    self.reasons.first(word, Mark { line: self.line, thread, write });
                }
            }
            return;
        }
        let held = match if write { seat.write_held } else { seat.held } {
            UNKNOWN => match self.number_held(thread, write) {
                Ok(held) => held,
                Err(TableFull) => return self.stop(),
            },
            held => held,
        };
        let (new_state, candidates) = if state == EXCLUSIVE {
            (if write { SHARED_MODIFIED } else { SHARED }, held)
        } else {
            match self.sets.intersection(number, held) {
                Ok(both) => (state | u32::from(write), both),
                Err(TableFull) => return self.stop(),
            }
        };
        if EXPLAIN {
            let mark = Mark { line: self.line, thread, write };
            match state {
                EXCLUSIVE => self.reasons.joining(word, mark),
                _ => self.reasons.later(word, mark, self.sets.get(number), self.sets.get(candidates)),
            }
        }
        self.steps += 1;
        let new = shadow::pack(new_state, candidates);
        if new != old {
            self.shadow.put(place, new);
            if new == shadow::pack(SHARED_MODIFIED, EMPTY) {
                self.race(thread, word, write, site);
            }
        }
    }

    /// The number of a held set that isn't known.
    #[cold]
    #[inline(never)]
    fn number_held(&mut self, thread: u32, write: bool) -> Result<u32, TableFull> {
        let seat = &mut self.seats[thread as usize];
        self.scratch.clear();
        for &(lock, written) in &seat.locks {
            if written || !write {
                self.scratch.push(lock);
            }
        }
        self.scratch.extend((1..=seat.level).map(level_lock));
        let number = self.sets.number(&self.scratch)?;
        *if write { &mut seat.write_held } else { &mut seat.held } = number;
        Ok(number)
    }

    #[cold]
    fn stop(&mut self) {
        self.stopped = Some(self.line);
    }

    #[cold]
    #[inline(never)]
    fn race(&mut self, thread: u32, word: u64, write: bool, site: u32) {
        let site = (site != MISSING).then(|| self.sites.name(site));
        if let Some(rule) = self.rules.first_for(site, word) {
            self.taken[rule] += 1;
            self.suppressed += 1;
            return;
        }
        self.races += 1;
        let report = &mut self.report;
        report.line(self.line);
        report.text("race: ");
        report.text(self.threads.name(thread));
        report.text(if write { " write " } else { " read " });
        report.address(word);
        report.text(" at ");
        report.text(site.unwrap_or(b"-"));
        report.text(", holds ");
        let seat = &self.seats[thread as usize];
        report.locks(&self.locks, seat.locks.iter().map(|&(lock, _)| lock).chain((1..=seat.level).map(level_lock)));
        report.text("\n");
        if EXPLAIN {
            self.reasons.put(word, &self.threads, &self.locks, report);
        }
    }

    // ---- Locks, brackets and levels

    pub fn acquire(&mut self, thread: u32, lock: u32, write: bool) {
        self.steps += 1;
        let seat = &mut self.seats[thread as usize];
        let verb = if write { "lock" } else { "rlock" };
        let place = seat.locks.iter().position(|&(held, _)| held >= lock).unwrap_or(seat.locks.len());
        if seat.locks.get(place).is_some_and(|&(held, _)| held == lock) {
            return self.refuse(thread, verb, Some(lock), "already held");
        }
        if seat.locks.len() == MOST_LOCKS {
            return self.refuse(thread, verb, Some(lock), "too many locks held");
        }
        seat.locks.insert(place, (lock, write));
        seat.held = UNKNOWN;
        if write {
            seat.write_held = UNKNOWN;
        }
    }

    pub fn release(&mut self, thread: u32, lock: u32, write: bool) {
        self.steps += 1;
        let seat = &mut self.seats[thread as usize];
        let verb = if write { "unlock" } else { "runlock" };
        match seat.locks.iter().position(|&(held, _)| held == lock) {
            None => self.refuse(thread, verb, Some(lock), "not held"),
            Some(place) if seat.locks[place].1 != write => self.refuse(thread, verb, Some(lock), "held in the other mode"),
            Some(place) => {
                seat.locks.remove(place);
                let number = if seat.locks.is_empty() && seat.level == 0 { EMPTY } else { UNKNOWN };
                seat.held = number;
                if write {
                    seat.write_held = number;
                }
            }
        }
    }

    pub fn ignore_on(&mut self, thread: u32) {
        self.steps += 1;
        let seat = &mut self.seats[thread as usize];
        match seat.depth {
            MOST_BRACKETS => self.refuse(thread, "ignore-on", None, "ignore too deep"),
            _ => seat.depth += 1,
        }
    }

    pub fn ignore_off(&mut self, thread: u32) {
        self.steps += 1;
        let seat = &mut self.seats[thread as usize];
        match seat.depth {
            0 => self.refuse(thread, "ignore-off", None, "ignore not on"),
            _ => seat.depth -= 1,
        }
    }

    pub fn level(&mut self, thread: u32, level: u32) {
        self.steps += 1;
        let seat = &mut self.seats[thread as usize];
        if seat.level != level {
            (seat.level, seat.held, seat.write_held) = (level, UNKNOWN, UNKNOWN);
        }
    }

    #[cold]
    #[inline(never)]
    fn refuse(&mut self, thread: u32, verb: &str, lock: Option<u32>, why: &str) {
        self.refused += 1;
        let report = &mut self.report;
        report.line(self.line);
        report.text("refused: ");
        report.text(self.threads.name(thread));
        report.text(" ");
        report.text(verb);
        if let Some(lock) = lock {
            report.text(" ");
            report.lock(&self.locks, lock);
        }
        report.text(": ");
        report.text(why);
        report.text("\n");
    }

    // ---- Reuses and shows

    /// A new use of the words from the first to the last, a step for each page.
    pub fn reuse(&mut self, first: u64, last: u64) {
        for page in first >> 10..=last >> 10 {
            self.steps += 1;
            self.shadow.reset(first.max(page << 10), last.min(page << 10 | 1023));
        }
    }

    pub fn show(&mut self, word: u64) {
        self.steps += 1;
        let shadow = self.shadow.read(word);
        let number = shadow::number_of(shadow);
        let report = &mut self.report;
        report.line(self.line);
        report.text("state ");
        report.address(word);
        match shadow::state_of(shadow) {
            VIRGIN => report.text(": virgin"),
            EXCLUSIVE => {
                report.text(": exclusive ");
                report.text(self.threads.name(number));
            }
            state => {
                report.text(if state == SHARED { ": shared, candidates " } else { ": shared-modified, candidates " });
                report.locks(&self.locks, self.sets.get(number).iter().copied());
            }
        }
        report.text("\n");
    }
}
