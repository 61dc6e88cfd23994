//! Why a race is one: the accesses that `--explain` prints.

use crate::maps::KeyMap;
use crate::names::Names;
use crate::report::Report;

/// An access, as a reason names it.
#[derive(Clone, Copy)]
pub struct Mark {
    pub line: u64,
    pub thread: u32,
    pub write: bool,
}

struct Record {
    first: Mark,
    joining: Mark,
    write: Option<Mark>,
    /// The locks that were lost, each with the access that it didn't cover.
    lost: Vec<(u32, Mark)>,
}

/// The accesses that a word's race would name, for each word that was accessed.
pub struct Reasons {
    records: Vec<Record>,
    record_of: KeyMap,
}

impl Reasons {
    pub fn new() -> Self {
        Reasons { records: Vec::new(), record_of: KeyMap::new() }
    }

    /// The first access of a word since its last reuse.
    pub fn first(&mut self, word: u64, mark: Mark) {
        self.record_of.set(word + 1, self.records.len() as u32);
        self.records.push(Record { first: mark, joining: mark, write: None, lost: Vec::new() });
    }

    /// The joining access of a word.
    pub fn joining(&mut self, word: u64, mark: Mark) {
        let record = self.record(word);
        record.joining = mark;
        record.write = mark.write.then_some(mark);
    }

    /// A later access of a word, which narrowed its candidate set from `before` to `left`.
    pub fn later(&mut self, word: u64, mark: Mark, before: &[u32], left: &[u32]) {
        let record = self.record(word);
        if before.len() > left.len() {
            record.lost.extend(before.iter().filter(|lock| !left.contains(lock)).map(|&lock| (lock, mark)));
        }
        if mark.write && record.write.is_none() {
            record.write = Some(mark);
        }
    }

    fn record(&mut self, word: u64) -> &mut Record {
        let number = self.record_of.get(word + 1).expect("a word that was accessed has a record");
        &mut self.records[number as usize]
    }

    /// Adds the reasons of a word's race to the report.
    pub fn put(&mut self, word: u64, threads: &Names, locks: &Names, report: &mut Report) {
        let record = self.record(word);
        record.lost.sort_by_key(|&(lock, _)| lock);
        let end = |report: &mut Report, mark: Mark| {
            report.text(": line ");
            report.number(mark.line);
            report.text(", ");
            report.text(threads.name(mark.thread));
            report.text(if mark.write { " write\n" } else { " read\n" });
        };
        let write = record.write.expect("a racing word was written");
        for (label, mark) in [("  first", record.first), ("  joined", record.joining), ("  write", write)] {
            report.text(label);
            end(report, mark);
        }
        for &(lock, mark) in &record.lost {
            report.text("  ");
            report.lock(locks, lock);
            report.text(" not covering");
            end(report, mark);
        }
    }
}
