//! Traces that look like those of a recorded C++ program.
//!
//! Threads run in turns of some hundred lines. In a turn a thread calls functions. Each function has a file and some lines of it, and goes over the
//! fields of one object: its own stack's, a block's of its own, or a shared one's under that one's lock. A field of 8 bytes is two words, so it is two
//! lines with the same site. Blocks are freed, which is a reuse, and taken again by any thread.

use crate::large::Knobs;
use crate::Random;
use std::fmt::Arguments;
use std::io;

const FOLDERS: [&str; 6] = ["src/server", "src/cache", "include/net", "src/storage", "lib/queue", "src"];
const FILES: [&str; 8] =
    ["connection_pool.cpp", "lru_cache.cpp", "request.h", "page_table.cpp", "logger.cpp", "thread_pool.hpp", "session.cpp", "index.cpp"];
const LOCKS: [&str; 3] = ["mutex", "pool::queue_lock", "cache::shard_lock"];
const GLOBALS: u64 = 0x55d0_c8a0_0000;
const HEAP: u64 = 0x7f3a_5c00_0000;
const STACKS: u64 = 0x7ffd_e000_0000;
/// The bytes of the largest block. A block has an eighth of them or a multiple of it.
const BLOCK: u64 = 256;

/// What takes the lines.
pub type Put<'a> = dyn FnMut(Arguments<'_>) -> io::Result<()> + 'a;

/// The sites of one function, in its order.
type Function = Vec<String>;

/// What is recorded: the parts of a program, and what its threads do at the moment.
pub struct Recorded {
    functions: Vec<Function>,
    locks: Vec<String>,
    blocks: u64,
    /// Blocks that nobody has.
    free: Vec<u64>,
    /// The blocks of each thread.
    owned: Vec<Vec<u64>>,
    /// The function that each thread called last.
    last: Vec<usize>,
}

impl Recorded {
    pub fn new(knobs: &Knobs, random: &mut Random) -> Self {
        let functions = (0..(knobs.sites / 8).max(1)).map(|_| function(random)).collect();
        let locks = (0..knobs.locks.min(24)).map(|lock| format!("{}:{:#x}", random.pick(&LOCKS), GLOBALS + 0x1400 + lock * 0x140)).collect();
        let threads = knobs.threads as usize;
        Recorded { functions, locks, blocks: 0, free: Vec::new(), owned: vec![Vec::new(); threads], last: vec![0; threads] }
    }

    /// A turn of one thread.
    pub fn turn(&mut self, knobs: &Knobs, random: &mut Random, put: &mut Put<'_>) -> io::Result<()> {
        let thread = random.below(knobs.threads);
        for _ in 0..random.between(4, 24) {
            self.call(knobs, random, thread, put)?;
        }
        Ok(())
    }

    fn call(&mut self, knobs: &Knobs, random: &mut Random, thread: u64, put: &mut Put<'_>) -> io::Result<()> {
        let number = thread + 1;
        let owner = thread as usize;
        if random.chance(60) {
            // Near the last one: a program stays in a part of its code for a while.
            self.last[owner] = (self.last[owner] + random.below(4) as usize) % self.functions.len();
        } else if random.chance(20) {
            self.last[owner] = random.below(self.functions.len() as u64) as usize;
        }
        match random.below(100) {
            0..=39 => {
                let frame = STACKS - thread * 0x80_0000 - random.below(64) * 128;
                self.fields(random, number, frame, 16, 50, put)
            }
            40..=74 => {
                let block = self.block_of(random, owner, knobs);
                let size = (block % 8 + 1) * BLOCK / 8;
                self.fields(random, number, HEAP + block * BLOCK, size / 8, 40, put)?;
                if random.chance(6) {
                    self.owned[owner].retain(|&other| other != block);
                    self.free.push(block);
                    put(format_args!("t{number} reuse {:#x} {size}", HEAP + block * BLOCK))?;
                }
                Ok(())
            }
            _ => {
                let lock = random.below(self.locks.len() as u64);
                let object = GLOBALS + 0x10_0000 + (lock + self.locks.len() as u64 * random.below(knobs.addresses / 64)) * 128;
                // A lock is forgotten a hundred times as often as in other shapes, because shared objects are rare here.
                let forgotten = random.below(10_000) < knobs.races;
                if !forgotten {
                    put(format_args!("t{number} lock {}", self.locks[lock as usize]))?;
                }
                self.fields(random, number, object, 16, 30, put)?;
                if !forgotten {
                    put(format_args!("t{number} unlock {}", self.locks[lock as usize]))?;
                }
                Ok(())
            }
        }
    }

    /// A block of a thread, which may be new to it.
    fn block_of(&mut self, random: &mut Random, owner: usize, knobs: &Knobs) -> u64 {
        let owned = &mut self.owned[owner];
        if (owned.len() as u64) < knobs.addresses / 64 / knobs.threads && random.chance(10) || owned.is_empty() {
            let block = self.free.pop().unwrap_or_else(|| {
                self.blocks += 1;
                self.blocks - 1
            });
            owned.push(block);
        }
        *random.pick(owned)
    }

    /// A function's way over some of the 8-byte fields of an object.
    fn fields(&self, random: &mut Random, thread: u64, object: u64, fields: u64, writes: u64, put: &mut Put<'_>) -> io::Result<()> {
        let sites = &self.functions[self.last[thread as usize - 1]];
        let mut site = random.below(sites.len() as u64) as usize;
        let mut field = random.below(fields);
        for _ in 0..random.between(3, 12) {
            let verb = if random.chance(writes) { "write" } else { "read" };
            let address = object + field * 8;
            put(format_args!("t{thread} {verb} {address:#x} {}", sites[site]))?;
            if random.chance(70) {
                put(format_args!("t{thread} {verb} {:#x} {}", address + 4, sites[site]))?;
            }
            field = (field + random.below(3)) % fields;
            site = (site + random.below(2) as usize) % sites.len();
        }
        Ok(())
    }
}

fn function(random: &mut Random) -> Function {
    let file = format!("{}/{}", random.pick(&FOLDERS), random.pick(&FILES));
    let start = random.between(10, 900);
    (0..random.between(4, 12)).map(|line| format!("{file}:{}", start + line + random.below(2))).collect()
}
