//! Runs one command and measures it. Its memory is small, which matters: the system counts the memory of a child from that of its parent.
//!
//! measure OUTPUT COMMAND ..        the command's standard output goes to the file OUTPUT
//! measure --first COMMAND ..       its standard output is read to its end
//!
//! It prints one line of numbers: nanoseconds from the start of the command to its end, or with `--first` to the first byte that it wrote; nanoseconds of
//! processor time; the greatest resident memory in bytes; the exit status, or -1 after a signal.

use std::ffi::{c_int, c_long, OsString};
use std::fs::File;
use std::io::{self, Read};
use std::process::{Command, Stdio};
use std::time::Instant;

#[repr(C)]
#[derive(Default)]
struct Usage {
    /// Seconds and microseconds in the program, and then in the system.
    times: [c_long; 4],
    /// In kilobytes.
    greatest_resident: c_long,
    others: [c_long; 13],
}

const CHILDREN: c_int = -1;

extern "C" {
    fn getrusage(who: c_int, usage: *mut Usage) -> c_int;
}

/// Nanoseconds of processor time, and the greatest resident memory in bytes, of all children that have ended. There is only one here.
fn used() -> (i64, i64) {
    let mut usage = Usage::default();
    // Sound: `Usage` is laid out as the system's `struct rusage` on 64-bit Linux.
    let answer = unsafe { getrusage(CHILDREN, &mut usage) };
    assert_eq!(answer, 0, "getrusage");
    let [seconds, micros, system_seconds, system_micros] = usage.times;
    let nanoseconds = (seconds + system_seconds) * 1_000_000_000 + (micros + system_micros) * 1000;
    (nanoseconds, usage.greatest_resident * 1024)
}

fn main() -> io::Result<()> {
    let mut words = std::env::args_os().skip(1);
    let (Some(output), Some(program)) = (words.next(), words.next()) else {
        eprintln!("usage: measure OUTPUT|--first COMMAND ..");
        std::process::exit(2);
    };
    let first = output == OsString::from("--first");
    let mut command = Command::new(program);
    command.args(words);
    command.stdout(if first { Stdio::piped() } else { File::create(output)?.into() });
    let start = Instant::now();
    let mut child = command.spawn()?;
    let mut wall = start.elapsed();
    if let Some(pipe) = &mut child.stdout {
        let mut bytes = [0; 4096];
        let mut got = pipe.read(&mut bytes)?;
        wall = start.elapsed();
        while got > 0 {
            got = pipe.read(&mut bytes)?;
        }
    }
    let status = child.wait()?;
    if !first {
        wall = start.elapsed();
    }
    let (processor_time, memory) = used();
    println!("{} {processor_time} {memory} {}", wall.as_nanos(), status.code().unwrap_or(-1));
    Ok(())
}
