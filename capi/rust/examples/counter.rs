//! An interpreter runs the threads of a script, which has two variables and a lock.

use eraser_sys::{eraser_locked, eraser_start, eraser_stop, eraser_unlocking, eraser_write, EraserDetector, EraserOptions, EraserRace};
use std::ffi::c_void;
use std::ptr::{addr_of, null_mut};
use std::sync::atomic::{AtomicPtr, AtomicU32, Ordering};
use std::sync::Mutex;
use std::thread;

static GUARDED: AtomicU32 = AtomicU32::new(0);
static BARE: AtomicU32 = AtomicU32::new(0);
static LOCK: Mutex<()> = Mutex::new(());
static DETECTOR: AtomicPtr<EraserDetector> = AtomicPtr::new(null_mut());

/// Adds one to a variable of the script: what the script's own code would do without an atomic operation.
fn add(variable: &'static AtomicU32) {
    unsafe { eraser_write(DETECTOR.load(Ordering::Acquire), addr_of!(*variable).cast(), 4) };
    variable.fetch_add(1, Ordering::Relaxed);
}

fn script() {
    let detector = DETECTOR.load(Ordering::Acquire);
    let lock: *const c_void = addr_of!(LOCK).cast();
    {
        let _guard = LOCK.lock().unwrap();
        unsafe { eraser_locked(detector, lock, true) };
        add(&GUARDED);
        unsafe { eraser_unlocking(detector, lock) };
    }
    add(&BARE);
}

unsafe extern "C" fn tell(_: *mut c_void, race: *const EraserRace) {
    let race = &*race;
    let name = if race.word == addr_of!(BARE).cast() { "BARE" } else { "GUARDED" };
    println!("race on {name}: thread {} after thread {}, holding {} locks", race.thread, race.other, race.lock_count);
}

fn main() {
    let options = EraserOptions { shards: 0, max_sets: 0, on_race: Some(tell), context: null_mut(), audit: false };
    let detector = unsafe { eraser_start(&options) };
    assert!(!detector.is_null());
    DETECTOR.store(detector, Ordering::Release);
    for _ in 0..2 {
        thread::spawn(script).join().unwrap();
    }
    unsafe { eraser_stop(detector) };
}
