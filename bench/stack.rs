// How far a call goes down the stack: the stack below is painted before the call, and looked at after it.
use std::hint::black_box;
use std::ptr::{read_volatile, write_volatile};
use std::thread;

const PAINT: u64 = 0xA5C3_96E1_5A3C_691E;
const PAINTED: usize = 1 << 18; // words, 2 MB

// The bytes of stack that a call writes to, beyond those of a call that does nothing.
pub fn bytes<T>(call: impl Fn() -> T + Sync) -> usize {
    reached(call).saturating_sub(reached(|| ()))
}

fn reached<T>(call: impl Fn() -> T + Sync) -> usize {
    thread::scope(|scope| {
        let builder = thread::Builder::new().stack_size(4 << 20);
        let run = builder.spawn_scoped(scope, || {
            let top = paint();
            black_box(call());
            deepest(top)
        });
        run.expect("a thread").join().expect("the call returns")
    })
}

#[inline(never)]
fn paint() -> usize {
    let here = 0u64;
    let top = &raw const here as usize - 256;
    for i in 1..=PAINTED {
        unsafe { write_volatile((top - 8 * i) as *mut u64, PAINT) };
    }
    top
}

#[inline(never)]
fn deepest(top: usize) -> usize {
    let painted = |i: &usize| unsafe { read_volatile((top - 8 * i) as *const u64) == PAINT };
    8 * (1..=PAINTED).rev().find(|i| !painted(i)).unwrap_or(0)
}
