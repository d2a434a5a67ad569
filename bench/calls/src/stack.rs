//! How much stack a call uses: the free stack of a thread is painted, and what the call left of the paint is measured.

use std::ptr;
use std::thread;

const STACK: usize = 16 << 20;
/// What is painted; the thread itself uses far less than the rest.
const PAINTED: usize = 12 << 20;
/// The painting function's own frame stays.
const OWN: usize = 4096;
const PAINT: u8 = 0x5a;

/// Runs the call on a painted stack: the bytes of it that the call used, to within a few hundred.
#[inline(never)]
pub fn used(call: &mut dyn FnMut()) -> usize {
    let mark = 0u8;
    let top = ptr::addr_of!(mark) as usize - OWN;
    // These bytes lie below this frame, in the thread's own stack, and nothing is held in them.
    for place in top - PAINTED..top {
        unsafe { ptr::write_volatile(place as *mut u8, PAINT) };
    }
    call();
    let changed = |place: &usize| unsafe { ptr::read_volatile(*place as *const u8) } != PAINT;
    let lowest = (top - PAINTED..top).find(changed);
    lowest.map_or(0, |place| top + OWN - place)
}

/// Runs the work on a thread whose stack is large enough to be painted.
pub fn on_thread(work: impl FnOnce() -> usize + Send) -> usize {
    thread::scope(|scope| {
        let thread = thread::Builder::new().stack_size(STACK).spawn_scoped(scope, work);
        thread.expect("a thread").join().expect("a call that returns")
    })
}
