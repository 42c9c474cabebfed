//! How much stack a batch needs: it runs in a thread whose stack was filled with a pattern, and the
//! lowest byte that changed tells. A thread that is merely small wouldn't do, for a frame larger
//! than the guard page can pass over it.

use crate::loads::loads;
use crate::versions::Batch;
use std::alloc::{alloc, dealloc, handle_alloc_error, Layout};
use std::ffi::{c_int, c_void};
use std::ptr;

const STACK_BYTES: usize = 8 << 20;
const PAGE: usize = 4096;
const PATTERN: u8 = 0xa5;

/// Larger than any system's pthread_attr_t.
#[repr(C, align(16))]
struct Attributes([u64; 32]);

type Start = extern "C" fn(*mut c_void) -> *mut c_void;

extern "C" {
    fn pthread_attr_init(attributes: *mut Attributes) -> c_int;
    fn pthread_attr_setstack(attributes: *mut Attributes, low: *mut c_void, size: usize) -> c_int;
    fn pthread_attr_destroy(attributes: *mut Attributes) -> c_int;
    fn pthread_create(
        thread: *mut usize,
        attributes: *const Attributes,
        start: Start,
        given: *mut c_void,
    ) -> c_int;
    fn pthread_join(thread: usize, result: *mut *mut c_void) -> c_int;
}

extern "C" fn start(given: *mut c_void) -> *mut c_void {
    // SAFETY: `run_on` hands over its own reference and waits for the thread to end.
    let work = unsafe { &mut *given.cast::<&mut dyn FnMut()>() };
    work();
    ptr::null_mut()
}

/// Runs the work in a thread on this stack; true if it ran.
fn run_on(low: *mut u8, mut work: &mut dyn FnMut()) -> bool {
    let mut attributes = Attributes([0; 32]);
    let mut thread = 0;
    // SAFETY: the attributes are large enough, the stack is STACK_BYTES long and nobody else's, and
    // the work outlives the thread, which is joined here.
    unsafe {
        if pthread_attr_init(&mut attributes) != 0 {
            return false;
        }
        let given = ptr::addr_of_mut!(work).cast();
        let ran = pthread_attr_setstack(&mut attributes, low.cast(), STACK_BYTES) == 0
            && pthread_create(&mut thread, &attributes, start, given) == 0
            && pthread_join(thread, ptr::null_mut()) == 0;
        pthread_attr_destroy(&mut attributes);
        ran
    }
}

/// Bytes from the top of the stack to the lowest that the work wrote.
fn depth(work: &mut dyn FnMut()) -> Option<usize> {
    let layout = Layout::from_size_align(STACK_BYTES, PAGE).ok()?;
    // SAFETY: the layout isn't empty; the block is filled before it is read and freed once.
    unsafe {
        let low = alloc(layout);
        if low.is_null() {
            handle_alloc_error(layout);
        }
        ptr::write_bytes(low, PATTERN, STACK_BYTES);
        let ran = run_on(low, work);
        let untouched = (0..STACK_BYTES)
            .take_while(|&at| ptr::read_volatile(low.add(at)) == PATTERN)
            .count();
        dealloc(low, layout);
        ran.then_some(STACK_BYTES - untouched)
    }
}

/// The peak stack in bytes of a batch over all loads, without what the thread itself takes.
pub fn peak(batch: Batch) -> Option<usize> {
    let mut inputs: Vec<(Vec<u8>, Vec<u8>, Vec<u8>)> = loads(1)
        .into_iter()
        .map(|load| (load.text(load.lines.len()), load.table, vec![0; 40_000]))
        .collect();
    let thread = depth(&mut || {})?;
    let whole = depth(&mut || {
        for (orders, table, area) in &mut inputs {
            batch(table, orders, area);
        }
    })?;
    Some(whole.saturating_sub(thread))
}
