//! How much stack a call uses: it is made on a painted stack of its own, and the paint that is left is looked at.

use std::ffi::{c_int, c_void};
use std::hint::black_box;
use std::ptr::null_mut;

const OCTETS: usize = 256 * 1024;

/// At least as large as the pthread_attr_t of any Linux.
#[repr(C)]
struct Attributes([u64; 16]);

extern "C" {
    fn pthread_attr_init(attributes: *mut Attributes) -> c_int;
    fn pthread_attr_setstack(attributes: *mut Attributes, lowest: *mut c_void, size: usize) -> c_int;
    fn pthread_attr_destroy(attributes: *mut Attributes) -> c_int;
    fn pthread_create(
        thread: *mut usize,
        attributes: *const Attributes,
        start: extern "C" fn(*mut c_void) -> *mut c_void,
        argument: *mut c_void,
    ) -> c_int;
    fn pthread_join(thread: usize, result: *mut *mut c_void) -> c_int;
}

struct Task<'a> {
    call: &'a mut dyn FnMut(),
    /// An address in the frame that makes the call.
    top: usize,
}

extern "C" fn begin(task: *mut c_void) -> *mut c_void {
    // The task outlives the thread, which `depth` joins, and nothing else uses it meanwhile.
    let task = unsafe { &mut *task.cast::<Task>() };
    let here = 0u8;
    task.top = std::ptr::from_ref(black_box(&here)).addr();
    (task.call)();
    null_mut()
}

/// The distance from the calling frame to the deepest octet that a call has written.
fn depth(call: &mut dyn FnMut(), paint: u8) -> Option<usize> {
    let mut stack = vec![u128::from_ne_bytes([paint; 16]); OCTETS / 16];
    let lowest = stack.as_mut_ptr();
    let mut task = Task { call, top: 0 };
    let argument = std::ptr::from_mut(&mut task).cast::<c_void>();
    let mut attributes = Attributes([0; 16]);
    let mut thread = 0;
    // The stack and the task are borrowed by the thread alone until it has been joined.
    let made = unsafe {
        let made = pthread_attr_init(&mut attributes) == 0
            && pthread_attr_setstack(&mut attributes, lowest.cast(), OCTETS) == 0
            && pthread_create(&mut thread, &attributes, begin, argument) == 0;
        made && pthread_join(thread, null_mut()) == 0 && pthread_attr_destroy(&mut attributes) == 0
    };
    let untouched = stack.iter().take_while(|word| **word == u128::from_ne_bytes([paint; 16])).count() * 16;
    made.then(|| task.top - lowest.addr() - untouched)
}

/// Octets of stack that a call uses, to the next 16, with the frame that makes it. Two paints are tried, as a call may
/// write octets that look like one of them.
pub fn used(mut call: impl FnMut()) -> Option<usize> {
    let deepest = |call: &mut dyn FnMut()| Some(depth(call, 0xA5)?.max(depth(call, 0x5A)?));
    let nothing = deepest(&mut || {})?;
    Some(deepest(&mut call)?.saturating_sub(nothing))
}
