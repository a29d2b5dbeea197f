//! How deep a piece of work goes into its stack: it runs in a thread whose stack is painted before,
//! and what is no longer painted after was used.

use crate::pages::{Flush, Room, PAGE};
use std::os::raw::{c_int, c_void};

/// The bytes of the painted stack: more than any call may use, and there are pages on either side
/// that may not be touched.
const STACK: usize = 256 * PAGE;

/// What it is painted with.
const PAINT: u8 = 0xa5;

/// More than the system's attributes of a thread take, on any processor.
#[repr(C, align(16))]
struct Attributes([u8; 128]);

extern "C" {
    fn pthread_attr_init(attributes: *mut Attributes) -> c_int;
    fn pthread_attr_setstack(attributes: *mut Attributes, from: *mut u8, bytes: usize) -> c_int;
    fn pthread_create(
        thread: *mut usize,
        attributes: *const Attributes,
        start: extern "C" fn(*mut c_void) -> *mut c_void,
        work: *mut c_void,
    ) -> c_int;
    fn pthread_join(thread: usize, left: *mut *mut c_void) -> c_int;
}

/// Where a thread starts: does the work that it is handed.
extern "C" fn start(work: *mut c_void) -> *mut c_void {
    // SAFETY: it is the work that `depth` lends, which waits for this thread.
    let work = unsafe { &mut *work.cast::<&mut dyn FnMut()>() };
    work();
    std::ptr::null_mut()
}

/// The bytes from a painted stack's beginning to the deepest that a thread with this work, which
/// must not panic, has written.
fn depth(mut work: &mut dyn FnMut()) -> usize {
    let mut room = Room::new(STACK / PAGE);
    let stack = room.lend(&vec![PAINT; STACK], Flush::Front);
    let mut attributes = Attributes([0; 128]);
    let work: *mut &mut dyn FnMut() = &mut work;
    let (mut thread, mut left) = (0, std::ptr::null_mut());
    // SAFETY: the attributes are made before they are used; stack and work outlive the thread,
    // which has ended when it is joined.
    unsafe {
        assert_eq!(pthread_attr_init(&mut attributes), 0);
        let set = pthread_attr_setstack(&mut attributes, stack.as_mut_ptr(), STACK);
        assert_eq!(set, 0, "the stack can be set");
        let started = pthread_create(&mut thread, &attributes, start, work.cast());
        assert_eq!(started, 0, "the thread starts");
        assert_eq!(pthread_join(thread, &mut left), 0);
    }
    let painted = stack.iter().take_while(|byte| **byte == PAINT);
    STACK - painted.count()
}

/// The bytes of stack that this work uses, beside what a thread takes for itself.
pub fn used(work: &mut dyn FnMut()) -> usize {
    depth(work) - depth(&mut || ())
}
