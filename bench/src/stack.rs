//! The stack that a call uses: the call runs on a stack that is painted before,
//! and the lowest byte changed tells the depth.

use std::ffi::c_void;
use std::os::raw::c_int;

/// Bytes of the painted stack.
const SIZE: usize = 4 << 20;
const PAINT: u8 = 0xA5;

/// `pthread_attr_t` of glibc on x86-64.
#[repr(C, align(8))]
struct Attributes([u8; 56]);

extern "C" {
    fn pthread_attr_init(attributes: *mut Attributes) -> c_int;
    fn pthread_attr_setstack(attributes: *mut Attributes, low: *mut c_void, size: usize) -> c_int;
    fn pthread_create(
        thread: *mut u64,
        attributes: *const Attributes,
        start: extern "C" fn(*mut c_void) -> *mut c_void,
        argument: *mut c_void,
    ) -> c_int;
    fn pthread_join(thread: u64, result: *mut *mut c_void) -> c_int;
}

extern "C" fn start(argument: *mut c_void) -> *mut c_void {
    // Safe: `depth` passes a pointer to its own `&mut dyn FnMut`, and waits.
    let work = unsafe { &mut *(argument as *mut &mut dyn FnMut()) };
    work();
    std::ptr::null_mut()
}

/// The bytes of stack below its top that the work changes.
fn depth(work: &mut dyn FnMut()) -> usize {
    let mut stack = vec![[PAINT; 4096]; SIZE / 4096];
    let low = stack.as_mut_ptr() as *mut c_void;
    let mut work = work;
    let argument = &mut work as *mut &mut dyn FnMut() as *mut c_void;
    let mut attributes = Attributes([0; 56]);
    let mut thread = 0;
    // Safe: the stack and the argument outlive the thread, which is joined.
    let codes = unsafe {
        [
            pthread_attr_init(&mut attributes),
            pthread_attr_setstack(&mut attributes, low, SIZE),
            pthread_create(&mut thread, &attributes, start, argument),
            pthread_join(thread, std::ptr::null_mut()),
        ]
    };
    assert_eq!(codes, [0; 4], "a thread on a stack of its own");
    let changed = stack.as_flattened().iter().position(|&byte| byte != PAINT);
    SIZE - changed.expect("a thread writes to its stack")
}

/// The bytes that the work uses beyond a work that does nothing.
pub fn used(mut work: impl FnMut()) -> usize {
    depth(&mut work).saturating_sub(depth(&mut || ()))
}
