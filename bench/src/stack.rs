//! The stack that a call takes: a thread runs on memory of ours that was painted before, and afterwards the paint is looked for.

use std::ffi::{c_int, c_void};

const SIZE: usize = 1 << 20;
const PAINT: u8 = 0x5A;

/// Glibc's pthread_attr_t has 56 bytes on x86-64.
type Attributes = [u64; 8];

extern "C" {
    fn pthread_attr_init(attributes: *mut Attributes) -> c_int;
    fn pthread_attr_setstack(attributes: *mut Attributes, lowest: *mut c_void, size: usize) -> c_int;
    fn pthread_create(
        thread: *mut usize,
        attributes: *const Attributes,
        run: extern "C" fn(*mut c_void) -> *mut c_void,
        argument: *mut c_void,
    ) -> c_int;
    fn pthread_join(thread: usize, result: *mut *mut c_void) -> c_int;
}

extern "C" fn run(argument: *mut c_void) -> *mut c_void {
    // SAFETY: `depth` passes a pointer to its closure, and waits for the end of the thread.
    let call = unsafe { &mut *(argument as *mut &mut dyn FnMut()) };
    call();
    std::ptr::null_mut()
}

/// How far down from its start the stack was written, the thread's own part included.
fn depth(mut call: &mut dyn FnMut()) -> usize {
    let mut memory = vec![PAINT; SIZE + 4096];
    let offset = memory.as_ptr().align_offset(4096);
    let lowest = memory[offset..].as_mut_ptr();
    let (mut attributes, mut thread): (Attributes, usize) = ([0; 8], 0);
    // SAFETY: the memory outlives the thread, which is joined before it is looked at.
    unsafe {
        assert_eq!(pthread_attr_init(&mut attributes), 0);
        assert_eq!(pthread_attr_setstack(&mut attributes, lowest.cast(), SIZE), 0);
        let argument = (&raw mut call).cast();
        assert_eq!(pthread_create(&mut thread, &attributes, run, argument), 0);
        assert_eq!(pthread_join(thread, std::ptr::null_mut()), 0);
    }
    let stack = &memory[offset..offset + SIZE];
    SIZE - stack.iter().position(|&byte| byte != PAINT).unwrap_or(SIZE)
}

/// The stack bytes of a call, beyond those of a thread that does nothing.
pub fn bytes(call: &mut dyn FnMut()) -> usize {
    depth(call) - depth(&mut || {})
}
