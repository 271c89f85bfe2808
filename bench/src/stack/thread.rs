//! A thread on memory of our own.

use std::ffi::{c_int, c_ulong, c_void};
use std::ptr;

const PAGE: usize = 4096;
const PAGES: usize = 64;
const PATTERN: u8 = 0xA5;

#[derive(Clone)]
#[repr(align(4096))]
struct Page([u8; PAGE]);

/// A call, and an address in the frame that makes it.
struct Task<'c> {
    call: &'c mut dyn FnMut(),
    frame: usize,
}

/// How far below the frame that makes the call the stack was written to. A call that asks for more
/// than the memory ends the program.
pub fn stack_used(call: &mut dyn FnMut()) -> usize {
    let mut memory = vec![Page([PATTERN; PAGE]); PAGES];
    let mut task = Task { call, frame: 0 };
    run_on(&mut memory, &mut task);
    let bytes = memory.iter().flat_map(|page| page.0);
    let untouched = bytes.take_while(|&byte| byte == PATTERN).count();
    assert!(untouched > PAGE, "the stack is too small");
    task.frame - (memory.as_ptr() as usize + untouched)
}

/// As large as the system's own, which has 56 bytes.
#[repr(C, align(8))]
struct Attributes([u8; 64]);

extern "C" {
    fn pthread_attr_init(attributes: *mut Attributes) -> c_int;
    fn pthread_attr_setstack(
        attributes: *mut Attributes,
        memory: *mut c_void,
        size: usize,
    ) -> c_int;
    fn pthread_create(
        thread: *mut c_ulong,
        attributes: *const Attributes,
        begin: extern "C" fn(*mut c_void) -> *mut c_void,
        argument: *mut c_void,
    ) -> c_int;
    fn pthread_join(thread: c_ulong, result: *mut *mut c_void) -> c_int;
}

extern "C" fn begin(task: *mut c_void) -> *mut c_void {
    // SAFETY: `run_on` passes a task, which it lends until this thread has ended.
    let task = unsafe { &mut *task.cast::<Task>() };
    let local = 0u8;
    task.frame = ptr::from_ref(&local) as usize;
    (task.call)();
    ptr::null_mut()
}

/// Makes the call on a thread with this memory as its stack, and waits for its end.
fn run_on(memory: &mut [Page], task: &mut Task) {
    let mut attributes = Attributes([0; 64]);
    let mut thread = 0;
    let argument = ptr::from_mut(task).cast();
    // SAFETY: the attributes are large enough, and the memory and the task are lent until the thread
    // has ended. The thread works alone meanwhile.
    unsafe {
        assert_eq!(pthread_attr_init(&mut attributes), 0);
        let (start, size) = (memory.as_mut_ptr().cast(), size_of_val(memory));
        assert_eq!(pthread_attr_setstack(&mut attributes, start, size), 0);
        assert_eq!(pthread_create(&mut thread, &attributes, begin, argument), 0);
        assert_eq!(pthread_join(thread, ptr::null_mut()), 0);
    }
}
