//! How much stack a call takes. It runs in a thread whose stack is filled with a pattern beforehand; what it changed of that,
//! from the top down, is what it took. A thread that calls nothing is taken off.

use std::alloc::{Layout, alloc, dealloc, handle_alloc_error};
use std::ffi::c_void;
use std::hint::black_box;

/// Of a stack that holds every call by far.
const SIZE: usize = 16 << 20;
const PAGE: usize = 4096;
const PATTERN: u64 = 0xa5c3_96e1_5a3c_691e;

/// At least as large as glibc's.
#[repr(C, align(16))]
struct Attributes([u8; 256]);

unsafe extern "C" {
    fn pthread_attr_init(attributes: *mut Attributes) -> i32;
    fn pthread_attr_setstack(attributes: *mut Attributes, start: *mut c_void, size: usize) -> i32;
    fn pthread_attr_destroy(attributes: *mut Attributes) -> i32;
    fn pthread_create(
        thread: *mut usize,
        attributes: *const Attributes,
        run: extern "C" fn(*mut c_void) -> *mut c_void,
        argument: *mut c_void,
    ) -> i32;
    fn pthread_join(thread: usize, value: *mut *mut c_void) -> i32;
}

type Call<'a> = &'a mut (dyn FnMut() + Send);

extern "C" fn run(argument: *mut c_void) -> *mut c_void {
    // SAFETY: the argument is a call that outlives the thread, and nobody else uses it meanwhile.
    let call = unsafe { &mut *argument.cast::<Call>() };
    call();
    std::ptr::null_mut()
}

/// Memory for a stack.
struct Stack(*mut u64);

const LAYOUT: Layout = match Layout::from_size_align(SIZE, PAGE) {
    Ok(layout) => layout,
    Err(_) => unreachable!(),
};

impl Stack {
    fn filled() -> Self {
        // SAFETY: the size is not 0.
        let start = unsafe { alloc(LAYOUT) }.cast::<u64>();
        if start.is_null() {
            handle_alloc_error(LAYOUT);
        }
        for k in 0..SIZE / 8 {
            // SAFETY: within the allocation.
            unsafe { start.add(k).write_volatile(PATTERN) };
        }
        Self(start)
    }

    /// The bytes from the lowest one that is changed to the top.
    fn changed(&self) -> usize {
        // SAFETY: within the allocation; every cell was written, and the thread has ended.
        let kept = (0..SIZE / 8).take_while(|k| unsafe { self.0.add(*k).read_volatile() } == PATTERN).count();
        SIZE - 8 * kept
    }
}

impl Drop for Stack {
    fn drop(&mut self) {
        // SAFETY: it was allocated so.
        unsafe { dealloc(self.0.cast(), LAYOUT) };
    }
}

fn with_thread(mut call: Call) -> usize {
    let stack = Stack::filled();
    let (mut attributes, mut thread) = (Attributes([0; 256]), 0);
    // SAFETY: the attributes have room enough, the stack is there until the thread has ended, and so is the call.
    let status = unsafe {
        let mut status = pthread_attr_init(&raw mut attributes);
        status |= pthread_attr_setstack(&raw mut attributes, stack.0.cast(), SIZE);
        status |= pthread_create(&raw mut thread, &raw const attributes, run, (&raw mut call).cast());
        status |= if status == 0 { pthread_join(thread, std::ptr::null_mut()) } else { 0 };
        status | pthread_attr_destroy(&raw mut attributes)
    };
    assert_eq!(status, 0, "no thread with a stack of its own");
    stack.changed()
}

/// The bytes of stack that the call takes.
pub fn used(call: &mut (dyn FnMut() + Send)) -> usize {
    let nothing = with_thread(&mut || _ = black_box(0));
    with_thread(call) - nothing
}
