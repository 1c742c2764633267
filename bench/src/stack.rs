//! The real stack of a call: it runs on a thread whose stack is filled with one byte before, and the lowest byte that
//! changed is sought after.
use std::alloc::{alloc, dealloc, Layout};
use std::ffi::c_void;

const SIZE: usize = 16 << 20;
const PAINT: u8 = 0xA5;

// pthread_attr_t has 56 bytes on x86-64 Linux.
#[repr(C, align(16))]
struct Attributes([u8; 64]);

extern "C" {
    fn pthread_attr_init(a: *mut Attributes) -> i32;
    fn pthread_attr_setstack(a: *mut Attributes, low: *mut c_void, size: usize) -> i32;
    fn pthread_create(t: *mut usize, a: *const Attributes, f: extern "C" fn(*mut c_void) -> *mut c_void, x: *mut c_void) -> i32;
    fn pthread_join(t: usize, r: *mut *mut c_void) -> i32;
}

struct Task<'a> {
    call: &'a mut (dyn FnMut() + Send),
    from: usize,
}

extern "C" fn start(task: *mut c_void) -> *mut c_void {
    let task = unsafe { &mut *(task as *mut Task) };
    let here = 0u8;
    task.from = std::hint::black_box(&here) as *const u8 as usize;
    (task.call)();
    std::ptr::null_mut()
}

/// Bytes of stack below the frame that makes the call.
pub fn used(call: &mut (dyn FnMut() + Send)) -> usize {
    let layout = Layout::from_size_align(SIZE, 4096).unwrap();
    let mut task = Task { call, from: 0 };
    unsafe {
        let low = alloc(layout);
        low.write_bytes(PAINT, SIZE);
        let mut attributes = Attributes([0; 64]);
        let mut thread = 0;
        assert_eq!(pthread_attr_init(&mut attributes), 0);
        assert_eq!(pthread_attr_setstack(&mut attributes, low.cast(), SIZE), 0);
        assert_eq!(pthread_create(&mut thread, &attributes, start, (&raw mut task).cast()), 0);
        assert_eq!(pthread_join(thread, std::ptr::null_mut()), 0);
        let untouched = (0..SIZE).take_while(|i| *low.add(*i) == PAINT).count();
        let used = task.from - (low as usize + untouched);
        dealloc(low, layout);
        used
    }
}
