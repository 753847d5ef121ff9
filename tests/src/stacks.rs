//! Calls on small stacks, and how much of a stack a call writes on.

use std::ffi::c_void;
use std::thread::Builder;

const PAINT: u8 = 0x5A;
const PAINTED: usize = 1 << 20;

/// Room for the attributes of a thread, whatever the C library keeps in them.
#[repr(C, align(16))]
struct Attributes([u8; 256]);

extern "C" {
    fn pthread_attr_init(attributes: *mut Attributes) -> i32;
    fn pthread_attr_setstack(attributes: *mut Attributes, lowest: *mut c_void, size: usize) -> i32;
    fn pthread_attr_destroy(attributes: *mut Attributes) -> i32;
    fn pthread_create(
        thread: *mut usize,
        attributes: *const Attributes,
        run: extern "C" fn(*mut c_void) -> *mut c_void,
        with: *mut c_void,
    ) -> i32;
    fn pthread_join(thread: usize, answer: *mut *mut c_void) -> i32;
}

/// A call, and the address from which it goes down the stack.
struct Probe<'a> {
    call: &'a mut dyn FnMut(),
    from: usize,
}

extern "C" fn go(with: *mut c_void) -> *mut c_void {
    // SAFETY: `stack_of` hands in a probe that nobody else uses before it has joined this thread
    let probe = unsafe { &mut *(with as *mut Probe) };
    let here = 0u8;
    probe.from = &here as *const u8 as usize;
    (probe.call)();
    with
}

/// How far down the stack the call writes, in bytes, or the end of its thread where that writes further.
pub fn stack_of(call: &mut dyn FnMut()) -> usize {
    let mut stack = vec![PAINT; PAINTED];
    let mut attributes = Attributes([0; 256]);
    let mut thread = 0;
    let mut answer = std::ptr::null_mut();
    let mut probe = Probe { call, from: 0 };
    let with = &mut probe as *mut Probe as *mut c_void;
    // SAFETY: stack and probe outlive the thread, which is joined here, and nobody else touches them before
    unsafe {
        assert_eq!(pthread_attr_init(&mut attributes), 0);
        assert_eq!(pthread_attr_setstack(&mut attributes, stack.as_mut_ptr() as *mut c_void, PAINTED), 0);
        assert_eq!(pthread_create(&mut thread, &attributes, go, with), 0);
        assert_eq!(pthread_join(thread, &mut answer), 0);
        assert_eq!(pthread_attr_destroy(&mut attributes), 0);
    }
    assert_eq!(answer, with);
    let lowest = stack.iter().position(|&byte| byte != PAINT).expect("a thread writes on its stack");
    assert!(lowest > 0, "more than the whole stack is written on");
    probe.from - (stack.as_ptr() as usize + lowest)
}

/// Makes the call on a thread with a stack of so many bytes.
pub fn on_a_stack_of<T: Send>(bytes: usize, call: &mut (dyn FnMut() -> T + Send)) -> T {
    std::thread::scope(|scope| {
        let thread = Builder::new().stack_size(bytes).spawn_scoped(scope, call).expect("a thread");
        thread.join().expect("the call's end")
    })
}
