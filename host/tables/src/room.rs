//! Room on the stack: values and selections may be thousands of rows deep.

use std::thread;

const STACK_BYTES: usize = 256 << 20;

/// Does something with a stack that is large enough for the deepest rows.
pub fn with_room<T: Send>(work: impl FnOnce() -> T + Send) -> T {
    thread::scope(|scope| {
        let builder = thread::Builder::new().stack_size(STACK_BYTES);
        let thread = builder.spawn_scoped(scope, work).expect("a thread can be had");
        thread.join().unwrap_or_else(|panic| std::panic::resume_unwind(panic))
    })
}
