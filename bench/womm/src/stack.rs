//! Stack for the searches.

use std::thread;

/// A search at bound 96 takes about a quarter of a megabyte (`examples/stack` tells); pages that are not touched cost nothing.
const STACK: usize = 16 << 20;

/// Does something on a thread that has stack enough, whatever the caller's has.
pub fn deep<T: Send>(search: impl FnOnce() -> T + Send) -> T {
    thread::scope(|scope| {
        let thread = thread::Builder::new().stack_size(STACK).spawn_scoped(scope, search);
        thread.expect("a thread for the search").join().expect("the library does not panic")
    })
}
