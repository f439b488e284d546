//! A reference for document 01 and request P1, written from their text alone.
//! Every sheet is built as a tree and walked.

pub mod eval;
pub mod examples;
pub mod files;
pub mod gate;
pub mod gen;
pub mod listing;
pub mod order;
pub mod requests;
pub mod runs;
pub mod sheet;
pub mod text;

/// Runs a job on a stack that is large enough for any sheet.
pub fn with_big_stack<T: Send + 'static>(job: impl FnOnce() -> T + Send + 'static) -> T {
    let thread = std::thread::Builder::new()
        .stack_size(256 * 1024 * 1024)
        .spawn(job)
        .expect("a thread can be started");
    match thread.join() {
        Ok(value) => value,
        Err(cause) => std::panic::resume_unwind(cause),
    }
}
