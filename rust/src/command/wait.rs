//! Waiting for work that may take long.
use std::panic::resume_unwind;
use std::sync::mpsc::{RecvTimeoutError, channel};
use std::thread;
use std::time::Duration;

/// Does the work on a thread with so many bytes of stack, and gives notice once, from the caller's, if it isn't done after the time given.
pub fn with_notice<T: Send>(stack: usize, work: impl FnOnce() -> T + Send, after: Duration, notice: impl FnOnce()) -> T {
    thread::scope(|scope| {
        let (done, waiting) = channel();
        let worker = thread::Builder::new().stack_size(stack).spawn_scoped(scope, move || {
            let result = work();
            // Nobody waits any more where notice was given.
            let _ = done.send(());
            result
        });
        let worker = worker.expect("the system starts a thread");
        if waiting.recv_timeout(after) == Err(RecvTimeoutError::Timeout) {
            notice();
        }
        worker.join().unwrap_or_else(|panic| resume_unwind(panic))
    })
}

#[cfg(test)]
mod tests {
    use super::*;

    const STACK: usize = 64 << 10;

    #[test]
    fn notice_is_given_where_the_work_is_long() {
        let mut noticed = false;
        let long = || thread::sleep(Duration::from_millis(50));
        with_notice(STACK, long, Duration::from_millis(1), || noticed = true);
        assert!(noticed);
    }

    #[test]
    fn short_work_is_done_without() {
        assert_eq!(with_notice(STACK, || 7, Duration::from_secs(60), || panic!("no notice is due")), 7);
    }
}
