//! Threads of the C library, since ThreadSanitizer reports races of std's threads, which aren't
//! compiled for it.
use std::ffi::c_void;

pub type Job<'a> = Box<dyn FnOnce() + Send + 'a>;

unsafe extern "C" {
    fn pthread_create(
        thread: *mut usize,
        options: *const c_void,
        start: extern "C" fn(*mut c_void) -> *mut c_void,
        with: *mut c_void,
    ) -> i32;
    fn pthread_join(thread: usize, result: *mut *mut c_void) -> i32;
}

extern "C" fn start(job: *mut c_void) -> *mut c_void {
    // SAFETY: `begin` made it of such a box.
    let job = unsafe { Box::from_raw(job.cast::<Job<'static>>()) };
    job();
    std::ptr::null_mut()
}

/// Starts a thread.
///
/// # Safety
/// The thread is joined while what the job borrows is there.
pub unsafe fn begin(job: Job<'_>) -> usize {
    let mut thread = 0;
    let job = Box::into_raw(Box::new(job)).cast();
    // SAFETY: as `start` asks.
    let status = unsafe { pthread_create(&mut thread, std::ptr::null(), start, job) };
    assert_eq!(status, 0);
    thread
}

/// Waits for the end of a thread.
pub fn join(thread: usize) {
    // SAFETY: each thread is joined once.
    assert_eq!(unsafe { pthread_join(thread, std::ptr::null_mut()) }, 0);
}

/// Runs jobs, each on a thread of its own, until all have ended.
pub fn together(jobs: Vec<Job<'_>>) {
    // SAFETY: the threads end before this call does.
    let threads: Vec<usize> = jobs.into_iter().map(|job| unsafe { begin(job) }).collect();
    threads.into_iter().for_each(join);
}
