//! A reserve for the time when the system is out of memory.
use std::alloc::{GlobalAlloc, Layout, System};
use std::ptr::null_mut;
use std::sync::atomic::{AtomicBool, AtomicPtr, Ordering};
use std::time::Duration;

/// The length of the reserve, in bytes. Its pages take no memory before they are used.
const RESERVE_LEN: usize = 32 << 20;

/// The longest block for which the reserve is released, in bytes. Callers that allocate a longer one handle a failure.
const SMALL_LEN: usize = 256 << 10;

/// The number of retries for a small block, and the pause before each.
const RETRIES: (usize, Duration) = (400, Duration::from_millis(5));

/// The minimum time for which requests fail after the system was out of memory.
const SHORT_TIME: Duration = Duration::from_secs(1);

/// The reserve, or null while it is released.
static RESERVE: AtomicPtr<libc::c_void> = AtomicPtr::new(null_mut());

/// Whether the system was out of memory a short time ago.
static IS_SHORT: AtomicBool = AtomicBool::new(false);

/// Returns whether requests have to end because the system is out of memory.
pub(crate) fn is_short() -> bool {
    IS_SHORT.load(Ordering::Relaxed)
}

/// Maps the reserve, and maps it again whenever it was released. Requests are served again after it is mapped, or after the
/// allocator has the same number of free bytes.
pub(crate) async fn keep_reserve() {
    loop {
        if is_short() {
            tracing::error!("out of memory: requests with content fail for now");
            while is_short() {
                tokio::time::sleep(SHORT_TIME).await;
                put_reserve_aside();
                if !RESERVE.load(Ordering::Relaxed).is_null() || free_bytes() >= RESERVE_LEN {
                    IS_SHORT.store(false, Ordering::Relaxed);
                }
            }
        }
        put_reserve_aside();
        tokio::time::sleep(SHORT_TIME / 10).await;
    }
}

/// Lets all threads share one heap of the allocator. Of pieces that many threads read and free, heaps of their own would keep as many as each had
/// at once.
pub(crate) fn share_heap() {
    // SAFETY: the call takes no pointer.
    unsafe { libc::mallopt(libc::M_ARENA_MAX, 1) };
}

/// Returns the number of free bytes in the allocator.
fn free_bytes() -> usize {
    // SAFETY: the calls take no pointer.
    unsafe {
        libc::malloc_trim(0);
        libc::mallinfo2().fordblks
    }
}

/// Maps the reserve unless it is mapped.
fn put_reserve_aside() {
    if !RESERVE.load(Ordering::Relaxed).is_null() {
        return;
    }
    let (access, kind) = (libc::PROT_READ | libc::PROT_WRITE, libc::MAP_PRIVATE | libc::MAP_ANONYMOUS);
    // SAFETY: the call makes a new mapping at an address of the system's choice.
    let reserve = unsafe { libc::mmap(null_mut(), RESERVE_LEN, access, kind, -1, 0) };
    if reserve != libc::MAP_FAILED {
        RESERVE.store(reserve, Ordering::Relaxed);
    }
}

/// The system's allocator with retries. If a small block is not available, it signals requests to end, releases the reserve,
/// and asks again while they end. A long block fails at once.
pub(crate) struct Reserving;

/// Retries the allocation of a small block.
fn ask_again(size: usize, ask: impl Fn() -> *mut u8) -> *mut u8 {
    if size > SMALL_LEN {
        return null_mut();
    }
    IS_SHORT.store(true, Ordering::Relaxed);
    let reserve = RESERVE.swap(null_mut(), Ordering::Relaxed);
    if !reserve.is_null() {
        // SAFETY: the mapping is ours, and after the swap no other thread has its address.
        unsafe { libc::munmap(reserve, RESERVE_LEN) };
    }
    for _ in 0..RETRIES.0 {
        let block = ask();
        if !block.is_null() {
            return block;
        }
        std::thread::sleep(RETRIES.1);
    }
    null_mut()
}

// SAFETY: each block comes from the system's allocator, which gets the same layout.
unsafe impl GlobalAlloc for Reserving {
    unsafe fn alloc(&self, layout: Layout) -> *mut u8 {
        match System.alloc(layout) {
            block if block.is_null() => ask_again(layout.size(), || System.alloc(layout)),
            block => block,
        }
    }

    unsafe fn alloc_zeroed(&self, layout: Layout) -> *mut u8 {
        match System.alloc_zeroed(layout) {
            block if block.is_null() => ask_again(layout.size(), || System.alloc_zeroed(layout)),
            block => block,
        }
    }

    unsafe fn realloc(&self, old: *mut u8, layout: Layout, size: usize) -> *mut u8 {
        match System.realloc(old, layout, size) {
            block if block.is_null() => ask_again(size, || System.realloc(old, layout, size)),
            block => block,
        }
    }

    unsafe fn dealloc(&self, block: *mut u8, layout: Layout) {
        System.dealloc(block, layout)
    }
}
