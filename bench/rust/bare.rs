//! What std would bring: the names that the published files use, a heap, and an end for a panic.
use core::alloc::{GlobalAlloc, Layout};

pub mod prelude {
    pub use alloc::{borrow::ToOwned, format, string::{String, ToString}, vec::Vec};
}

extern "C" {
    fn malloc(size: usize) -> *mut u8;
    fn free(place: *mut u8);
    fn abort() -> !;
}

struct Heap;

unsafe impl GlobalAlloc for Heap {
    unsafe fn alloc(&self, layout: Layout) -> *mut u8 {
        malloc(layout.size())
    }
    unsafe fn dealloc(&self, place: *mut u8, _: Layout) {
        free(place)
    }
}

#[global_allocator]
static HEAP: Heap = Heap;

#[panic_handler]
fn panic(_: &core::panic::PanicInfo) -> ! {
    unsafe { abort() }
}
