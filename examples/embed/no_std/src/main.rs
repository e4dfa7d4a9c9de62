//! A draw without Rust's standard library, and with all memory in an array, as in a kernel of its own. This program is
//! one of Linux, so that it runs here: `printf` is all that it takes of the C library.

#![no_std]
#![no_main]

use core::alloc::{GlobalAlloc, Layout};
use core::cell::UnsafeCell;
use core::ffi::{c_char, c_int, c_void};
use core::panic::PanicInfo;
use core::ptr;
use core::sync::atomic::{AtomicUsize, Ordering::Relaxed};
use lot::{Error, Event, Kernel, Name, Reply, Sizes};

/// Hands out one block after the other, each at a multiple of 16, and takes none back.
#[repr(align(16))]
struct Heap {
    bytes: UnsafeCell<[u8; 16384]>,
    used: AtomicUsize,
}

// SAFETY: no two blocks overlap, and nothing else reads or writes the bytes.
unsafe impl Sync for Heap {}

#[global_allocator]
static HEAP: Heap = Heap { bytes: UnsafeCell::new([0; 16384]), used: AtomicUsize::new(0) };

impl Heap {
    /// A block of this size with this alignment, or null.
    fn block(&self, size: usize, align: usize) -> *mut u8 {
        let begin = self.used.fetch_add(size.next_multiple_of(16), Relaxed);
        if align > 16 || begin + size > size_of_val(&self.bytes) {
            return ptr::null_mut();
        }
        self.bytes.get().cast::<u8>().wrapping_add(begin)
    }
}

// SAFETY: a block lies in the array, apart from all others, at a multiple of its alignment.
unsafe impl GlobalAlloc for Heap {
    unsafe fn alloc(&self, layout: Layout) -> *mut u8 {
        self.block(layout.size(), layout.align())
    }

    unsafe fn dealloc(&self, _: *mut u8, _: Layout) {}
}

/// What the archive calls in place of `malloc`: the three functions at the end of `lot.h`.
#[repr(C)]
struct Block {
    ok: bool,
    at: *mut c_void,
}

#[no_mangle]
extern "C" fn rattle_alloc(size: usize, align: usize) -> Block {
    let at = HEAP.block(size.max(1), align);
    // Without a block it points to something even so.
    Block { ok: !at.is_null(), at: if at.is_null() { HEAP.bytes.get().cast() } else { at.cast() } }
}

#[no_mangle]
unsafe extern "C" fn rattle_realloc(at: *mut c_void, kept: usize, size: usize, align: usize) -> Block {
    let block = rattle_alloc(size, align);
    if block.ok {
        // SAFETY: both blocks have as many bytes, and they are two.
        unsafe { ptr::copy_nonoverlapping(at.cast::<u8>(), block.at.cast::<u8>(), kept) };
    }
    block
}

#[no_mangle]
extern "C" fn rattle_dealloc(_at: *mut c_void) {}

#[panic_handler]
fn panic(_: &PanicInfo<'_>) -> ! {
    loop {}
}

#[link(name = "c")]
extern "C" {
    fn printf(format: *const c_char, ...) -> c_int;
}

fn first_draw() -> Result<Reply, Error> {
    let mut kernel = Kernel::new(Sizes::default())?;
    for amount in [10, 5] {
        let made = kernel.event(&Event::make_funded(amount, Name::BASE, None, 1));
        debug_assert!(made.refusal().is_none());
    }
    Ok(kernel.event(&Event::draw(1, 9)))
}

#[no_mangle]
extern "C" fn main() -> c_int {
    let Ok(Reply::Winner { thread, .. }) = first_draw() else { return 1 };
    // SAFETY: the format takes one number of 32 bits.
    unsafe { printf(c"thread %u\n".as_ptr(), thread) };
    0
}
