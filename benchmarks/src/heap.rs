//! The heap functions that an archive of the repository needs. C's allocator keeps each block's size, which
//! `rattle_dealloc` is not told.

use std::ffi::c_void;

unsafe extern "C" {
    fn malloc(size: usize) -> *mut c_void;
    fn realloc(block: *mut c_void, size: usize) -> *mut c_void;
    fn free(block: *mut c_void);
}

/// Whether memory was got, and where.
#[repr(C)]
pub struct Tried {
    ok: bool,
    block: *mut c_void,
}

/// What is answered where no memory was got: a pointer that is not null and that nobody reads.
fn tried(block: *mut c_void) -> Tried {
    Tried {
        ok: !block.is_null(),
        block: if block.is_null() {
            16 as *mut c_void
        } else {
            block
        },
    }
}

/// New memory for `size` bytes. C's allocator aligns them to 16, which is the most that is asked for.
#[unsafe(no_mangle)]
extern "C" fn rattle_alloc(size: usize, align: usize) -> Tried {
    // SAFETY: `malloc` takes any size above 0.
    tried(unsafe { malloc(if size == 0 { align } else { size }) })
}

/// A block of `size` bytes that begins with the first `_kept` bytes of `block`.
///
/// # Safety
///
/// `block` came from here and was not freed.
#[unsafe(no_mangle)]
unsafe extern "C" fn rattle_realloc(
    block: *mut c_void,
    _kept: usize,
    size: usize,
    align: usize,
) -> Tried {
    // SAFETY: as above; the size is above 0.
    tried(unsafe { realloc(block, if size == 0 { align } else { size }) })
}

/// # Safety
///
/// `block` came from here and was not freed.
#[unsafe(no_mangle)]
unsafe extern "C" fn rattle_dealloc(block: *mut c_void) {
    // SAFETY: as above.
    unsafe { free(block) }
}
