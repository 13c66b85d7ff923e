//! The program's allocator.

use std::ffi::c_void;

#[link(name = "jemalloc_pic", kind = "static")]
extern "C" {
    fn malloc(size: usize) -> *mut c_void;
}

/// Links jemalloc, whose `malloc` and `free` take the place of the C library's: for Rust, and for the service.
#[used]
static ALLOCATES: unsafe extern "C" fn(usize) -> *mut c_void = malloc;
