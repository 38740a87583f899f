//! The check of a message alone, by zlib called from C (src/zlib_check.c).

use crate::answers::LENGTH;
use std::ffi::CStr;
use std::os::raw::c_char;

extern "C" {
    fn zlib_check_is_right(bytes: *const u8) -> u64;
    fn zlib_put_check(bytes: *mut u8);
    #[link_name = "zlibVersion"]
    fn zlib_version() -> *const c_char;
}

pub fn check_is_right(bytes: &[u8; LENGTH]) -> bool {
    // SAFETY: it reads 12 bytes.
    unsafe { zlib_check_is_right(bytes.as_ptr()) != 0 }
}

pub fn put_check(bytes: &mut [u8; LENGTH]) {
    // SAFETY: it reads and writes 12 bytes.
    unsafe { zlib_put_check(bytes.as_mut_ptr()) }
}

pub fn version() -> String {
    // SAFETY: zlib's version is a text that ends in 0 and stays.
    unsafe { CStr::from_ptr(zlib_version()) }
        .to_string_lossy()
        .into_owned()
}
