//! RE2, full match, with a pattern compiled before the clock starts.

use std::ffi::{c_int, c_void};

extern "C" {
    fn re2_compile(pattern: *const u8, length: usize) -> *mut c_void;
    fn re2_full_match(compiled: *const c_void, text: *const u8, length: usize) -> c_int;
    fn re2_free(compiled: *mut c_void);
}

pub struct Pattern(*mut c_void);

impl Pattern {
    pub fn compile(pattern: &str) -> Pattern {
        let compiled = unsafe { re2_compile(pattern.as_ptr(), pattern.len()) };
        assert!(!compiled.is_null(), "{pattern} is no pattern of RE2's");
        Pattern(compiled)
    }

    pub fn matches(&self, text: &str) -> bool {
        (unsafe { re2_full_match(self.0, text.as_ptr(), text.len()) }) != 0
    }
}

impl Drop for Pattern {
    fn drop(&mut self) {
        unsafe { re2_free(self.0) };
    }
}
