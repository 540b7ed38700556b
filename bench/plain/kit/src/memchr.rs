//! Searches of bytes, by the C library.

unsafe extern "C" {
    #[link_name = "memchr"]
    fn first(bytes: *const u8, byte: i32, len: usize) -> *const u8;

    #[link_name = "memrchr"]
    fn last(bytes: *const u8, byte: i32, len: usize) -> *const u8;
}

/// The index of what was found in the text.
fn index(found: *const u8, text: &[u8]) -> Option<usize> {
    (!found.is_null()).then(|| found as usize - text.as_ptr() as usize)
}

/// The index of the first such byte.
pub fn memchr(byte: u8, text: &[u8]) -> Option<usize> {
    // SAFETY: it reads `len` bytes at most, which are the text's.
    let found = unsafe { first(text.as_ptr(), i32::from(byte), text.len()) };
    index(found, text)
}

/// The index of the last such byte.
pub fn memrchr(byte: u8, text: &[u8]) -> Option<usize> {
    // SAFETY: it reads `len` bytes at most, which are the text's.
    let found = unsafe { last(text.as_ptr(), i32::from(byte), text.len()) };
    index(found, text)
}
