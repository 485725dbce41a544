//! Floats as words of 32 bits, and the words as text.

/// The one word under which every NaN is written.
pub const NAN: u32 = 0x7fc0_0000;
/// The word of positive infinity.
pub const INFINITY: u32 = 0x7f80_0000;
/// The sign bit.
pub const SIGN: u32 = 0x8000_0000;

/// Whether the word is a NaN's.
#[inline]
pub fn is_nan(word: u32) -> bool {
    word & !SIGN > INFINITY
}

/// The word itself, or `NAN` for any NaN.
#[inline]
pub fn one_nan(word: u32) -> u32 {
    if is_nan(word) {
        NAN
    } else {
        word
    }
}

/// Eight hex digits, of either case, as a word.
pub fn parsed(text: &str) -> Result<u32, String> {
    if text.len() == 8 && text.bytes().all(|byte| byte.is_ascii_hexdigit()) {
        u32::from_str_radix(text, 16).map_err(|e| e.to_string())
    } else {
        Err(format!("`{text}` is no word of eight hex digits"))
    }
}
