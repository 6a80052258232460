//! Recipe pages and plain forms from Cooklang event sheets: a safe wrapper over the proved library `librecipe.a`.
//!
//! ```no_run
//! let mut memory = recipe::Memory::new();
//! let mut out = vec![0; 1 << 20];
//! match recipe::collect(b"", b"", b"", 7, &mut memory, &mut out) {
//!     Ok(page) => print!("{}", String::from_utf8_lossy(page)),
//!     Err(refusal) => println!("{refusal}"),
//! }
//! ```
//!
//! Fields of sheets, pages and plain forms spell tab, LF, CR and backslash by escapes: `\t`, `\n`, `\r` and `\\`.

use std::fmt;

/// The functions of include/recipe.h.
mod ffi {
    extern "C" {
        pub fn recipe_words() -> usize;
        pub fn recipe_bytes() -> usize;
        pub fn recipe_collect(
            sheet: *const u8,
            sheet_length: usize,
            text: *const u8,
            text_length: usize,
            units: *const u8,
            units_length: usize,
            flags: u32,
            words: *mut u32,
            words_length: usize,
            bytes: *mut u8,
            bytes_length: usize,
            out: *mut u8,
            out_length: usize,
        ) -> u64;
        pub fn recipe_plain_form(
            sheet: *const u8,
            sheet_length: usize,
            text: *const u8,
            text_length: usize,
            units: *const u8,
            units_length: usize,
            flags: u32,
            words: *mut u32,
            words_length: usize,
            bytes: *mut u8,
            bytes_length: usize,
            out: *mut u8,
            out_length: usize,
        ) -> u64;
    }
}

/// How many words of work memory a call needs.
pub fn words_needed() -> usize {
    // SAFETY: it takes nothing and only answers a number.
    unsafe { ffi::recipe_words() }
}

/// How many bytes of work memory a call needs.
pub fn bytes_needed() -> usize {
    // SAFETY: as above.
    unsafe { ffi::recipe_bytes() }
}

/// Work memory, which any number of calls may use one after the other. It is all zero after each.
#[derive(Clone, Debug)]
pub struct Memory {
    pub words: Vec<u32>,
    pub bytes: Vec<u8>,
}

impl Memory {
    /// As much as is needed.
    pub fn new() -> Memory {
        Memory { words: vec![0; words_needed()], bytes: vec![0; bytes_needed()] }
    }
}

impl Default for Memory {
    fn default() -> Memory {
        Memory::new()
    }
}

/// Why nothing was handed out: docs/FINDINGS.md says what each number means. The line is one of the sheet, from 1, or 0.
#[derive(Clone, Copy, Debug, PartialEq, Eq)]
pub struct Refusal {
    pub number: u32,
    pub line: u32,
}

impl fmt::Display for Refusal {
    fn fmt(&self, f: &mut fmt::Formatter<'_>) -> fmt::Result {
        write!(f, "refused\t{}\t{}", self.number, self.line)
    }
}

impl std::error::Error for Refusal {}

/// An answer of the library: its upper half is a refusal's number, or 0, its lower half a line, or a length (never past
/// `out`: this would panic, not read there).
fn answer(code: u64, out: &[u8]) -> Result<&[u8], Refusal> {
    match (code >> 32) as u32 {
        0 => Ok(&out[..code as u32 as usize]),
        number => Err(Refusal { number, line: code as u32 }),
    }
}

/// The recipe page, at the front of `out`; the rest of `out`, and `memory`, are zero then. After a refusal all is.
pub fn collect<'a>(
    sheet: &[u8],
    text: &[u8],
    units: &[u8],
    flags: u32,
    memory: &mut Memory,
    out: &'a mut [u8],
) -> Result<&'a [u8], Refusal> {
    collect_in(sheet, text, units, flags, &mut memory.words, &mut memory.bytes, out)
}

/// The same with work memory from anywhere: at least [`words_needed`] and [`bytes_needed`] of it, else it is refused by 1.
pub fn collect_in<'a>(
    sheet: &[u8],
    text: &[u8],
    units: &[u8],
    flags: u32,
    words: &mut [u32],
    bytes: &mut [u8],
    out: &'a mut [u8],
) -> Result<&'a [u8], Refusal> {
    // before the pointers that are written through are made
    let (words_length, bytes_length, out_length) = (words.len(), bytes.len(), out.len());
    // SAFETY: each pointer is a slice's, so neither null nor misaligned, with its length; those that are written to are
    // lent for this call alone; the library reads and writes within them only.
    let code = unsafe {
        ffi::recipe_collect(
            sheet.as_ptr(),
            sheet.len(),
            text.as_ptr(),
            text.len(),
            units.as_ptr(),
            units.len(),
            flags,
            words.as_mut_ptr(),
            words_length,
            bytes.as_mut_ptr(),
            bytes_length,
            out.as_mut_ptr(),
            out_length,
        )
    };
    answer(code, out)
}

/// The plain form of a sheet, at the front of `out`: a sheet without modes and implicit references that yields the same
/// recipe. The rest of `out`, and `memory`, are zero then; after a refusal all is. Beside the refusals of [`collect`]: 21 an
/// `error` line, 22 a component in components mode, 23 an implicit reference that cannot be made explicit, 24 a form past
/// the limits.
pub fn plain_form<'a>(
    sheet: &[u8],
    text: &[u8],
    units: &[u8],
    flags: u32,
    memory: &mut Memory,
    out: &'a mut [u8],
) -> Result<&'a [u8], Refusal> {
    plain_form_in(sheet, text, units, flags, &mut memory.words, &mut memory.bytes, out)
}

/// The same with work memory from anywhere, as [`collect_in`].
pub fn plain_form_in<'a>(
    sheet: &[u8],
    text: &[u8],
    units: &[u8],
    flags: u32,
    words: &mut [u32],
    bytes: &mut [u8],
    out: &'a mut [u8],
) -> Result<&'a [u8], Refusal> {
    let (words_length, bytes_length, out_length) = (words.len(), bytes.len(), out.len());
    // SAFETY: as in `collect_in`.
    let code = unsafe {
        ffi::recipe_plain_form(
            sheet.as_ptr(),
            sheet.len(),
            text.as_ptr(),
            text.len(),
            units.as_ptr(),
            units.len(),
            flags,
            words.as_mut_ptr(),
            words_length,
            bytes.as_mut_ptr(),
            bytes_length,
            out.as_mut_ptr(),
            out_length,
        )
    };
    answer(code, out)
}
