//! Safe Rust over the static library of `include/ntrun.h`.
//!
//! Nothing checks a call from Rust against a contract of the library. Its functions require nothing
//! beyond what their types say, and the wrappers give that: slices of their own lengths, which are
//! apart from each other, since one of them is borrowed for writing.

// In crates/nt_c/src/lib.rt these are `ntrun_call(words: &[u8], input: &[u8], output: &mut [u8],
// written: &mut usize) -> u8` and the like: a slice crosses as a pointer and then a length. Nothing
// compares the two declarations.
unsafe extern "C" {
    fn ntrun_call(
        words: *const u8,
        words_length: usize,
        input: *const u8,
        input_length: usize,
        output: *mut u8,
        output_length: usize,
        written: *mut usize,
    ) -> u8;
    fn ntrun_level_allows(level: u8, request: u8) -> bool;
    fn ntrun_level_is_device(level: u8) -> bool;
}

/// What a call answers: the numbers of `include/ntrun.h`.
#[derive(Clone, Copy, Debug, PartialEq, Eq)]
pub struct Status(pub u8);

impl Status {
    /// The text that was asked for was written.
    pub const OK: Status = Status(0);
    /// The text is longer than the output.
    pub const WRITE: Status = Status(5);
    /// One of the words is `live` or `audit`.
    pub const NEEDS_THREADS: Status = Status(12);
}

/// How long the output is that is tried first.
const FIRST_OUTPUT: usize = 65_536;

/// Does what `ntrun` does with these words and this input, and gives its status and how many bytes
/// of its text stand at the front of the output.
pub fn call_into(words: &str, input: &[u8], output: &mut [u8]) -> (Status, usize) {
    let mut written = 0;
    // SAFETY: the declaration fits the library's. Each pointer is that of a slice, with its length,
    // or of a `usize`; each is borrowed for the call, the last two for writing. The function
    // requires nothing else.
    let status = unsafe {
        ntrun_call(
            words.as_ptr(),
            words.len(),
            input.as_ptr(),
            input.len(),
            output.as_mut_ptr(),
            output.len(),
            &mut written,
        )
    };
    (Status(status), written)
}

/// The same, with the whole text: where it is longer than the output, a longer one is tried.
#[must_use]
pub fn call(words: &str, input: &[u8]) -> (Status, Vec<u8>) {
    let mut output = vec![0; FIRST_OUTPUT];
    loop {
        let (status, written) = call_into(words, input, &mut output);
        if status != Status::WRITE {
            output.truncate(written);
            return (status, output);
        }
        output.resize(2 * output.len(), 0);
    }
}

/// Whether a request at one level may begin on a processor at another; false above 15.
#[must_use]
pub fn level_allows(level: u8, request: u8) -> bool {
    // SAFETY: the declaration fits the library's, which requires nothing.
    unsafe { ntrun_level_allows(level, request) }
}

/// Whether a level is one of those of devices, 3 to 11.
#[must_use]
pub fn level_is_device(level: u8) -> bool {
    // SAFETY: the declaration fits the library's, which requires nothing.
    unsafe { ntrun_level_is_device(level) }
}
