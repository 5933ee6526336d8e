//! Converts a reduced Groebner basis from grevlex order to lex order.
//!
//! The work is done by a library written in Rattle and proved to meet its contract; this crate calls it.
//! Both buffers are the caller's: nothing is allocated, and no input needs a test beforehand.
//!
//! ```
//! let input = b"basis\tgrevlex\t3\t2\n\
//!     poly\t1:0.2\t2:1.0\n\
//!     poly\t1:1.1\t2:0.1\n\
//!     poly\t1:2.0\t2:1.0\n\
//!     end\t3\n";
//! let mut output = [0; juirkes::OUTPUT_ROOM];
//! let length = juirkes::convert(input, &mut output)?;
//! assert_eq!(
//!     &output[..length],
//!     b"basis\tlex\t3\t2\n\
//!     poly\t1:0.3\t2:0.1\n\
//!     poly\t1:1.0\t2:0.2\n\
//!     stairs\t0.0\t0.1\t0.2\n\
//!     runs\t3\n\
//!     end\t2\n"
//! );
//! # Ok::<(), juirkes::Refused>(())
//! ```
//!
//! A refused text gets its refusal and its line, and leaves the output buffer as it was:
//!
//! ```
//! use juirkes::{convert, Refusal};
//!
//! let mut output = [7; 100];
//! let refused = convert(b"basis\tgrevlex\t3\t1\npoly\t2:1\nend\t1\n", &mut output).unwrap_err();
//! assert_eq!(refused.refusal, Refusal::NotMonic);
//! assert_eq!(refused.line, 2);
//! assert_eq!(refused.to_string(), "refusal 9, line 2: leading coefficient not 1");
//! assert_eq!(output, [7; 100]);
//! ```

#![warn(missing_docs)]

mod refusal;

pub use refusal::{Refusal, Refused};

/// The longest input that is read, in bytes. A longer one is refused.
pub const INPUT_LIMIT: usize = 65_536;

/// An output buffer of this length is long enough for every output.
pub const OUTPUT_ROOM: usize = 65_536;

/// What the library answers: 0 and the length written, or a refusal's number and its line.
#[repr(C)]
struct Answer {
    number: u64,
    value: u64,
}

extern "C" {
    fn juirkes_convert(input: *const u8, input_length: usize, output: *mut u8, output_length: usize) -> Answer;
}

/// Converts the text `input` and writes the lex basis and its standard monomials to the front of `output`.
///
/// Returns the length written. Bytes of `output` past that length keep their contents.
///
/// # Errors
///
/// The first check that `input` fails, or [`Refusal::OutputTooShort`] if `output` is shorter than the text to write. No byte is written.
///
/// # Panics
///
/// If the linked library answers with a number that is no refusal. The library is proved never to.
pub fn convert(input: &[u8], output: &mut [u8]) -> Result<usize, Refused> {
    // SAFETY: each pointer is its slice's, never null, with that slice's length; the exclusive slice cannot overlap the shared one.
    let answer = unsafe { juirkes_convert(input.as_ptr(), input.len(), output.as_mut_ptr(), output.len()) };
    let value = answer.value as usize;
    if answer.number == 0 {
        return Ok(value);
    }
    match Refusal::from_number(answer.number) {
        Some(refusal) => Err(Refused { refusal, line: value }),
        None => panic!("the linked library answered {}, which is no refusal's number", answer.number),
    }
}
