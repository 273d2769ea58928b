//! The check of a font while it arrives.

use crate::boundary::*;
use crate::{font, unless_refused, Font, Refusal};

/// Checks a font that arrives piece by piece, over a serial line say: it is fed any number of
/// pieces of any length, in their order, and asked once at the end. It keeps none of the
/// pieces, 144 bytes are all its state. A loader serves one font.
///
/// ```
/// # let line = lavandol::SMALL.chunks(16);
/// let mut loader = lavandol::Loader::new();
/// for frame in line {
///     loader.feed(frame)?;
/// }
/// let font = loader.close()?;
/// assert_eq!(Ok(font), lavandol::check(lavandol::SMALL));
/// let refusal = loader.feed(&[0xFF]).unwrap_err();
/// assert_eq!(refusal.to_string(), "loader: it is closed (refusal 22)");
/// # Ok::<(), lavandol::Refusal>(())
/// ```
///
/// Two loaders are equal when all their state is.
#[derive(Debug, Clone, PartialEq, Eq)]
pub struct Loader(LavLoader);

impl Loader {
    /// A loader that has been fed nothing.
    pub fn new() -> Loader {
        Loader(unsafe { lav_loader_fresh() })
    }

    /// Takes the next piece, whatever its bytes are; they are judged at the close. Refusals:
    /// LATE, the loader is closed and stays as it was.
    pub fn feed(&mut self, piece: &[u8]) -> Result<(), Refusal> {
        // SAFETY (here and below): the library changes the record that it is lent, reads the
        // piece within its length and during the call only, and asks nothing of either.
        let late = unsafe { lav_loader_feed(&mut self.0, piece.as_ptr(), piece.len()) };
        unless_refused(late, ())
    }

    /// What `check` answers on all pieces joined; the loader is closed then, whatever the
    /// answer. Refusals: 1 to 12, as the whole file's, with its place and its glyph; LATE, the
    /// loader was closed before and stays as it was.
    pub fn close(&mut self) -> Result<Font, Refusal> {
        font(unsafe { lav_loader_close(&mut self.0) })
    }
}

impl Default for Loader {
    fn default() -> Loader {
        Loader::new()
    }
}
