//! The library where its archive is linked.

use crate::second::face::Face;

/// The type of what `library` gives; where it gives none, of the second version behind the same face.
#[cfg(archive)]
pub use crate::comparing::library::Library as Linked;
#[cfg(not(archive))]
pub use crate::second::Second as Linked;

/// The library, or why it is not there.
pub fn library() -> Result<&'static dyn Face, &'static str> {
    #[cfg(archive)]
    return Ok(&Linked);
    #[cfg(not(archive))]
    return Err("its archive is not built (run tools/build archive in656)");
}
