//! Boot images of U-Boot: legacy images and FITs (flattened image trees).
//!
//! Each call takes the bytes of a file. It calls the library for C of bootimg, which is proved; this
//! crate, which is not, only passes slices to it and makes values of what it returns. Nothing of a
//! file is copied: names and payloads are slices of it.
//!
//! ```
//! let file = std::fs::read(concat!(env!("CARGO_MANIFEST_DIR"), "/../examples/board.itb"))?;
//! let board = bootimg::Fit::read(&file, bootimg::Limits::default())?;
//! for image in &board.images {
//!     println!("{} {:?}", image.name.escape_ascii(), image.payload.map(<[u8]>::len));
//! }
//! let kernel = &board.default_configuration().unwrap().listed(bootimg::Key::Kernel)?[0];
//! assert_eq!(kernel.name, b"kernel-1");
//! # Ok::<(), Box<dyn std::error::Error>>(())
//! ```

#![warn(missing_docs)]

mod building;
mod calls;
mod codes;
mod concerns;
mod edits;
mod error;
mod fit;
mod hashes;
mod legacy;
mod names;
mod nodes;
mod notes;
mod sys;
mod texts;
mod values;

pub use building::{
    build_fit, build_fit_as, build_legacy, Algorithm, BuildConfiguration, BuildImage, BuildTexts,
    Plan,
};
pub use codes::CodeField;
pub use concerns::{concerns, Concern};
pub use edits::{edit, edit_notes, Edit, EditNotes, FormChoice};
pub use error::{Argument, Cause, Error, Refusal};
pub use fit::{Configuration, Fit, FitImage, Place, Reservation};
pub use hashes::{Hash, Verdict};
pub use legacy::{Header, Legacy};
pub use nodes::{Node, Property};
pub use notes::{notes, Notes};
pub use texts::{
    check, check_json, compare, compare_deep, compare_deep_json, compare_ignoring,
    compare_ignoring_json, compare_json, convert, describe, describe_deep, describe_deep_json,
    describe_json, listing, listing_json, normalise, same_meaning, scan, scan_json, show,
    show_json, update, verify, verify_json, Changes, Comparison, Concerns, Form, NormalForm,
    Policy, Report,
};
pub use values::{get, Value, ValueForm};

use calls::{answer_of, fill, text_of};
use std::fmt;

/// The limits of a call.
#[derive(Clone, Copy, Debug, PartialEq, Eq)]
pub struct Limits {
    /// The greatest number of bytes of a file, and of an image, payload or description that is
    /// made: 64 to 0x7fffffff.
    pub limit: u32,
    /// The greatest depth of a FIT, including the root: 1 to 64.
    pub depth: u32,
}

impl Default for Limits {
    /// The greatest limits.
    fn default() -> Limits {
        Limits {
            limit: 0x7fff_ffff,
            depth: 64,
        }
    }
}

/// The kind of a boot image.
#[derive(Clone, Copy, Debug, PartialEq, Eq)]
pub enum Kind {
    /// A legacy image.
    Legacy,
    /// A FIT.
    Fit,
}

impl fmt::Display for Kind {
    /// Writes the word of the kind in a listing.
    fn fmt(&self, formatter: &mut fmt::Formatter<'_>) -> fmt::Result {
        formatter.pad(match self {
            Kind::Legacy => "legacy",
            Kind::Fit => "fit",
        })
    }
}

/// A key of a configuration: a property that lists images.
#[derive(Clone, Copy, Debug, PartialEq, Eq)]
#[allow(missing_docs)]
pub enum Key {
    Kernel,
    Fdt,
    Ramdisk,
    Firmware,
    Loadables,
    Script,
}

impl Key {
    /// All keys, in the order of listings.
    pub const ALL: [Key; 6] = [
        Key::Kernel,
        Key::Fdt,
        Key::Ramdisk,
        Key::Firmware,
        Key::Loadables,
        Key::Script,
    ];
}

impl fmt::Display for Key {
    /// Writes the name of the property.
    fn fmt(&self, formatter: &mut fmt::Formatter<'_>) -> fmt::Result {
        formatter.pad(match self {
            Key::Kernel => "kernel",
            Key::Fdt => "fdt",
            Key::Ramdisk => "ramdisk",
            Key::Firmware => "firmware",
            Key::Loadables => "loadables",
            Key::Script => "script",
        })
    }
}

/// Returns the kind of a file by its first four bytes.
///
/// # Errors
///
/// Truncated at 0 for a file of fewer than four bytes, and BadMagic at 0 for one without a magic
/// number.
pub fn kind(file: &[u8]) -> Result<Kind, Error> {
    // Safety: the file is as long as its length, and `answer_of` passes a struct of the library's.
    let call = |answer: *mut _| unsafe { sys::bootimg_kind(file.as_ptr(), file.len(), answer) };
    match answer_of(call)?.value {
        1 => Ok(Kind::Legacy),
        _ => Ok(Kind::Fit),
    }
}

/// Returns the version of the library.
pub fn version() -> String {
    let call = |buffer: *mut u8, room, answer: *mut _| {
        // Safety: `fill` passes a buffer and its length.
        unsafe { sys::bootimg_version(buffer, room, answer) }
    };
    fill(16, call)
        .map(|(text, _)| text_of(text))
        .unwrap_or_default()
}
