//! What a user should know about normal forms.

use crate::calls::answer_of;
use crate::{sys, Changes, Error, Form, Limits};

/// What a user should know about a normal form beyond what it means: the numbers in the notes of
/// the program.
#[derive(Clone, Copy, Debug, Default, PartialEq, Eq)]
pub struct Notes {
    /// The number of signature nodes, which are kept and not checked.
    pub signatures: usize,
    /// The alignment in bytes that the payloads after the blob have in the file, if one of them
    /// loses it in the form External.
    pub lost_alignment: Option<u32>,
    /// The number of payloads with a fixed position in the file, `data-position`, which is not kept
    /// in the form External.
    pub lost_positions: usize,
}

/// Returns what a user should know about what `update` returns with these arguments, or `normalise`
/// without changes.
///
/// # Errors
///
/// Those of `update`.
pub fn notes(file: &[u8], changes: Changes, form: Form, limits: Limits) -> Result<Notes, Error> {
    let mut found = sys::NoteNumbers::default();
    answer_of(|answer| {
        // Safety: the file is as long as its length, and the structs are those of the library.
        unsafe {
            sys::bootimg_notes(
                file.as_ptr(),
                file.len(),
                changes.bits(),
                changes.time.unwrap_or(0),
                form.number(),
                limits.limit,
                limits.depth,
                &mut found,
                answer,
            )
        }
    })?;
    Ok(Notes {
        signatures: found.signatures,
        lost_alignment: (found.lost_alignment != 0).then_some(found.lost_alignment),
        lost_positions: found.lost_positions,
    })
}
