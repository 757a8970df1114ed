//! Edits of files.

use crate::building::add_piece;
use crate::calls::{answer_of, fill};
use crate::{sys, Error, Form, Limits, NormalForm};

/// An edit of a file. Words, paths, names and values in words are as `describe` prints them.
#[derive(Clone, Copy, Debug, PartialEq, Eq)]
#[non_exhaustive]
pub enum Edit<'a> {
    /// Removes a node of a FIT and all nodes below it, by its path; or a property, by the path of
    /// its node, a space and its name. Neither the root nor the node `images` can be removed, and
    /// no image has one of the four properties that hold or place its payload.
    Remove(&'a str),
    /// Sets a property of a FIT, or adds it: the path of its node, a space, its name, and, unless
    /// the value is empty, a space and the value, as it is printed, or `0x` and two hexadecimal
    /// digits for every byte. Nodes of the path that are not there are added.
    Set(&'a str),
    /// Gives the image of a FIT with this name, or the part of a legacy image with this number,
    /// these bytes. Name and number are as `listing` prints them.
    Payload(&'a str, &'a [u8]),
    /// Sets the time of creation, in seconds since 1970.
    Time(u32),
    /// Computes the digests in the hash nodes of a FIT again.
    Hashes,
    /// Sets the name of a legacy image.
    Name(&'a [u8]),
    /// Sets the address that a legacy image is loaded to.
    Load(u32),
    /// Sets the address of the entry point of a legacy image.
    Entry(u32),
    /// Sets the code of the operating system of a legacy image.
    Os(u8),
    /// Sets the code of the processor architecture of a legacy image.
    Arch(u8),
    /// Sets the code of the compression of a legacy image.
    Compression(u8),
}

impl Edit<'_> {
    /// Returns the kind, the word, the payload and the number of the edit.
    fn parts(&self) -> (u32, &[u8], &[u8], u32) {
        match *self {
            Edit::Remove(word) => (0, word.as_bytes(), &[], 0),
            Edit::Set(word) => (1, word.as_bytes(), &[], 0),
            Edit::Payload(word, payload) => (2, word.as_bytes(), payload, 0),
            Edit::Time(time) => (3, &[], &[], time),
            Edit::Hashes => (4, &[], &[], 0),
            Edit::Name(name) => (5, name, &[], 0),
            Edit::Load(address) => (6, &[], &[], address),
            Edit::Entry(address) => (7, &[], &[], address),
            Edit::Os(code) => (8, &[], &[], code.into()),
            Edit::Arch(code) => (9, &[], &[], code.into()),
            Edit::Compression(code) => (10, &[], &[], code.into()),
        }
    }

    /// Returns the edit for C, and adds its word and its payload to the input.
    fn element(&self, input: &mut Vec<u8>) -> sys::Edit {
        let (kind, word, payload, number) = self.parts();
        sys::Edit {
            word: add_piece(input, word),
            payload: add_piece(input, payload),
            kind,
            number,
        }
    }
}

/// Where the payloads of an edited FIT are.
#[derive(Clone, Copy, Debug, PartialEq, Eq)]
pub enum FormChoice {
    /// Where this form has them.
    Given(Form),
    /// Where the file has them.
    Keep,
}

impl Default for FormChoice {
    /// Inside the blob.
    fn default() -> FormChoice {
        FormChoice::Given(Form::default())
    }
}

impl From<Form> for FormChoice {
    fn from(form: Form) -> FormChoice {
        FormChoice::Given(form)
    }
}

impl FormChoice {
    /// Returns the number of the choice.
    fn number(self) -> u32 {
        match self {
            FormChoice::Given(form) => form.number(),
            FormChoice::Keep => 2,
        }
    }
}

/// What a user should know about a file after edits beyond what it means: the numbers in the notes
/// of the program.
#[derive(Clone, Copy, Debug, Default, PartialEq, Eq)]
pub struct EditNotes {
    /// The number of signature nodes, which are kept and not checked.
    pub signatures: usize,
    /// The alignment in bytes that the payloads after the blob have in the file, if one of them
    /// loses it in the form External.
    pub lost_alignment: Option<u32>,
    /// The number of payloads with a fixed position in the file, `data-position`, which is not kept
    /// in the form External or in that of the file.
    pub lost_positions: usize,
    /// The number of payloads after the blob of the file that are inside it in the form Embedded.
    pub inside: usize,
}

/// Returns the normal form of a file after edits. They are made in this order, whatever their order
/// in the slice: removals, new values and fields, payloads, the time, the digests. Those of one of
/// these kinds are made in their order in the slice. Whatever no edit names is as it was.
///
/// # Errors
///
/// `BadEdit` for the first edit whose word has another form, or names what cannot be removed or
/// set. Those of reading the file. `WrongKind` for an edit of the other kind of image. `Refused`
/// with TooDeep if a property is set of a node with as many names in its path as the limit, or
/// more. `FindsNothing` for the first edit, in the order in which they are made, that finds nothing
/// to remove, no image or no part. `Refused` with TooLarge if the image is longer than the limit,
/// or, with `Hashes`, the payloads together are; and for a legacy image as for `build_legacy`.
///
/// ```
/// use bootimg::{edit, get, Edit, FormChoice, Limits, ValueForm};
///
/// let file = std::fs::read(concat!(env!("CARGO_MANIFEST_DIR"), "/../examples/board.itb"))?;
/// let edits = [Edit::Set("/images/kernel-1 load 0x80200000"), Edit::Hashes];
/// let edited = edit(&file, &edits, FormChoice::Keep, Limits::default())?;
/// assert_eq!(edited.image[..4], [0xd0, 0x0d, 0xfe, 0xed]);
/// # Ok::<(), Box<dyn std::error::Error>>(())
/// ```
pub fn edit(
    file: &[u8],
    edits: &[Edit<'_>],
    form: FormChoice,
    limits: Limits,
) -> Result<NormalForm, Error> {
    let mut input = Vec::new();
    let elements: Vec<_> = edits.iter().map(|edit| edit.element(&mut input)).collect();
    let room = file.len() + input.len() + 4096;
    let (image, signatures) = fill(room, |buffer, room, answer| {
        // Safety: the file, the input and the elements are as long as their lengths, and `fill`
        // passes a buffer and its length.
        unsafe {
            sys::bootimg_edit(
                file.as_ptr(),
                file.len(),
                input.as_ptr(),
                input.len(),
                elements.as_ptr(),
                elements.len(),
                form.number(),
                limits.limit,
                limits.depth,
                buffer,
                room,
                answer,
            )
        }
    })?;
    Ok(NormalForm { image, signatures })
}

/// Returns what a user should know about what `edit` returns with these arguments.
///
/// # Errors
///
/// Those of `edit`.
pub fn edit_notes(
    file: &[u8],
    edits: &[Edit<'_>],
    form: FormChoice,
    limits: Limits,
) -> Result<EditNotes, Error> {
    let mut input = Vec::new();
    let elements: Vec<_> = edits.iter().map(|edit| edit.element(&mut input)).collect();
    let mut found = sys::EditNoteNumbers::default();
    answer_of(|answer| {
        // Safety: the file, the input and the elements are as long as their lengths, and the
        // structs are those of the library.
        unsafe {
            sys::bootimg_edit_notes(
                file.as_ptr(),
                file.len(),
                input.as_ptr(),
                input.len(),
                elements.as_ptr(),
                elements.len(),
                form.number(),
                limits.limit,
                limits.depth,
                &mut found,
                answer,
            )
        }
    })?;
    Ok(EditNotes {
        signatures: found.signatures,
        lost_alignment: (found.lost_alignment != 0).then_some(found.lost_alignment),
        lost_positions: found.lost_positions,
        inside: found.inside,
    })
}
