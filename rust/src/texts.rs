//! Texts about files, and files that are made of files.

use crate::building::add_piece;
use crate::calls::{answer_of, fill, fill_of, fill_of_two, fill_with_number, text_of};
use crate::{sys, Error, Limits};

/// Where the payloads in the normal form of a FIT are.
#[derive(Clone, Copy, Debug, Default, PartialEq, Eq)]
pub enum Form {
    /// Inside the blob.
    #[default]
    Embedded,
    /// After the blob, each at a multiple of 4 bytes.
    External,
    /// After the blob, each at a multiple of this number of bytes: a power of two from 4 to 1048576.
    /// A call fails with WrongArgument for any other number.
    Aligned(u32),
}

impl Form {
    /// Returns the number of the form. An alignment that is the number of another form, or of a
    /// choice of the form, is not passed on: 3 is the number of neither.
    pub(crate) fn number(self) -> u32 {
        match self {
            Form::Embedded => 0,
            Form::External => 1,
            Form::Aligned(bytes) => bytes.max(3),
        }
    }
}

/// What an update changes.
#[derive(Clone, Copy, Debug, Default, PartialEq, Eq)]
pub struct Changes {
    /// The new time of creation, in seconds since 1970.
    pub time: Option<u32>,
    /// Whether the digests in the hash nodes of a FIT are computed again.
    pub hashes: bool,
}

impl Changes {
    /// Returns a bit for each change.
    pub(crate) fn bits(self) -> u32 {
        u32::from(self.time.is_some()) + 2 * u32::from(self.hashes)
    }
}

/// A normal form.
#[derive(Clone, Debug, PartialEq, Eq)]
pub struct NormalForm {
    /// The bytes of the image.
    pub image: Vec<u8>,
    /// The number of its signature nodes, which are kept and not checked.
    pub signatures: usize,
}

impl AsRef<[u8]> for NormalForm {
    fn as_ref(&self) -> &[u8] {
        &self.image
    }
}

impl From<NormalForm> for Vec<u8> {
    fn from(normal: NormalForm) -> Vec<u8> {
        normal.image
    }
}

/// A report on the checksums and digests of a file.
#[derive(Clone, Debug, PartialEq, Eq)]
pub struct Report {
    /// The report.
    pub text: String,
    /// Whether each verdict in it is good, even if there is none.
    pub all_good: bool,
}

/// The differences between what two files mean.
#[derive(Clone, Debug, PartialEq, Eq)]
pub struct Comparison {
    /// The differences.
    pub differences: String,
    /// Whether both mean the same thing.
    pub same: bool,
}

/// The kinds of concerns that are left out.
#[derive(Clone, Copy, Debug, Default, PartialEq, Eq)]
#[allow(missing_docs)]
pub struct Concerns {
    pub bad_hash: bool,
    pub unhashed: bool,
    pub weak_hash: bool,
    pub bad_list: bool,
    pub missing: bool,
    pub bad_default: bool,
    pub trailing: bool,
    pub skipped_hash: bool,
    pub unsigned: bool,
    pub no_nodes: bool,
    pub no_images: bool,
    pub uncovered: bool,
    pub foreign: bool,
    pub strings: bool,
    pub unit_address: bool,
}

/// What is asked of a file, and what is not.
#[derive(Clone, Copy, Debug, Default, PartialEq, Eq)]
pub struct Policy {
    /// The kinds of concerns that are left out.
    pub allowed: Concerns,
    /// Whether there must be a configuration, and a signature in each.
    pub signed: bool,
}

impl From<Concerns> for Policy {
    /// Returns the policy that leaves out these kinds, and asks for no signature.
    fn from(allowed: Concerns) -> Policy {
        Policy {
            allowed,
            signed: false,
        }
    }
}

impl Policy {
    /// Returns the bits of the policy.
    pub(crate) fn bits(self) -> u32 {
        let signed = if self.signed { sys::SIGNED } else { 0 };
        self.allowed.bits() | signed
    }
}

impl Concerns {
    /// Returns a bit for each kind that is left out.
    fn bits(self) -> u32 {
        [
            self.bad_hash,
            self.unhashed,
            self.weak_hash,
            self.bad_list,
            self.missing,
            self.bad_default,
            self.trailing,
            self.skipped_hash,
            self.unsigned,
            self.no_nodes,
            self.no_images,
            self.uncovered,
            self.foreign,
            self.strings,
            self.unit_address,
        ]
        .iter()
        .enumerate()
        .map(|(bit, &is_allowed)| u32::from(is_allowed) << bit)
        .sum()
    }
}

/// Makes a call on one file that returns a text.
fn text_about(call: sys::OnFile<u8>, file: &[u8], limits: Limits) -> Result<(String, bool), Error> {
    let (text, value) = fill_of(call, 16384, file, limits)?;
    Ok((text_of(text), value == 1))
}

/// Returns the normal form of a file.
///
/// # Errors
///
/// Those of reading the file, and TooLarge if the normal form is longer than the limit.
pub fn normalise(file: &[u8], form: Form, limits: Limits) -> Result<NormalForm, Error> {
    let (call, room) = (sys::bootimg_normalise, file.len() + 4096);
    let (image, signatures) = fill_with_number(call, form.number(), room, file, limits)?;
    Ok(NormalForm { image, signatures })
}

/// Returns the normal form of a file with changes.
///
/// # Errors
///
/// Those of reading the file, and TooLarge if the output is longer than the limit, or, with
/// `hashes`, if the payloads together are longer.
pub fn update(
    file: &[u8],
    changes: Changes,
    form: Form,
    limits: Limits,
) -> Result<NormalForm, Error> {
    let call = |buffer: *mut u8, room, answer: *mut _| {
        // Safety: the file is as long as its length, and `fill` passes a buffer and its length.
        unsafe {
            sys::bootimg_update(
                file.as_ptr(),
                file.len(),
                changes.bits(),
                changes.time.unwrap_or(0),
                form.number(),
                limits.limit,
                limits.depth,
                buffer,
                room,
                answer,
            )
        }
    };
    let (image, signatures) = fill(file.len() + 4096, call)?;
    Ok(NormalForm { image, signatures })
}

/// Returns the FIT that a legacy image is converted to.
///
/// # Errors
///
/// BadMagic for a file that is not a legacy image, NoCodeName, EmptyPart or TooManyParts for one
/// that cannot be converted, and TooLarge if the output is longer than the limit.
pub fn convert(file: &[u8], limits: Limits) -> Result<Vec<u8>, Error> {
    Ok(fill_of(sys::bootimg_convert, file.len() + 4096, file, limits)?.0)
}

/// Returns the listing of a file.
///
/// # Errors
///
/// Those of reading the file.
pub fn listing(file: &[u8], limits: Limits) -> Result<String, Error> {
    Ok(text_about(sys::bootimg_list, file, limits)?.0)
}

/// Returns what `listing` says as one JSON text and a newline.
///
/// # Errors
///
/// Those of reading the file.
pub fn listing_json(file: &[u8], limits: Limits) -> Result<String, Error> {
    Ok(text_about(sys::bootimg_list_json, file, limits)?.0)
}

/// Returns a line for each boot image inside a file, in the order of their offsets: the offset, the
/// kind, the size in bytes, and the name of a legacy image or the number of images of a FIT. The
/// text is empty if there is no image.
///
/// # Errors
///
/// TooLarge if the file, or what the headers of its images claim together, is longer than the
/// limit. `OutOfMemory`.
///
/// ```
/// # use bootimg::{scan, Limits};
/// # let image = std::fs::read(concat!(env!("CARGO_MANIFEST_DIR"), "/../examples/board.itb"))?;
/// let dump = [&[0xff; 100], &image[..]].concat();
/// assert_eq!(scan(&dump, Limits::default())?, "100 fit 2628 3\n");
/// # Ok::<(), Box<dyn std::error::Error>>(())
/// ```
pub fn scan(file: &[u8], limits: Limits) -> Result<String, Error> {
    Ok(text_about(sys::bootimg_scan, file, limits)?.0)
}

/// Returns what `scan` says as one JSON text and a newline, even if there is no image.
///
/// # Errors
///
/// Those of `scan`.
pub fn scan_json(file: &[u8], limits: Limits) -> Result<String, Error> {
    Ok(text_about(sys::bootimg_scan_json, file, limits)?.0)
}

/// Returns the description of what a file means. It does not depend on the layout of the file.
///
/// # Errors
///
/// Those of reading the file, and TooLarge if the description, or the payloads together, are longer
/// than the limit.
pub fn describe(file: &[u8], limits: Limits) -> Result<String, Error> {
    Ok(text_about(sys::bootimg_describe, file, limits)?.0)
}

/// Returns what `describe` says as one JSON text and a newline.
///
/// # Errors
///
/// Those of `describe`. The limit is on this text.
pub fn describe_json(file: &[u8], limits: Limits) -> Result<String, Error> {
    Ok(text_about(sys::bootimg_describe_json, file, limits)?.0)
}

/// Returns the description of what a file means, with the devicetrees inside its payloads, as
/// `bootimg describe --deep` prints it.
///
/// # Errors
///
/// Those of `describe`. The limit is on the deep description.
pub fn describe_deep(file: &[u8], limits: Limits) -> Result<String, Error> {
    Ok(text_about(sys::bootimg_describe_deep, file, limits)?.0)
}

/// Returns what `describe_deep` says as one JSON text and a newline.
///
/// # Errors
///
/// Those of `describe_deep`. The limit is on this text.
pub fn describe_deep_json(file: &[u8], limits: Limits) -> Result<String, Error> {
    Ok(text_about(sys::bootimg_describe_deep_json, file, limits)?.0)
}

/// Returns the report on the checksums and digests of a file.
///
/// # Errors
///
/// Those of reading the file.
pub fn verify(file: &[u8], limits: Limits) -> Result<Report, Error> {
    let (text, all_good) = text_about(sys::bootimg_verify, file, limits)?;
    Ok(Report { text, all_good })
}

/// Returns what `verify` says, with the report as one JSON text and a newline.
///
/// # Errors
///
/// Those of reading the file.
pub fn verify_json(file: &[u8], limits: Limits) -> Result<Report, Error> {
    let (text, all_good) = text_about(sys::bootimg_verify_json, file, limits)?;
    Ok(Report { text, all_good })
}

/// Makes a call on one file with a number, that returns a text.
fn text_with_number(
    call: sys::OnFileWithNumber<u8>,
    file: &[u8],
    number: u32,
    limits: Limits,
) -> Result<String, Error> {
    let (text, _) = fill_with_number(call, number, 16384, file, limits)?;
    Ok(text_of(text))
}

/// Returns a line for each concern about a file: each thing in it that is not protected. Lines of
/// allowed kinds are left out. No signature is verified.
///
/// # Errors
///
/// Those of reading the file, and TooLarge if the payloads together, or the paths that signatures
/// must cover, are longer than the limit.
pub fn check(file: &[u8], policy: impl Into<Policy>, limits: Limits) -> Result<String, Error> {
    text_with_number(sys::bootimg_check, file, policy.into().bits(), limits)
}

/// Returns what `check` says as one JSON text and a newline, even if there is no concern.
///
/// # Errors
///
/// Those of `check`.
pub fn check_json(file: &[u8], policy: impl Into<Policy>, limits: Limits) -> Result<String, Error> {
    text_with_number(sys::bootimg_check_json, file, policy.into().bits(), limits)
}

/// Returns the page of a file, for a person: tables of what it is, of its images or parts with the
/// verdict on each hash node, of its configurations and signature nodes, and the lines of `check`;
/// with `layout`, also of the regions of the file by their offsets. Its form may change with the
/// version.
///
/// # Errors
///
/// Those of `check`.
pub fn show(file: &[u8], layout: bool, limits: Limits) -> Result<String, Error> {
    text_with_number(sys::bootimg_show, file, u32::from(layout), limits)
}

/// Returns what `show` says, without regions of the file, as one JSON text and a newline.
///
/// # Errors
///
/// Those of `check`.
pub fn show_json(file: &[u8], limits: Limits) -> Result<String, Error> {
    Ok(text_about(sys::bootimg_show_json, file, limits)?.0)
}

/// Makes a call that compares two files.
fn compared(
    call: sys::OnTwo<u8>,
    one: &[u8],
    other: &[u8],
    limits: Limits,
) -> Result<Comparison, Error> {
    let (text, value) = fill_of_two(call, 16384, one, other, limits)?;
    Ok(Comparison {
        differences: text_of(text),
        same: value == 1,
    })
}

/// Returns the differences between what two files mean, one line each. There are none if they mean
/// the same thing.
///
/// # Errors
///
/// Those of reading the files; and, if they do not mean the same thing, TooLarge for the first file
/// whose description, or payloads together, are longer than the limit.
pub fn compare(one: &[u8], other: &[u8], limits: Limits) -> Result<Comparison, Error> {
    compared(sys::bootimg_compare, one, other, limits)
}

/// Returns what `compare` says, with the differences as one JSON text and a newline.
///
/// # Errors
///
/// Those of `compare`.
pub fn compare_json(one: &[u8], other: &[u8], limits: Limits) -> Result<Comparison, Error> {
    compared(sys::bootimg_compare_json, one, other, limits)
}

/// Makes a call that compares two files without what words name.
fn compared_ignoring(
    call: sys::OnTwoWithRegions<u8>,
    one: &[u8],
    other: &[u8],
    words: &[&str],
    limits: Limits,
) -> Result<Comparison, Error> {
    let mut input = Vec::new();
    let regions: Vec<_> = words
        .iter()
        .map(|word| add_piece(&mut input, word.as_bytes()))
        .collect();
    let (text, value) = fill(16384, |buffer: *mut u8, room, answer| {
        // Safety: the files, the input and the regions are as long as their lengths, and `fill`
        // passes a buffer and its length.
        unsafe {
            call(
                one.as_ptr(),
                one.len(),
                other.as_ptr(),
                other.len(),
                input.as_ptr(),
                input.len(),
                regions.as_ptr(),
                regions.len(),
                limits.limit,
                limits.depth,
                buffer,
                room,
                answer,
            )
        }
    })?;
    Ok(Comparison {
        differences: text_of(text),
        same: value == 1,
    })
}

/// Returns the differences between what two files mean without what words name, as `compare` does.
/// The words are those that the option `--ignore` of the program takes: `time`, `signatures`, the
/// path of a node, or a path, a space and the name of a property. Nothing is left out of files of
/// different kinds.
///
/// # Errors
///
/// `BadWord` for a word that names nothing. Those of reading the files; and TooLarge for the first
/// file whose description, or payloads together, are longer than the limit, even if the files mean
/// the same thing.
///
/// ```
/// # use bootimg::{compare_ignoring, Limits};
/// # let image = std::fs::read(concat!(env!("CARGO_MANIFEST_DIR"), "/../examples/board.itb"))?;
/// let compared = compare_ignoring(&image, &image, &["time", "/images/fdt-1"], Limits::default())?;
/// assert!(compared.same);
/// # Ok::<(), Box<dyn std::error::Error>>(())
/// ```
pub fn compare_ignoring(
    one: &[u8],
    other: &[u8],
    words: &[&str],
    limits: Limits,
) -> Result<Comparison, Error> {
    compared_ignoring(sys::bootimg_compare_ignoring, one, other, words, limits)
}

/// Returns what `compare_ignoring` says, with the differences as one JSON text and a newline.
///
/// # Errors
///
/// Those of `compare_ignoring`.
pub fn compare_ignoring_json(
    one: &[u8],
    other: &[u8],
    words: &[&str],
    limits: Limits,
) -> Result<Comparison, Error> {
    compared_ignoring(
        sys::bootimg_compare_ignoring_json,
        one,
        other,
        words,
        limits,
    )
}

/// Returns what `compare_ignoring` says, but of the deep descriptions of both files, as
/// `bootimg compare --deep` does. A word for something inside a payload opens it, if it is a
/// devicetree in both files: then it is compared without what the words leave out, and not by its
/// bytes. There may be no words.
///
/// # Errors
///
/// Those of `compare_ignoring`, but it is the deep descriptions that may be too long.
///
/// ```
/// # use bootimg::{compare_deep, Limits};
/// # let image = std::fs::read(concat!(env!("CARGO_MANIFEST_DIR"), "/../examples/board.itb"))?;
/// assert!(compare_deep(&image, &image, &["/images/fdt-1//chosen"], Limits::default())?.same);
/// # Ok::<(), Box<dyn std::error::Error>>(())
/// ```
pub fn compare_deep(
    one: &[u8],
    other: &[u8],
    words: &[&str],
    limits: Limits,
) -> Result<Comparison, Error> {
    compared_ignoring(sys::bootimg_compare_deep, one, other, words, limits)
}

/// Returns what `compare_deep` says, with the differences as one JSON text and a newline.
///
/// # Errors
///
/// Those of `compare_deep`.
pub fn compare_deep_json(
    one: &[u8],
    other: &[u8],
    words: &[&str],
    limits: Limits,
) -> Result<Comparison, Error> {
    compared_ignoring(sys::bootimg_compare_deep_json, one, other, words, limits)
}

/// Returns whether two files mean the same thing.
///
/// # Errors
///
/// Those of reading the files.
pub fn same_meaning(one: &[u8], other: &[u8], limits: Limits) -> Result<bool, Error> {
    let answer = answer_of(|answer| {
        // Safety: the files are as long as their lengths, and `answer_of` passes a struct of the
        // library's.
        unsafe {
            sys::bootimg_same_meaning(
                one.as_ptr(),
                one.len(),
                other.as_ptr(),
                other.len(),
                limits.limit,
                limits.depth,
                answer,
            )
        }
    })?;
    Ok(answer.value == 1)
}
