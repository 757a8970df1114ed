//! Why a call fails.

use crate::calls::{fill, text_of};
use crate::sys;
use std::fmt;

/// Why a file is refused.
#[derive(Clone, Copy, Debug, PartialEq, Eq)]
#[non_exhaustive]
#[allow(missing_docs)]
pub enum Cause {
    /// A cause of a later version of the library.
    Unknown = 0,
    Truncated,
    BadMagic,
    BadHeaderCrc,
    BadDataCrc,
    BadPartTable,
    BadPart,
    BadTotalSize,
    BadVersion,
    BadOffset,
    BadToken,
    BadName,
    BadNameOffset,
    PropertyAfterChild,
    DuplicateProperty,
    DuplicateNode,
    TooDeep,
    NoImages,
    BadCell,
    NoSize,
    OutsideFile,
    TooLarge,
    NoCodeName,
    TooManyParts,
    EmptyPart,
    BadField,
    Unsupported,
}

impl Cause {
    /// All causes, by their numbers from 1 on.
    pub const ALL: [Cause; 26] = [
        Cause::Truncated,
        Cause::BadMagic,
        Cause::BadHeaderCrc,
        Cause::BadDataCrc,
        Cause::BadPartTable,
        Cause::BadPart,
        Cause::BadTotalSize,
        Cause::BadVersion,
        Cause::BadOffset,
        Cause::BadToken,
        Cause::BadName,
        Cause::BadNameOffset,
        Cause::PropertyAfterChild,
        Cause::DuplicateProperty,
        Cause::DuplicateNode,
        Cause::TooDeep,
        Cause::NoImages,
        Cause::BadCell,
        Cause::NoSize,
        Cause::OutsideFile,
        Cause::TooLarge,
        Cause::NoCodeName,
        Cause::TooManyParts,
        Cause::EmptyPart,
        Cause::BadField,
        Cause::Unsupported,
    ];

    /// Returns what the cause means, and what a user can do. The text is empty for `Unknown`.
    pub fn explanation(self) -> String {
        let call = |buffer: *mut u8, room, answer: *mut _| {
            // Safety: `fill` passes a buffer and its length.
            unsafe { sys::bootimg_explain(self as u32, buffer, room, answer) }
        };
        fill(512, call)
            .map(|(text, _)| text_of(text))
            .unwrap_or_default()
    }

    /// Returns the cause with a number of the library.
    fn from_number(number: u32) -> Cause {
        Cause::ALL
            .into_iter()
            .find(|&cause| cause as u32 == number)
            .unwrap_or(Cause::Unknown)
    }
}

impl fmt::Display for Cause {
    fn fmt(&self, formatter: &mut fmt::Formatter<'_>) -> fmt::Result {
        fmt::Debug::fmt(self, formatter)
    }
}

/// A file is refused: why, and where.
#[derive(Clone, Copy, Debug, PartialEq, Eq)]
pub struct Refusal {
    /// The cause.
    pub cause: Cause,
    /// Its offset in the file in bytes. For TooLarge it is the limit, and for `build_fit` the index
    /// of an image.
    pub offset: u32,
    /// The index of the file in the call, counted from 1.
    pub file: u32,
}

impl fmt::Display for Refusal {
    fn fmt(&self, formatter: &mut fmt::Formatter<'_>) -> fmt::Result {
        write!(formatter, "{} at {}", self.cause, self.offset)
    }
}

impl std::error::Error for Refusal {}

/// An argument that is out of its range. Of several that are, it is the first of these.
#[derive(Clone, Copy, Debug, PartialEq, Eq)]
#[non_exhaustive]
pub enum Argument {
    /// The greatest number of bytes.
    Limit,
    /// The greatest depth of a FIT.
    Depth,
    /// The form of a FIT.
    Form,
    /// The name of a value.
    Value,
    /// Another argument. No call of this crate passes a wrong one to the library.
    Other,
}

impl Argument {
    /// Returns the argument with a number of the library.
    fn from_number(number: u32) -> Argument {
        match number {
            2 => Argument::Limit,
            3 => Argument::Depth,
            4 => Argument::Form,
            12 => Argument::Value,
            _ => Argument::Other,
        }
    }
}

impl fmt::Display for Argument {
    fn fmt(&self, formatter: &mut fmt::Formatter<'_>) -> fmt::Result {
        formatter.write_str(match self {
            Argument::Limit => "limit",
            Argument::Depth => "depth",
            Argument::Form => "form",
            Argument::Value => "value",
            Argument::Other => "another argument",
        })
    }
}

/// Why a call fails.
#[derive(Clone, Copy, Debug, PartialEq, Eq)]
#[non_exhaustive]
pub enum Error {
    /// A file is refused.
    Refused(Refusal),
    /// An allocation failed.
    OutOfMemory,
    /// An argument is out of its range.
    WrongArgument(Argument),
    /// No configuration has the name.
    NoConfiguration,
    /// The configuration does not have the key.
    NoKey,
    /// The value of the key is not a list of names.
    BadList,
    /// No image has the name at this index of the list, counted from 0. It is the first such name.
    MissingImage(usize),
    /// No node has the path.
    NoNode,
    /// The node has no property with the name.
    NoProperty,
    /// A field is named of a FIT, or a property of a legacy image; or an edit is of the other kind of
    /// image.
    WrongKind,
    /// The value is not one or more texts.
    NoText,
    /// The value is not a number.
    NoNumber,
    /// The word at this index, counted from 0, names nothing that can be left out. It is the first
    /// such word.
    BadWord(usize),
    /// The word of the edit at this index, counted from 0, is for no edit. It is the first such one.
    BadEdit(usize),
    /// The edit at this index, counted from 0, finds nothing to remove, no image or no part. It is
    /// the first such one in the order in which edits are made.
    FindsNothing(usize),
    /// A status of a later version of the library.
    Unknown,
}

impl fmt::Display for Error {
    fn fmt(&self, formatter: &mut fmt::Formatter<'_>) -> fmt::Result {
        match self {
            Error::Refused(refusal) => refusal.fmt(formatter),
            Error::OutOfMemory => formatter.write_str("out of memory"),
            Error::WrongArgument(argument) => write!(formatter, "wrong argument: {argument}"),
            Error::NoConfiguration => formatter.write_str("no such configuration"),
            Error::NoKey => formatter.write_str("no such key"),
            Error::BadList => formatter.write_str("bad list"),
            Error::MissingImage(index) => write!(formatter, "missing image {index}"),
            Error::NoNode => formatter.write_str("no such node"),
            Error::NoProperty => formatter.write_str("no such property"),
            Error::WrongKind => formatter.write_str("another kind of image"),
            Error::NoText => formatter.write_str("no text"),
            Error::NoNumber => formatter.write_str("no number"),
            Error::BadWord(index) => write!(formatter, "bad word {index}"),
            Error::BadEdit(index) => write!(formatter, "bad edit {index}"),
            Error::FindsNothing(index) => write!(formatter, "edit {index} finds nothing"),
            Error::Unknown => formatter.write_str("unknown status"),
        }
    }
}

impl std::error::Error for Error {}

impl From<Refusal> for Error {
    fn from(refusal: Refusal) -> Error {
        Error::Refused(refusal)
    }
}

/// Returns the error of a call that failed with this status.
pub(crate) fn failure(status: u32, answer: &sys::Answer) -> Error {
    match (status, answer.reason) {
        (sys::REFUSED, _) => Error::Refused(Refusal {
            cause: Cause::from_number(answer.cause),
            offset: answer.offset,
            file: answer.file,
        }),
        (sys::OUT_OF_MEMORY, _) => Error::OutOfMemory,
        (sys::WRONG_ARGUMENT, number) => Error::WrongArgument(Argument::from_number(number)),
        (_, 1) => Error::WrongKind,
        (_, 4) => Error::NoConfiguration,
        (_, 5) => Error::NoKey,
        (_, 6) => Error::BadList,
        (_, 7) => Error::MissingImage(answer.value),
        (_, 10) => Error::NoNode,
        (_, 11) => Error::NoProperty,
        (_, 12) => Error::NoText,
        (_, 13) => Error::NoNumber,
        (_, 16) => Error::BadWord(answer.value),
        (_, 17) => Error::BadEdit(answer.value),
        (_, 18) => Error::FindsNothing(answer.value),
        _ => Error::Unknown,
    }
}

#[cfg(test)]
mod tests {
    use super::Cause;
    use crate::calls::{fill, text_of};
    use crate::sys;

    #[test]
    fn causes_have_the_names_of_the_library() {
        for (number, cause) in (1..).zip(Cause::ALL) {
            // Safety: `fill` passes a buffer and its length.
            let name = fill(16, |buffer: *mut u8, room, answer| unsafe {
                sys::bootimg_cause_name(number, buffer, room, answer)
            });
            assert_eq!(text_of(name.unwrap().0), cause.to_string());
            assert_eq!(Cause::from_number(number), cause);
        }
        assert_eq!(Cause::from_number(27), Cause::Unknown);
    }

    #[test]
    fn each_cause_is_explained() {
        assert!(Cause::ALL
            .iter()
            .all(|cause| cause.explanation().ends_with('.')));
        assert_eq!(Cause::Unknown.explanation(), "");
    }
}
