//! The names of the codes of U-Boot.

use crate::calls::{answer_of, fill, text_of};
use crate::sys;
use std::fmt;

/// A field of the header of a legacy image that contains a code.
#[derive(Clone, Copy, Debug, PartialEq, Eq)]
#[allow(missing_docs)]
pub enum CodeField {
    Os,
    Arch,
    ImageType,
    Compression,
}

impl CodeField {
    /// All fields, in the order of the header.
    pub const ALL: [CodeField; 4] = [
        CodeField::Os,
        CodeField::Arch,
        CodeField::ImageType,
        CodeField::Compression,
    ];

    /// Returns the name of a code of this field, as `bootimg build-legacy` takes it, if it has one.
    ///
    /// ```
    /// use bootimg::CodeField;
    ///
    /// assert_eq!(CodeField::Arch.name(22).as_deref(), Some("arm64"));
    /// assert_eq!(CodeField::Arch.code("arm64"), Some(22));
    /// ```
    pub fn name(self, code: u8) -> Option<String> {
        let call = |buffer: *mut u8, room, answer: *mut _| {
            // Safety: `fill` passes a buffer and its length.
            unsafe { sys::bootimg_code_name(self as u32, code.into(), buffer, room, answer) }
        };
        Some(text_of(fill(32, call).ok()?.0))
    }

    /// Returns the code of this field that has the given name, one that `bootimg build-legacy`
    /// takes, if there is one.
    pub fn code(self, name: &str) -> Option<u8> {
        let call = |answer: *mut _| {
            // Safety: the name is as long as its length, and `answer_of` passes a struct of the
            // library's.
            unsafe { sys::bootimg_code_number(self as u32, name.as_ptr(), name.len(), answer) }
        };
        u8::try_from(answer_of(call).ok()?.value).ok()
    }
}

impl fmt::Display for CodeField {
    /// Writes the word of the field in a listing.
    fn fmt(&self, formatter: &mut fmt::Formatter<'_>) -> fmt::Result {
        formatter.pad(match self {
            CodeField::Os => "os",
            CodeField::Arch => "arch",
            CodeField::ImageType => "type",
            CodeField::Compression => "compression",
        })
    }
}
