//! Single values.

use crate::calls::fill;
use crate::{sys, Error, Limits};

/// Where a value is.
#[derive(Clone, Copy, Debug, PartialEq, Eq)]
pub enum Value<'a> {
    /// A property of a node of a FIT: the path of the node, and the name of the property, both as
    /// `describe` prints them.
    Property(&'a str, &'a str),
    /// A field of a legacy image: `name`, `time`, `load`, `entry`, `os`, `arch`, `type` or
    /// `compression`.
    Field(&'a str),
}

/// How a value is written.
#[derive(Clone, Copy, Debug, Default, PartialEq, Eq)]
pub enum ValueForm {
    /// A line, as `describe` or `listing` prints it.
    #[default]
    Shown,
    /// A line for each of its texts, without quotes.
    Text,
    /// A line: `0x` and hexadecimal digits.
    Number,
    /// The bytes, without a newline.
    Raw,
}

/// Returns a single value, as the command `get` prints it.
///
/// # Errors
///
/// `WrongArgument` if there is no value of this name. Those of reading the file. `WrongKind`,
/// `NoProperty`, `NoText`, `NoNumber`.
pub fn get(
    file: &[u8],
    value: Value,
    form: ValueForm,
    Limits { limit, depth }: Limits,
) -> Result<Vec<u8>, Error> {
    let (place, name) = match value {
        Value::Property(path, name) => (path.as_bytes(), name.as_bytes()),
        Value::Field(word) => (word.as_bytes(), &b""[..]),
    };
    let (bytes, _) = fill(256, |buffer: *mut u8, room, answer| {
        // Safety: the file and the words are as long as their lengths, and `fill` passes a buffer
        // and its length.
        unsafe {
            sys::bootimg_get(
                file.as_ptr(),
                file.len(),
                place.as_ptr(),
                place.len(),
                name.as_ptr(),
                name.len(),
                form as u32,
                limit,
                depth,
                buffer,
                room,
                answer,
            )
        }
    })?;
    Ok(bytes)
}
