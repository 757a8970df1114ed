//! Calls of the library.

use crate::error::failure;
use crate::{sys, Error, Limits};

/// Makes a call, and returns the struct that it sets.
pub fn answer_of(call: impl FnOnce(*mut sys::Answer) -> u32) -> Result<sys::Answer, Error> {
    let mut answer = sys::Answer::default();
    match call(&mut answer) {
        sys::DONE => Ok(answer),
        status => Err(failure(status, &answer)),
    }
}

/// Makes a call with an array of `room` elements, or of as many as there are if that is more, and
/// returns the elements and the number that it returns.
pub fn fill<T: Clone + Default>(
    room: usize,
    call: impl Fn(*mut T, usize, *mut sys::Answer) -> u32,
) -> Result<(Vec<T>, usize), Error> {
    let mut elements = vec![T::default(); room];
    loop {
        let mut answer = sys::Answer::default();
        let status = call(elements.as_mut_ptr(), elements.len(), &mut answer);
        match status {
            sys::DONE => {
                elements.truncate(answer.size);
                return Ok((elements, answer.value));
            }
            sys::NO_ROOM => elements.resize(answer.size, T::default()),
            _ => return Err(failure(status, &answer)),
        }
    }
}

/// Makes a call on one file, as `fill` does.
pub fn fill_of<T: Clone + Default>(
    call: sys::OnFile<T>,
    room: usize,
    file: &[u8],
    Limits { limit, depth }: Limits,
) -> Result<(Vec<T>, usize), Error> {
    fill(room, |array, room, answer| {
        // Safety: the file is as long as its length, and `fill` passes an array and its length.
        unsafe { call(file.as_ptr(), file.len(), limit, depth, array, room, answer) }
    })
}

/// Makes a call on one file with a number, as `fill` does.
pub fn fill_with_number<T: Clone + Default>(
    call: sys::OnFileWithNumber<T>,
    number: u32,
    room: usize,
    file: &[u8],
    Limits { limit, depth }: Limits,
) -> Result<(Vec<T>, usize), Error> {
    let (bytes, size) = (file.as_ptr(), file.len());
    fill(room, |array, room, answer| {
        // Safety: the file is as long as its length, and `fill` passes an array and its length.
        unsafe { call(bytes, size, number, limit, depth, array, room, answer) }
    })
}

/// Makes a call on two files, or on a file and a path, as `fill` does.
pub fn fill_of_two<T: Clone + Default>(
    call: sys::OnTwo<T>,
    room: usize,
    one: &[u8],
    other: &[u8],
    Limits { limit, depth }: Limits,
) -> Result<(Vec<T>, usize), Error> {
    let (one, size) = (one.as_ptr(), one.len());
    let (other, more) = (other.as_ptr(), other.len());
    fill(room, |array, room, answer| {
        // Safety: the files are as long as their lengths, and `fill` passes an array and its
        // length.
        unsafe { call(one, size, other, more, limit, depth, array, room, answer) }
    })
}

/// Returns a struct that a call on one file sets.
pub fn fields_of<T: Default>(
    call: sys::Setting<T>,
    file: &[u8],
    Limits { limit, depth }: Limits,
) -> Result<T, Error> {
    let mut fields = T::default();
    answer_of(|answer| {
        // Safety: the file is as long as its length, and the structs are those of the library.
        unsafe { call(file.as_ptr(), file.len(), limit, depth, &mut fields, answer) }
    })?;
    Ok(fields)
}

/// Returns the bytes of a file in a region that the library returned for it.
pub fn bytes_of(file: &[u8], region: sys::Region) -> &[u8] {
    &file[region.offset..][..region.size]
}

/// Returns the bytes of a file in a region that the library returned for it, if there is one.
pub fn found(file: &[u8], region: sys::Region) -> Option<&[u8]> {
    (region.offset != 0).then(|| bytes_of(file, region))
}

/// Returns a text of the library, which is ASCII.
pub fn text_of(bytes: Vec<u8>) -> String {
    String::from_utf8(bytes).expect("the texts of the library are ASCII")
}
