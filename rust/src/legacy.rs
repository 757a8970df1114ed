//! Legacy images.

use crate::calls::{bytes_of, fields_of, fill_of};
use crate::{sys, Error, Limits};

/// The fields of the header of a legacy image. The codes are those of U-Boot.
#[derive(Clone, Copy, Debug, Default, PartialEq, Eq)]
pub struct Header<'a> {
    /// The name: at most 32 bytes, none of them zero.
    pub name: &'a [u8],
    /// The time of creation, in seconds since 1970.
    pub time: u32,
    /// The address that the data is loaded to.
    pub load: u32,
    /// The address of the entry point.
    pub entry: u32,
    /// The code of the operating system.
    pub os: u8,
    /// The code of the processor architecture.
    pub arch: u8,
    /// The code of the image type.
    pub image_type: u8,
    /// The code of the compression.
    pub compression: u8,
}

/// A legacy image in memory.
#[derive(Clone, Debug, PartialEq, Eq)]
#[non_exhaustive]
pub struct Legacy<'a> {
    /// The fields of the header.
    pub header: Header<'a>,
    /// The parts. An image of a type other than multi and script has one.
    pub parts: Vec<&'a [u8]>,
    /// The offset in the file of the first byte of each part.
    pub offsets: Vec<usize>,
    /// The number of bytes of the file after the last part.
    pub unused: usize,
}

impl<'a> Legacy<'a> {
    /// Reads a legacy image. The file may be longer than it.
    ///
    /// # Errors
    ///
    /// `Refused`: TooLarge if the file is longer than the limit, or else the cause of the first
    /// check of the format that fails. BadMagic at 0 for a file that is not a legacy image.
    pub fn read(file: &'a [u8], limits: Limits) -> Result<Legacy<'a>, Error> {
        let fields = fields_of(sys::bootimg_legacy, file, limits)?;
        let (regions, unused) = fill_of(sys::bootimg_parts, 16, file, limits)?;
        Ok(Legacy {
            header: header_of(file, &fields),
            parts: regions
                .iter()
                .map(|&region| bytes_of(file, region))
                .collect(),
            offsets: regions.iter().map(|region| region.offset).collect(),
            unused,
        })
    }
}

/// Returns the fields of the header of a file.
fn header_of<'a>(file: &'a [u8], fields: &sys::LegacyFields) -> Header<'a> {
    Header {
        name: bytes_of(file, fields.name),
        time: fields.time,
        load: fields.load,
        entry: fields.entry,
        os: fields.os,
        arch: fields.arch,
        image_type: fields.image_type,
        compression: fields.compression,
    }
}
