//! The declarations of `include/bootimg.h`.

/// What a call returns in addition to its status.
#[repr(C)]
#[derive(Clone, Copy, Debug, Default)]
pub struct Answer {
    pub size: usize,
    pub value: usize,
    pub cause: u32,
    pub offset: u32,
    pub file: u32,
    pub reason: u32,
}

/// Where bytes of a file are.
#[repr(C)]
#[derive(Clone, Copy, Debug, Default, PartialEq, Eq)]
pub struct Region {
    pub offset: usize,
    pub size: usize,
}

/// The fields of the header of a legacy image.
#[repr(C)]
#[derive(Clone, Copy, Debug, Default)]
pub struct LegacyFields {
    pub name: Region,
    pub time: u32,
    pub load: u32,
    pub entry: u32,
    pub os: u8,
    pub arch: u8,
    pub image_type: u8,
    pub compression: u8,
}

/// The numbers in the notes on a normal form.
#[repr(C)]
#[derive(Clone, Copy, Debug, Default)]
pub struct NoteNumbers {
    pub signatures: usize,
    pub lost_positions: usize,
    pub lost_alignment: u32,
}

/// An edit of a file.
#[repr(C)]
#[derive(Clone, Copy, Debug, Default)]
pub struct Edit {
    pub word: Region,
    pub payload: Region,
    pub kind: u32,
    pub number: u32,
}

/// The numbers in the notes on an edited file.
#[repr(C)]
#[derive(Clone, Copy, Debug, Default)]
pub struct EditNoteNumbers {
    pub signatures: usize,
    pub lost_positions: usize,
    pub inside: usize,
    pub lost_alignment: u32,
}

/// The fields of the blob of a FIT.
#[repr(C)]
#[derive(Clone, Copy, Debug, Default)]
pub struct FitFields {
    pub boot_cpu: u32,
    pub total_size: u32,
}

/// A memory reservation of a FIT.
#[repr(C)]
#[derive(Clone, Copy, Debug, Default, PartialEq, Eq)]
pub struct Reservation {
    /// The address of the first byte.
    pub address: u64,
    /// The number of bytes.
    pub size: u64,
}

/// An image of a FIT.
#[repr(C)]
#[derive(Clone, Copy, Debug, Default)]
pub struct Image {
    pub name: Region,
    pub payload: Region,
    pub place: u32,
}

/// A hash node of an image of a FIT.
#[repr(C)]
#[derive(Clone, Copy, Debug, Default)]
pub struct Hash {
    pub image: Region,
    pub node: Region,
    pub algorithm: Region,
    pub value: Region,
    pub verdict: u32,
}

/// A concern about a file.
#[repr(C)]
#[derive(Clone, Copy, Debug, Default)]
pub struct Concern {
    pub name: Region,
    pub node: Region,
    pub algorithm: Region,
    pub index: usize,
    pub size: usize,
    pub kind: u32,
    pub verdict: u32,
    pub key: u32,
}

/// A property of a node of a FIT.
#[repr(C)]
#[derive(Clone, Copy, Debug, Default)]
pub struct Property {
    pub name: Region,
    pub value: Region,
}

/// A node of a FIT, or a property of the last node before it.
#[repr(C)]
#[derive(Clone, Copy, Debug, Default)]
pub struct TreeElement {
    pub name: Region,
    pub value: Region,
    pub depth: u32,
    pub kind: u32,
}

/// An image of a FIT to be built.
#[repr(C)]
#[derive(Clone, Copy, Debug, Default)]
pub struct BuildImage {
    pub name: Region,
    pub payload: Region,
    pub load: u32,
    pub entry: u32,
    pub addresses: u32,
    pub os: u8,
    pub arch: u8,
    pub image_type: u8,
    pub compression: u8,
}

/// Some of the elements of an array, one after another.
#[repr(C)]
#[derive(Clone, Copy, Debug, Default)]
pub struct Range {
    pub first: usize,
    pub count: usize,
}

/// What is given of an image of a FIT to be built in addition to its codes.
#[repr(C)]
#[derive(Clone, Copy, Debug, Default)]
pub struct BuildTexts {
    pub description: Region,
    pub image_type: Region,
    pub arch: Region,
    pub os: Region,
    pub compression: Region,
    pub given: u32,
}

/// A configuration of a FIT to be built.
#[repr(C)]
#[derive(Clone, Copy, Debug, Default)]
pub struct BuildConfiguration {
    pub name: Region,
    pub description: Region,
    pub compatible: Range,
    pub kernel: Range,
    pub fdt: Range,
    pub ramdisk: Range,
    pub firmware: Range,
    pub loadables: Range,
    pub script: Range,
    pub given: u32,
}

/// The options of building a FIT.
#[repr(C)]
#[derive(Clone, Copy, Debug, Default)]
pub struct BuildOptions {
    pub size: usize,
    pub description: Region,
    pub default_name: Region,
    pub time: u32,
    pub form: u32,
    pub limit: u32,
    pub depth: u32,
    pub given: u32,
}

pub const DONE: u32 = 0;
pub const REFUSED: u32 = 1;
pub const OUT_OF_MEMORY: u32 = 2;
pub const NO_ROOM: u32 = 3;
pub const WRONG_ARGUMENT: u32 = 4;

pub const ELEMENT_PROPERTY: u32 = 2;

pub const CONCERN_BAD_HASH: u32 = 1;
pub const CONCERN_UNHASHED: u32 = 2;
pub const CONCERN_WEAK_HASH: u32 = 4;
pub const CONCERN_BAD_LIST: u32 = 8;
pub const CONCERN_MISSING: u32 = 16;
pub const CONCERN_BAD_DEFAULT: u32 = 32;
pub const CONCERN_TRAILING: u32 = 64;
pub const CONCERN_SKIPPED_HASH: u32 = 128;
pub const SIGNED: u32 = 32768;
/// Each kind of concerns is allowed but that of skipped hash nodes.
pub const SKIPPED_ALONE: u32 = (SIGNED - 1) ^ CONCERN_SKIPPED_HASH;

/// The first byte of a file, a name or a path.
pub type Bytes = *const u8;

/// A call on one file that has an array.
pub type OnFile<T> =
    unsafe extern "C" fn(Bytes, usize, u32, u32, *mut T, usize, *mut Answer) -> u32;

/// A call on one file that has a number and an array.
pub type OnFileWithNumber<T> =
    unsafe extern "C" fn(Bytes, usize, u32, u32, u32, *mut T, usize, *mut Answer) -> u32;

/// A call on two files, or on a file and a path, that has an array.
pub type OnTwo<T> =
    unsafe extern "C" fn(Bytes, usize, Bytes, usize, u32, u32, *mut T, usize, *mut Answer) -> u32;

/// A call on two files, with regions of an input, that has an array.
pub type OnTwoWithRegions<T> = unsafe extern "C" fn(
    Bytes,
    usize,
    Bytes,
    usize,
    Bytes,
    usize,
    *const Region,
    usize,
    u32,
    u32,
    *mut T,
    usize,
    *mut Answer,
) -> u32;

/// A call on one file that sets a struct.
pub type Setting<T> = unsafe extern "C" fn(Bytes, usize, u32, u32, *mut T, *mut Answer) -> u32;

/// Declares calls by the types of their arguments, without the struct that each of them sets.
macro_rules! declare {
    ($($(#[$attribute:meta])? $call:ident($($argument:ty),*);)*) => {
        extern "C" {
            $($(#[$attribute])? pub fn $call($(_: $argument,)* answer: *mut Answer) -> u32;)*
        }
    };
}

declare! {
    bootimg_kind(Bytes, usize);
    bootimg_normalise(Bytes, usize, u32, u32, u32, *mut u8, usize);
    bootimg_update(Bytes, usize, u32, u32, u32, u32, u32, *mut u8, usize);
    bootimg_notes(Bytes, usize, u32, u32, u32, u32, u32, *mut NoteNumbers);
    bootimg_edit(
        Bytes, usize, Bytes, usize, *const Edit, usize, u32, u32, u32, *mut u8, usize
    );
    bootimg_edit_notes(
        Bytes, usize, Bytes, usize, *const Edit, usize, u32, u32, u32, *mut EditNoteNumbers
    );
    bootimg_legacy(Bytes, usize, u32, u32, *mut LegacyFields);
    bootimg_parts(Bytes, usize, u32, u32, *mut Region, usize);
    bootimg_fit(Bytes, usize, u32, u32, *mut FitFields);
    bootimg_reservations(Bytes, usize, u32, u32, *mut Reservation, usize);
    bootimg_images(Bytes, usize, u32, u32, *mut Image, usize);
    bootimg_configurations(Bytes, usize, u32, u32, *mut Region, usize);
    bootimg_listed(Bytes, usize, Bytes, usize, u32, u32, u32, *mut usize, usize);
    bootimg_verdicts(Bytes, usize, u32, u32, *mut Hash, usize);
    bootimg_concerns(Bytes, usize, u32, u32, u32, *mut Concern, usize);
    bootimg_children(Bytes, usize, Bytes, usize, u32, u32, *mut Region, usize);
    bootimg_properties(Bytes, usize, Bytes, usize, u32, u32, *mut Property, usize);
    bootimg_property_value(Bytes, usize, Bytes, usize, Bytes, usize, u32, u32);
    bootimg_nodes(Bytes, usize, u32, u32, *mut TreeElement, usize);
    bootimg_get(Bytes, usize, Bytes, usize, Bytes, usize, u32, u32, u32, *mut u8, usize);
    bootimg_same_meaning(Bytes, usize, Bytes, usize, u32, u32);
    bootimg_list(Bytes, usize, u32, u32, *mut u8, usize);
    bootimg_scan(Bytes, usize, u32, u32, *mut u8, usize);
    bootimg_describe(Bytes, usize, u32, u32, *mut u8, usize);
    bootimg_describe_deep(Bytes, usize, u32, u32, *mut u8, usize);
    bootimg_show(Bytes, usize, u32, u32, u32, *mut u8, usize);
    bootimg_verify(Bytes, usize, u32, u32, *mut u8, usize);
    bootimg_check(Bytes, usize, u32, u32, u32, *mut u8, usize);
    bootimg_compare(Bytes, usize, Bytes, usize, u32, u32, *mut u8, usize);
    bootimg_compare_ignoring(
        Bytes, usize, Bytes, usize, Bytes, usize, *const Region, usize, u32, u32, *mut u8, usize
    );
    bootimg_compare_deep(
        Bytes, usize, Bytes, usize, Bytes, usize, *const Region, usize, u32, u32, *mut u8, usize
    );
    bootimg_list_json(Bytes, usize, u32, u32, *mut u8, usize);
    bootimg_scan_json(Bytes, usize, u32, u32, *mut u8, usize);
    bootimg_show_json(Bytes, usize, u32, u32, *mut u8, usize);
    bootimg_describe_json(Bytes, usize, u32, u32, *mut u8, usize);
    bootimg_describe_deep_json(Bytes, usize, u32, u32, *mut u8, usize);
    bootimg_verify_json(Bytes, usize, u32, u32, *mut u8, usize);
    bootimg_check_json(Bytes, usize, u32, u32, u32, *mut u8, usize);
    bootimg_compare_json(Bytes, usize, Bytes, usize, u32, u32, *mut u8, usize);
    bootimg_compare_ignoring_json(
        Bytes, usize, Bytes, usize, Bytes, usize, *const Region, usize, u32, u32, *mut u8, usize
    );
    bootimg_compare_deep_json(
        Bytes, usize, Bytes, usize, Bytes, usize, *const Region, usize, u32, u32, *mut u8, usize
    );
    bootimg_convert(Bytes, usize, u32, u32, *mut u8, usize);
    bootimg_build_legacy(
        Bytes, usize, *const LegacyFields, *const Region, usize, u32, u32, *mut u8, usize
    );
    bootimg_build_fit(
        Bytes, usize, Bytes, usize, u32, *const BuildImage, usize, u32, u32, u32, *mut u8, usize
    );
    bootimg_build_fit_as(
        Bytes, usize, *const BuildOptions, *const BuildImage, usize, *const BuildTexts, usize,
        *const BuildConfiguration, usize, *const Region, usize, *const u32, usize, *mut u8, usize
    );
    bootimg_code_name(u32, u32, *mut u8, usize);
    bootimg_code_number(u32, Bytes, usize);
    #[cfg(test)]
    bootimg_cause_name(u32, *mut u8, usize);
    bootimg_explain(u32, *mut u8, usize);
    bootimg_version(*mut u8, usize);
}
