//! Images that are built of memory.

use crate::calls::fill;
use crate::{sys, Error, Form, Header, Limits};

/// An image of a FIT to be built. The codes are those of U-Boot.
#[derive(Clone, Copy, Debug, Default, PartialEq, Eq)]
pub struct BuildImage<'a> {
    /// The name: at least one byte, none of them zero or a `/`.
    pub name: &'a [u8],
    /// The payload.
    pub payload: &'a [u8],
    /// The address that the payload is loaded to, if there is one.
    pub load: Option<u32>,
    /// The address of the entry point, if there is one.
    pub entry: Option<u32>,
    /// The code of the operating system.
    pub os: u8,
    /// The code of the processor architecture.
    pub arch: u8,
    /// The code of the image type.
    pub image_type: u8,
    /// The code of the compression.
    pub compression: u8,
}

/// Texts in the node of an image of a FIT to be built, instead of the names of its codes.
#[derive(Clone, Copy, Debug, PartialEq, Eq)]
pub struct BuildTexts<'a> {
    /// The image type.
    pub image_type: &'a [u8],
    /// The processor architecture.
    pub arch: &'a [u8],
    /// The operating system.
    pub os: &'a [u8],
    /// The compression.
    pub compression: &'a [u8],
}

/// A configuration of a FIT to be built: the names of the images that it lists under each key.
#[derive(Clone, Copy, Debug, Default, PartialEq, Eq)]
pub struct BuildConfiguration<'a> {
    /// The name: at least one byte, none of them zero or a `/`.
    pub name: &'a [u8],
    /// The description, if it has another one than the tree.
    pub description: Option<&'a [u8]>,
    /// The boards that it is for.
    pub compatible: &'a [&'a [u8]],
    /// The images under `kernel`.
    pub kernel: &'a [&'a [u8]],
    /// The images under `fdt`.
    pub fdt: &'a [&'a [u8]],
    /// The images under `ramdisk`.
    pub ramdisk: &'a [&'a [u8]],
    /// The images under `firmware`.
    pub firmware: &'a [&'a [u8]],
    /// The images under `loadables`.
    pub loadables: &'a [&'a [u8]],
    /// The images under `script`.
    pub script: &'a [&'a [u8]],
}

/// An algorithm of a hash node.
#[derive(Clone, Copy, Debug, PartialEq, Eq)]
#[allow(missing_docs)]
pub enum Algorithm {
    Crc32,
    Md5,
    Sha1,
    Sha256,
    Sha384,
    Sha512,
}

/// The configurations and the hash nodes of a FIT to be built, and what its images have of their
/// own. By default there is nothing but one SHA-256 of each image.
#[derive(Clone, Copy, Debug, PartialEq, Eq)]
pub struct Plan<'a> {
    /// The configurations. If there are none, one, `conf-1`, lists the images by their types.
    pub configurations: &'a [BuildConfiguration<'a>],
    /// The name of the default configuration, if it is not the first one.
    pub default: Option<&'a [u8]>,
    /// The algorithms of the hash nodes of each image, in their order.
    pub algorithms: &'a [Algorithm],
    /// For each image in order: texts instead of its codes, if it has some. Images without an
    /// element have none.
    pub texts: &'a [Option<BuildTexts<'a>>],
    /// For each image in order: its description, if it has another one than the tree. Images
    /// without an element have none.
    pub descriptions: &'a [Option<&'a [u8]>],
}

impl Default for Plan<'_> {
    fn default() -> Self {
        Plan {
            configurations: &[],
            default: None,
            algorithms: &[Algorithm::Sha256],
            texts: &[],
            descriptions: &[],
        }
    }
}

/// Returns the legacy image with these fields and parts. The parts are copied.
///
/// # Errors
///
/// `Refused`, with the offset in the image: BadField if the name cannot be written, or if there is
/// not exactly one part and the type is neither multi (4) nor script (6); EmptyPart for an empty
/// part of those; TooLarge if the image is longer than the limit. `OutOfMemory`.
pub fn build_legacy(
    header: &Header<'_>,
    parts: &[&[u8]],
    limits: Limits,
) -> Result<Vec<u8>, Error> {
    let mut input = Vec::new();
    let fields = sys::LegacyFields {
        name: add_piece(&mut input, header.name),
        time: header.time,
        load: header.load,
        entry: header.entry,
        os: header.os,
        arch: header.arch,
        image_type: header.image_type,
        compression: header.compression,
    };
    let regions: Vec<_> = parts
        .iter()
        .map(|part| add_piece(&mut input, part))
        .collect();
    build_of(&input, |buffer, room, answer| {
        // Safety: the input and the regions are as long as their lengths, and `build_of` passes a
        // buffer and its length.
        unsafe {
            sys::bootimg_build_legacy(
                input.as_ptr(),
                input.len(),
                &fields,
                regions.as_ptr(),
                regions.len(),
                limits.limit,
                limits.depth,
                buffer,
                room,
                answer,
            )
        }
    })
}

/// Returns a FIT with these images, each with the SHA-256 of its payload, and one configuration,
/// `conf-1`, which lists the images by their types. The description is that of the tree, of each
/// image and of the configuration. The time of creation is in seconds since 1970. The payloads are
/// copied.
///
/// # Errors
///
/// `Refused`: TooLarge if there are more images than the limit; BadField at 0 if the description has
/// a zero byte; for each image in order, at its index: BadField if its name is empty or has a zero
/// byte or a `/`, or its type is multi (4), NoCodeName if one of its codes has no name, and
/// DuplicateNode if an earlier image has its name; and TooLarge if the FIT is longer than the limit.
/// `OutOfMemory`.
///
/// ```
/// use bootimg::{build_fit, BuildImage, Fit, Form, Key, Limits, Verdict};
///
/// let kernel = BuildImage {
///     name: b"kernel-1",
///     payload: b"a kernel",
///     load: Some(0x80000),
///     os: 5,
///     arch: 22,
///     image_type: 2,
///     ..BuildImage::default()
/// };
/// let limits = Limits::default();
/// let file = build_fit(&[kernel], b"board", 1_700_000_000, Form::Embedded, limits)?;
/// let board = Fit::read(&file, limits)?;
/// let listed = board.default_configuration().unwrap().listed(Key::Kernel)?;
/// assert_eq!(listed[0].payload, Some(&b"a kernel"[..]));
/// assert_eq!(board.verdicts()?[0].verdict, Verdict::Good);
/// # Ok::<(), bootimg::Error>(())
/// ```
pub fn build_fit(
    images: &[BuildImage<'_>],
    description: &[u8],
    time: u32,
    form: Form,
    limits: Limits,
) -> Result<Vec<u8>, Error> {
    let mut input = Vec::new();
    let elements: Vec<_> = images
        .iter()
        .map(|image| element_of(image, &mut input))
        .collect();
    build_of(&input, |buffer, room, answer| {
        // Safety: the input, the description and the elements are as long as their lengths, and
        // `build_of` passes a buffer and its length.
        unsafe {
            sys::bootimg_build_fit(
                input.as_ptr(),
                input.len(),
                description.as_ptr(),
                description.len(),
                time,
                elements.as_ptr(),
                elements.len(),
                form.number(),
                limits.limit,
                limits.depth,
                buffer,
                room,
                answer,
            )
        }
    })
}

/// Returns a FIT with these images, and with the configurations and hash nodes of a plan. All else
/// is as for [`build_fit`], which is this call with the default plan.
///
/// # Errors
///
/// Those of [`build_fit`], and `Refused`: TooLarge if there are more configurations than the limit;
/// BadField at the index of the first image with a text or a description that has a zero byte; for
/// each configuration in order, at its index: BadField if its name is empty or has a zero byte or a
/// `/`, if it lists a name that no image has, or if its description or one of its boards has a zero
/// byte, and DuplicateNode if an earlier configuration has its name; and BadField at the number of
/// configurations if none has the name of the default.
///
/// ```
/// use bootimg::{build_fit_as, BuildConfiguration, BuildImage, Fit, Form, Key, Limits, Plan};
///
/// let image = BuildImage { os: 5, arch: 22, image_type: 2, ..BuildImage::default() };
/// let images = [b"a", b"b"].map(|name| BuildImage { name, ..image });
/// let board = BuildConfiguration {
///     name: b"board-b",
///     kernel: &[b"b"],
///     compatible: &[b"example,board-b"],
///     ..BuildConfiguration::default()
/// };
/// let plan = Plan { configurations: &[board], ..Plan::default() };
/// let limits = Limits::default();
/// let file = build_fit_as(&images, b"boards", 0, plan, Form::Embedded, limits)?;
/// let read = Fit::read(&file, limits)?;
/// let found = read.default_configuration().unwrap();
/// assert_eq!((found.name, found.listed(Key::Kernel)?[0].name), (&b"board-b"[..], &b"b"[..]));
/// # Ok::<(), bootimg::Error>(())
/// ```
pub fn build_fit_as(
    images: &[BuildImage<'_>],
    description: &[u8],
    time: u32,
    plan: Plan<'_>,
    form: Form,
    limits: Limits,
) -> Result<Vec<u8>, Error> {
    let mut input = Vec::new();
    let mut lists = Vec::new();
    let options = sys::BuildOptions {
        size: std::mem::size_of::<sys::BuildOptions>(),
        description: add_piece(&mut input, description),
        default_name: add_piece(&mut input, plan.default.unwrap_or(b"")),
        time,
        form: form.number(),
        limit: limits.limit,
        depth: limits.depth,
        given: plan.default.is_some().into(),
    };
    let elements: Vec<_> = images
        .iter()
        .map(|image| element_of(image, &mut input))
        .collect();
    let texts: Vec<_> = (0..plan.texts.len().max(plan.descriptions.len()))
        .map(|index| texts_of(&plan, index, &mut input))
        .collect();
    let configurations: Vec<_> = plan
        .configurations
        .iter()
        .map(|configuration| configuration_of(configuration, &mut input, &mut lists))
        .collect();
    let algorithms: Vec<_> = plan
        .algorithms
        .iter()
        .map(|algorithm| *algorithm as u32)
        .collect();
    build_of(&input, |buffer, room, answer| {
        // Safety: the input and the arrays are as long as their lengths, and `build_of` passes a
        // buffer and its length.
        unsafe {
            sys::bootimg_build_fit_as(
                input.as_ptr(),
                input.len(),
                &options,
                elements.as_ptr(),
                elements.len(),
                texts.as_ptr(),
                texts.len(),
                configurations.as_ptr(),
                configurations.len(),
                lists.as_ptr(),
                lists.len(),
                algorithms.as_ptr(),
                algorithms.len(),
                buffer,
                room,
                answer,
            )
        }
    })
}

/// Makes a call that builds an image of these bytes, and returns the image. There is room for the
/// bytes and 4,096 more, for headers, nodes and digests, or for what the library asks for.
fn build_of(
    input: &[u8],
    call: impl Fn(*mut u8, usize, *mut sys::Answer) -> u32,
) -> Result<Vec<u8>, Error> {
    Ok(fill(input.len() + 4096, call)?.0)
}

/// Adds the name and the payload of an image to the input, and returns the image for the library.
fn element_of(image: &BuildImage<'_>, input: &mut Vec<u8>) -> sys::BuildImage {
    sys::BuildImage {
        name: add_piece(input, image.name),
        payload: add_piece(input, image.payload),
        load: image.load.unwrap_or(0),
        entry: image.entry.unwrap_or(0),
        addresses: u32::from(image.load.is_some()) + 2 * u32::from(image.entry.is_some()),
        os: image.os,
        arch: image.arch,
        image_type: image.image_type,
        compression: image.compression,
    }
}

/// Adds what a plan gives of the image with this index to the input, and returns it for the library.
fn texts_of(plan: &Plan<'_>, index: usize, input: &mut Vec<u8>) -> sys::BuildTexts {
    let texts = plan.texts.get(index).copied().flatten();
    let description = plan.descriptions.get(index).copied().flatten();
    let mut add = |text: Option<&[u8]>| add_piece(input, text.unwrap_or(b""));
    sys::BuildTexts {
        description: add(description),
        image_type: add(texts.map(|texts| texts.image_type)),
        arch: add(texts.map(|texts| texts.arch)),
        os: add(texts.map(|texts| texts.os)),
        compression: add(texts.map(|texts| texts.compression)),
        given: u32::from(description.is_some()) + 2 * u32::from(texts.is_some()),
    }
}

/// Adds the texts of a configuration to the input, and returns the configuration for the library.
fn configuration_of(
    configuration: &BuildConfiguration<'_>,
    input: &mut Vec<u8>,
    lists: &mut Vec<sys::Region>,
) -> sys::BuildConfiguration {
    let description = configuration.description;
    let (name, described) = (
        add_piece(input, configuration.name),
        add_piece(input, description.unwrap_or(b"")),
    );
    let mut add = |texts: &[&[u8]]| {
        let first = lists.len();
        lists.extend(texts.iter().map(|text| add_piece(input, text)));
        let count = texts.len();
        sys::Range { first, count }
    };
    sys::BuildConfiguration {
        name,
        description: described,
        compatible: add(configuration.compatible),
        kernel: add(configuration.kernel),
        fdt: add(configuration.fdt),
        ramdisk: add(configuration.ramdisk),
        firmware: add(configuration.firmware),
        loadables: add(configuration.loadables),
        script: add(configuration.script),
        given: description.is_some().into(),
    }
}

/// Adds a piece to the input, and returns where it is.
pub(crate) fn add_piece(input: &mut Vec<u8>, piece: &[u8]) -> sys::Region {
    let region = sys::Region {
        offset: input.len(),
        size: piece.len(),
    };
    input.extend_from_slice(piece);
    region
}
