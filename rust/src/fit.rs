//! FITs (flattened image trees).

use crate::calls::{bytes_of, fields_of, fill, fill_of};
pub use crate::sys::Reservation;
use crate::{sys, Error, Key, Limits};

/// What places the payload of an image.
#[derive(Clone, Copy, Debug, PartialEq, Eq)]
pub enum Place {
    /// The payload is the value of the property `data`.
    Data,
    /// The property `data-offset` has its offset, counted from the end of the blob.
    DataOffset,
    /// The property `data-position` has its offset in the file.
    DataPosition,
}

/// An image of a FIT.
#[derive(Clone, Copy, Debug, PartialEq, Eq)]
#[non_exhaustive]
pub struct FitImage<'a> {
    /// The name.
    pub name: &'a [u8],
    /// The payload, if there is one. (An empty payload is one.)
    pub payload: Option<&'a [u8]>,
    /// The offset of the payload in the file, in bytes, or 0.
    pub offset: usize,
    /// What places the payload, if there is one.
    pub place: Option<Place>,
}

/// A configuration of a FIT.
#[derive(Clone, Debug, PartialEq, Eq)]
#[non_exhaustive]
pub struct Configuration<'a> {
    /// The name.
    pub name: &'a [u8],
    /// What is listed under each key, in the order of `Key::ALL`.
    lists: [Result<Vec<FitImage<'a>>, Error>; 6],
}

impl<'a> Configuration<'a> {
    /// Returns the images that the configuration lists under a key, in the order of the list.
    ///
    /// # Errors
    ///
    /// `NoKey`, `BadList` or `MissingImage`.
    pub fn listed(&self, key: Key) -> Result<&[FitImage<'a>], Error> {
        match &self.lists[key as usize] {
            Ok(images) => Ok(images),
            Err(error) => Err(*error),
        }
    }
}

/// A FIT in memory.
#[derive(Clone, Debug)]
#[non_exhaustive]
pub struct Fit<'a> {
    /// The physical number of the boot processor.
    pub boot_cpu: u32,
    /// The length of the blob in bytes.
    pub total_size: u32,
    /// The memory reservations.
    pub reservations: Vec<Reservation>,
    /// The images.
    pub images: Vec<FitImage<'a>>,
    /// The configurations.
    pub configurations: Vec<Configuration<'a>>,
    /// The index of the default configuration.
    pub default: Option<usize>,
    pub(crate) file: &'a [u8],
    pub(crate) limits: Limits,
}

impl<'a> Fit<'a> {
    /// Reads a FIT. The file may be longer than it.
    ///
    /// # Errors
    ///
    /// `Refused`: TooLarge if the file is longer than the limit, or else the cause of the first
    /// check of the format that fails. BadMagic at 0 for a file that is not a FIT. `OutOfMemory`.
    pub fn read(file: &'a [u8], limits: Limits) -> Result<Fit<'a>, Error> {
        let header = fields_of(sys::bootimg_fit, file, limits)?;
        let (reservations, _) = fill_of(sys::bootimg_reservations, 16, file, limits)?;
        let (images, _) = fill_of(sys::bootimg_images, 16, file, limits)?;
        let images: Vec<_> = images.iter().map(|image| image_of(file, image)).collect();
        let (names, default) = fill_of(sys::bootimg_configurations, 16, file, limits)?;
        let configurations = names
            .iter()
            .map(|&name| configuration_of(file, bytes_of(file, name), &images, limits))
            .collect::<Result<Vec<_>, _>>()?;
        Ok(Fit {
            boot_cpu: header.boot_cpu,
            total_size: header.total_size,
            reservations,
            images,
            default: (default < configurations.len()).then_some(default),
            configurations,
            file,
            limits,
        })
    }

    /// Returns the image with the given name.
    pub fn image(&self, name: impl AsRef<[u8]>) -> Option<&FitImage<'a>> {
        let name = name.as_ref();
        self.images.iter().find(|image| image.name == name)
    }

    /// Returns the configuration with the given name.
    pub fn configuration(&self, name: impl AsRef<[u8]>) -> Option<&Configuration<'a>> {
        let name = name.as_ref();
        self.configurations
            .iter()
            .find(|configuration| configuration.name == name)
    }

    /// Returns the default configuration, if there is one.
    pub fn default_configuration(&self) -> Option<&Configuration<'a>> {
        Some(&self.configurations[self.default?])
    }
}

/// Returns an image of a file.
fn image_of<'a>(file: &'a [u8], image: &sys::Image) -> FitImage<'a> {
    let place = match image.place {
        1 => Some(Place::Data),
        2 => Some(Place::DataOffset),
        3 => Some(Place::DataPosition),
        _ => None,
    };
    FitImage {
        name: bytes_of(file, image.name),
        payload: place.map(|_| bytes_of(file, image.payload)),
        offset: image.payload.offset,
        place,
    }
}

/// Returns the configuration of a file that has the given name. Fails only if memory runs out.
fn configuration_of<'a>(
    file: &'a [u8],
    name: &'a [u8],
    images: &[FitImage<'a>],
    limits: Limits,
) -> Result<Configuration<'a>, Error> {
    let lists = Key::ALL.map(|key| {
        let indices = listed(file, name, key, limits)?;
        Ok(indices.iter().map(|&index| images[index]).collect())
    });
    if lists.contains(&Err(Error::OutOfMemory)) {
        return Err(Error::OutOfMemory);
    }
    Ok(Configuration { name, lists })
}

/// Returns the indices of the images that a configuration lists under a key.
fn listed(file: &[u8], name: &[u8], key: Key, limits: Limits) -> Result<Vec<usize>, Error> {
    let call = |indices: *mut usize, count, answer: *mut _| {
        // Safety: the file and the name are as long as their lengths, and `fill` passes an array
        // and its length.
        unsafe {
            sys::bootimg_listed(
                file.as_ptr(),
                file.len(),
                name.as_ptr(),
                name.len(),
                key as u32,
                limits.limit,
                limits.depth,
                indices,
                count,
                answer,
            )
        }
    };
    Ok(fill(8, call)?.0)
}
