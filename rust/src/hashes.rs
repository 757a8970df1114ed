//! The hash nodes of a FIT.

use crate::calls::{bytes_of, fill_of, found};
use crate::{sys, Error, Fit};
use std::fmt;

/// The verdict on a hash node.
#[derive(Clone, Copy, Debug, PartialEq, Eq)]
#[non_exhaustive]
pub enum Verdict {
    /// The value is the digest of the payload.
    Good,
    /// The value is not the digest of the payload.
    Bad,
    /// The algorithm is not a known one.
    UnknownAlgorithm,
    /// The image has no payload.
    NoPayload,
    /// The node has no algorithm or no value, or the algorithm is not NUL-terminated.
    Malformed,
    /// A verdict of a later version of the library.
    Unknown,
}

impl Verdict {
    /// Returns the verdict with a number of the library.
    pub(crate) fn from_number(number: u32) -> Verdict {
        match number {
            0 => Verdict::Good,
            1 => Verdict::Bad,
            2 => Verdict::UnknownAlgorithm,
            3 => Verdict::NoPayload,
            4 => Verdict::Malformed,
            _ => Verdict::Unknown,
        }
    }
}

impl fmt::Display for Verdict {
    /// Writes the word of the verdict in a report of `verify`.
    fn fmt(&self, formatter: &mut fmt::Formatter<'_>) -> fmt::Result {
        formatter.pad(match self {
            Verdict::Good => "good",
            Verdict::Bad => "bad",
            Verdict::UnknownAlgorithm => "unknown-algorithm",
            Verdict::NoPayload => "no-payload",
            Verdict::Malformed => "malformed",
            Verdict::Unknown => "unknown",
        })
    }
}

/// A hash node of an image of a FIT, and the verdict on it.
#[derive(Clone, Copy, Debug, PartialEq, Eq)]
#[non_exhaustive]
pub struct Hash<'a> {
    /// The name of the image.
    pub image: &'a [u8],
    /// The name of the hash node.
    pub node: &'a [u8],
    /// The name of the algorithm, if there is one.
    pub algorithm: Option<&'a [u8]>,
    /// The value, if there is one.
    pub value: Option<&'a [u8]>,
    /// The verdict.
    pub verdict: Verdict,
}

impl<'a> Fit<'a> {
    /// Returns the hash nodes with the verdicts on them, image by image, in their order. The call
    /// reads the file again.
    ///
    /// # Errors
    ///
    /// `OutOfMemory`.
    pub fn verdicts(&self) -> Result<Vec<Hash<'a>>, Error> {
        let (hashes, _) = fill_of(sys::bootimg_verdicts, 16, self.file, self.limits)?;
        Ok(hashes.iter().map(|hash| self.hash_of(hash)).collect())
    }

    /// Returns a hash node of the file.
    fn hash_of(&self, hash: &sys::Hash) -> Hash<'a> {
        Hash {
            image: bytes_of(self.file, hash.image),
            node: bytes_of(self.file, hash.node),
            algorithm: found(self.file, hash.algorithm),
            value: found(self.file, hash.value),
            verdict: Verdict::from_number(hash.verdict),
        }
    }
}
