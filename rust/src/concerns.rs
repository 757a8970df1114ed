//! The concerns about a file.

use crate::calls::{bytes_of, fill_of, fill_with_number, found};
use crate::names::{name_of, Shown, ShownPath};
use crate::{check, sys, Error, Key, Limits, Policy, Verdict};
use std::collections::{BTreeMap, BTreeSet};
use std::fmt;

/// A concern about a file: a thing in it that is not protected.
#[derive(Clone, Debug, PartialEq, Eq)]
#[non_exhaustive]
pub enum Concern<'a> {
    /// The verdict on a hash node is not good.
    #[non_exhaustive]
    BadHash {
        /// The name of the image.
        image: &'a [u8],
        /// The name of the hash node.
        node: &'a [u8],
        /// The name of the algorithm, if there is one.
        algorithm: Option<&'a [u8]>,
        /// The verdict.
        verdict: Verdict,
    },
    /// U-Boot skips a hash node.
    #[non_exhaustive]
    SkippedHash {
        /// The name of the image.
        image: &'a [u8],
        /// The name of the hash node.
        node: &'a [u8],
    },
    /// An image has a payload and no good verdict, apart from hash nodes that U-Boot skips.
    #[non_exhaustive]
    Unhashed {
        /// The name of the image.
        image: &'a [u8],
    },
    /// An image has a payload and good verdicts, but none of SHA-256, SHA-384 or SHA-512, apart
    /// from hash nodes that U-Boot skips.
    #[non_exhaustive]
    WeakHash {
        /// The name of the image.
        image: &'a [u8],
        /// The names of the algorithms of the good verdicts.
        algorithms: Vec<&'a [u8]>,
    },
    /// The value of a key of a configuration is not a list of names.
    #[non_exhaustive]
    BadList {
        /// The name of the configuration.
        configuration: &'a [u8],
        /// The key.
        key: Key,
    },
    /// A key of a configuration lists a name that no image has.
    #[non_exhaustive]
    Missing {
        /// The name of the configuration.
        configuration: &'a [u8],
        /// The key.
        key: Key,
        /// The index of the first such name, counted from 0.
        index: usize,
    },
    /// A configuration has no signature, or there is no configuration. There is none unless
    /// signatures are asked for.
    #[non_exhaustive]
    Unsigned {
        /// The name of the configuration, if there is one.
        configuration: Option<Vec<u8>>,
    },
    /// A signature of a configuration does not say which nodes it covers.
    #[non_exhaustive]
    NoNodes {
        /// The name of the configuration.
        configuration: Vec<u8>,
        /// The name of the signature node.
        signature: Vec<u8>,
    },
    /// The configuration of a signature names no image.
    #[non_exhaustive]
    NoImages {
        /// The name of the configuration.
        configuration: Vec<u8>,
        /// The name of the signature node.
        signature: Vec<u8>,
    },
    /// A signature of a configuration does not cover a node that it must cover.
    #[non_exhaustive]
    Uncovered {
        /// The name of the configuration.
        configuration: Vec<u8>,
        /// The name of the signature node.
        signature: Vec<u8>,
        /// The path of the node.
        path: Vec<u8>,
    },
    /// A signature of a configuration covers a node that it does not have to cover.
    #[non_exhaustive]
    Foreign {
        /// The name of the configuration.
        configuration: Vec<u8>,
        /// The name of the signature node.
        signature: Vec<u8>,
        /// The path that the signature node has.
        path: Vec<u8>,
    },
    /// A signature of a configuration does not cover the names of all properties of its nodes.
    #[non_exhaustive]
    Strings {
        /// The name of the configuration.
        configuration: Vec<u8>,
        /// The name of the signature node.
        signature: Vec<u8>,
    },
    /// There is a signature of a configuration, and the name of a node has an `@`.
    #[non_exhaustive]
    UnitAddress {
        /// The path of the node.
        path: Vec<u8>,
    },
    /// There are configurations, and the default names none of them.
    #[non_exhaustive]
    BadDefault {
        /// The default, if there is one.
        default: Option<&'a [u8]>,
    },
    /// A byte after the image is not zero.
    #[non_exhaustive]
    Trailing {
        /// The number of bytes after the image.
        size: usize,
    },
    /// A concern of a later version of the library.
    Unknown,
}

impl fmt::Display for Concern<'_> {
    /// Writes the line that `check` has for the concern, without a newline.
    fn fmt(&self, formatter: &mut fmt::Formatter<'_>) -> fmt::Result {
        match self {
            Concern::BadHash {
                image,
                node,
                algorithm,
                verdict,
            } => {
                let algorithm = Shown(algorithm.unwrap_or_default());
                let (image, node) = (Shown(image), Shown(node));
                write!(formatter, "bad-hash {image} {node} {algorithm} {verdict}")
            }
            Concern::SkippedHash { image, node } => {
                write!(formatter, "skipped-hash {} {}", Shown(image), Shown(node))
            }
            Concern::Unhashed { image } => write!(formatter, "unhashed {}", Shown(image)),
            Concern::WeakHash { image, algorithms } => {
                write!(formatter, "weak-hash {}", Shown(image))?;
                let mut names = algorithms.iter().map(|name| Shown(name));
                names.try_for_each(|name| write!(formatter, " {name}"))
            }
            Concern::BadList { configuration, key } => {
                write!(formatter, "bad-list {} {key}", Shown(configuration))
            }
            Concern::Missing {
                configuration,
                key,
                index,
            } => write!(formatter, "missing {} {key} {index}", Shown(configuration)),
            Concern::Unsigned { configuration } => {
                let name = configuration.as_deref().unwrap_or_default();
                write!(formatter, "unsigned {}", Shown(name))
            }
            Concern::NoNodes { .. }
            | Concern::NoImages { .. }
            | Concern::Uncovered { .. }
            | Concern::Foreign { .. }
            | Concern::Strings { .. } => self.write_about_signature(formatter),
            Concern::UnitAddress { path } => write!(formatter, "unit-address {}", ShownPath(path)),
            Concern::BadDefault { default } => {
                write!(
                    formatter,
                    "bad-default {}",
                    Shown(default.unwrap_or_default())
                )
            }
            Concern::Trailing { size } => write!(formatter, "trailing {size}"),
            Concern::Unknown => formatter.write_str("unknown"),
        }
    }
}

impl Concern<'_> {
    /// Writes the line of a concern about a signature.
    fn write_about_signature(&self, formatter: &mut fmt::Formatter<'_>) -> fmt::Result {
        let (kind, configuration, signature, path) = match self {
            Concern::NoNodes {
                configuration,
                signature,
            } => ("no-nodes", configuration, signature, None),
            Concern::NoImages {
                configuration,
                signature,
            } => ("no-images", configuration, signature, None),
            Concern::Strings {
                configuration,
                signature,
            } => ("strings", configuration, signature, None),
            Concern::Uncovered {
                configuration,
                signature,
                path,
            } => ("uncovered", configuration, signature, Some(path)),
            Concern::Foreign {
                configuration,
                signature,
                path,
            } => ("foreign", configuration, signature, Some(path)),
            _ => return Ok(()),
        };
        let (configuration, signature) = (Shown(configuration), Shown(signature));
        write!(formatter, "{kind} {configuration} {signature}")?;
        path.map_or(Ok(()), |path| write!(formatter, " {}", Shown(path)))
    }
}

/// Returns the concerns about a file of either kind, in the order of the lines of `check`. Concerns
/// of allowed kinds are left out. Names are slices of the file, except those in concerns about
/// signatures and unit addresses.
///
/// # Errors
///
/// Those of `check`.
pub fn concerns(
    file: &[u8],
    policy: impl Into<Policy>,
    limits: Limits,
) -> Result<Vec<Concern<'_>>, Error> {
    let policy = policy.into();
    let (call, bits) = (sys::bootimg_concerns, policy.bits());
    let (elements, _) = fill_with_number(call, bits, 16, file, limits)?;
    let is_weak = |one: &sys::Concern| one.kind == sys::CONCERN_WEAK_HASH;
    let mut algorithms = if elements.iter().any(is_weak) {
        let (skipped, _) = fill_with_number(call, sys::SKIPPED_ALONE, 16, file, limits)?;
        let (hashes, _) = fill_of(sys::bootimg_verdicts, 16, file, limits)?;
        good_algorithms(file, &hashes, &skipped)
    } else {
        BTreeMap::new()
    };
    let of_signatures = |one: &sys::Concern| one.kind > sys::CONCERN_SKIPPED_HASH;
    let text = if elements.iter().any(of_signatures) {
        check(file, policy, limits)?
    } else {
        String::new()
    };
    let lines = text.lines().chain(std::iter::repeat(""));
    let concern = |(element, line)| match concern_of_line(line) {
        Some(concern) => concern,
        None => concern_of(file, element, &mut algorithms),
    };
    Ok(elements.iter().zip(lines).map(concern).collect())
}

/// Returns the concern of a line about signatures or unit addresses. Returns None for any other
/// line.
fn concern_of_line<'a>(line: &str) -> Option<Concern<'a>> {
    let mut words = line.split(' ');
    let kind = words.next()?;
    let names: Vec<Vec<u8>> = words.map(name_of).collect();
    Some(match (kind, &names[..]) {
        ("unsigned", [configuration]) => Concern::Unsigned {
            configuration: (!configuration.is_empty()).then(|| configuration.clone()),
        },
        ("unit-address", [path]) => Concern::UnitAddress { path: path.clone() },
        ("no-nodes", [configuration, signature]) => Concern::NoNodes {
            configuration: configuration.clone(),
            signature: signature.clone(),
        },
        ("no-images", [configuration, signature]) => Concern::NoImages {
            configuration: configuration.clone(),
            signature: signature.clone(),
        },
        ("strings", [configuration, signature]) => Concern::Strings {
            configuration: configuration.clone(),
            signature: signature.clone(),
        },
        ("uncovered", [configuration, signature, path]) => Concern::Uncovered {
            configuration: configuration.clone(),
            signature: signature.clone(),
            path: path.clone(),
        },
        ("foreign", [configuration, signature, path]) => Concern::Foreign {
            configuration: configuration.clone(),
            signature: signature.clone(),
            path: path.clone(),
        },
        _ => return None,
    })
}

/// The algorithms of the good verdicts on the hash nodes of images, by the offset of the image's
/// name.
type Algorithms<'a> = BTreeMap<usize, Vec<&'a [u8]>>;

/// Returns a concern about a file. One about weak hashes takes the algorithms of its image.
fn concern_of<'a>(
    file: &'a [u8],
    element: &sys::Concern,
    algorithms: &mut Algorithms<'a>,
) -> Concern<'a> {
    let name = bytes_of(file, element.name);
    let key = Key::ALL.get(element.key as usize).copied();
    match (element.kind, key) {
        (sys::CONCERN_BAD_HASH, _) => Concern::BadHash {
            image: name,
            node: bytes_of(file, element.node),
            algorithm: found(file, element.algorithm),
            verdict: Verdict::from_number(element.verdict),
        },
        (sys::CONCERN_SKIPPED_HASH, _) => Concern::SkippedHash {
            image: name,
            node: bytes_of(file, element.node),
        },
        (sys::CONCERN_UNHASHED, _) => Concern::Unhashed { image: name },
        (sys::CONCERN_WEAK_HASH, _) => Concern::WeakHash {
            image: name,
            algorithms: algorithms.remove(&element.name.offset).unwrap_or_default(),
        },
        (sys::CONCERN_BAD_LIST, Some(key)) => Concern::BadList {
            configuration: name,
            key,
        },
        (sys::CONCERN_MISSING, Some(key)) => Concern::Missing {
            configuration: name,
            key,
            index: element.index,
        },
        (sys::CONCERN_BAD_DEFAULT, _) => Concern::BadDefault {
            default: found(file, element.name),
        },
        (sys::CONCERN_TRAILING, _) => Concern::Trailing { size: element.size },
        _ => Concern::Unknown,
    }
}

/// Returns the algorithms of the good ones of these hash nodes, except for those of these concerns:
/// that U-Boot skips a node.
fn good_algorithms<'a>(
    file: &'a [u8],
    hashes: &[sys::Hash],
    skipped: &[sys::Concern],
) -> Algorithms<'a> {
    let skipped: BTreeSet<usize> = skipped.iter().map(|one| one.node.offset).collect();
    let mut algorithms = Algorithms::new();
    for hash in hashes {
        let is_good = Verdict::from_number(hash.verdict) == Verdict::Good;
        if is_good && !skipped.contains(&hash.node.offset) {
            let of_image = algorithms.entry(hash.image.offset).or_default();
            of_image.push(bytes_of(file, hash.algorithm));
        }
    }
    algorithms
}
