//! Takes images apart, and prints what they have: a line for each element, with names as hexadecimal
//! digits. `tests/tools/c_library/structure.py` compares the lines.

use bootimg::{
    check, concerns, Concern, Concerns, Error, Fit, FitImage, Key, Legacy, Limits, Place, Policy,
    Verdict,
};

/// The calls that refuse a file that is not a FIT.
const FIT_CALLS: [&str; 8] = [
    "fit",
    "reservations",
    "images",
    "configurations",
    "verdicts",
    "properties",
    "children",
    "nodes",
];

fn main() -> Result<(), Box<dyn std::error::Error>> {
    for path in std::env::args().skip(1) {
        let file = std::fs::read(&path)?;
        println!("file {path}");
        match Legacy::read(&file, Limits::default()) {
            Ok(legacy) => print_legacy(&legacy),
            Err(error) => print_error(&["legacy", "parts"], error),
        }
        match Fit::read(&file, Limits::default()) {
            Ok(fit) => {
                print_fit(&fit);
                print_verdicts(&fit)?;
                print_node(&fit, b"/")?;
                print_nodes(&fit)?;
            }
            Err(error) => print_error(&FIT_CALLS, error),
        }
        match concerns(&file, Concerns::default(), Limits::default()) {
            Ok(concerns) => concerns.iter().for_each(print_concern),
            Err(error) => print_error(&["concerns"], error),
        }
        for signed in [false, true] {
            has_lines(&file, signed);
        }
    }
    Ok(())
}

/// The text of each concern about a file is its line of `check`.
fn has_lines(file: &[u8], signed: bool) {
    let policy = Policy {
        signed,
        ..Policy::default()
    };
    let texts = concerns(file, policy, Limits::default())
        .map(|concerns| concerns.iter().map(|one| format!("{one}\n")).collect());
    assert_eq!(texts, check(file, policy, Limits::default()));
}

fn print_error(calls: &[&str], error: Error) {
    for call in calls {
        println!("{call}: {error}");
    }
}

fn digits(name: &[u8]) -> String {
    if name.is_empty() {
        return "-".to_owned();
    }
    name.iter().map(|byte| format!("{byte:02x}")).collect()
}

fn print_legacy(legacy: &Legacy) {
    let header = &legacy.header;
    println!("name {}", digits(header.name));
    println!(
        "time {}\nload {}\nentry {}",
        header.time, header.load, header.entry
    );
    println!(
        "codes {} {} {} {}",
        header.os, header.arch, header.image_type, header.compression
    );
    for (part, offset) in legacy.parts.iter().zip(&legacy.offsets) {
        println!("part {offset} {}", part.len());
    }
    println!("unused {}", legacy.unused);
}

fn print_fit(fit: &Fit) {
    println!("boot-cpu {}\ntotal-size {}", fit.boot_cpu, fit.total_size);
    for one in &fit.reservations {
        println!("reservation {} {}", one.address, one.size);
    }
    for image in &fit.images {
        let place = match image.place {
            None => 0,
            Some(Place::Data) => 1,
            Some(Place::DataOffset) => 2,
            Some(Place::DataPosition) => 3,
        };
        let size = image.payload.map_or(0, <[u8]>::len);
        println!(
            "image {} {place} {} {size}",
            digits(image.name),
            image.offset
        );
    }
    for configuration in &fit.configurations {
        println!("configuration {}", digits(configuration.name));
        for (number, key) in Key::ALL.into_iter().enumerate() {
            print_list(fit, number, configuration.listed(key));
        }
    }
    println!(
        "default {}",
        fit.default.unwrap_or(fit.configurations.len())
    );
}

fn print_verdicts(fit: &Fit) -> Result<(), Error> {
    for hash in fit.verdicts()? {
        println!(
            "hash {} {} {} {} {}",
            digits(hash.image),
            digits(hash.node),
            or_none(hash.algorithm),
            or_none(hash.value),
            number_of(hash.verdict)
        );
    }
    Ok(())
}

fn or_none(field: Option<&[u8]>) -> String {
    field.map_or("none".to_owned(), digits)
}

fn number_of(verdict: Verdict) -> u32 {
    match verdict {
        Verdict::Good => 0,
        Verdict::Bad => 1,
        Verdict::UnknownAlgorithm => 2,
        Verdict::NoPayload => 3,
        Verdict::Malformed => 4,
        other => panic!("{other:?}"),
    }
}

/// Returns the line of a concern of a kind of which the call for C has no names.
fn kind_alone(kind: u32) -> String {
    format!("{kind} none none none 0 0 0 0")
}

/// Prints the number of the kind of a concern, the names that the call for C has of it, its
/// numbers, and the algorithms of a weak hash.
fn print_concern(concern: &Concern) {
    let words = match concern {
        Concern::BadHash {
            image,
            node,
            algorithm,
            verdict,
            ..
        } => {
            let (image, node, algorithm) = (digits(image), digits(node), or_none(*algorithm));
            format!("1 {image} {node} {algorithm} 0 0 {} 0", number_of(*verdict))
        }
        Concern::Unhashed { image, .. } => format!("2 {} none none 0 0 0 0", digits(image)),
        Concern::WeakHash {
            image, algorithms, ..
        } => {
            let algorithms: String = algorithms
                .iter()
                .map(|one| " ".to_owned() + &digits(one))
                .collect();
            format!("4 {} none none 0 0 0 0{algorithms}", digits(image))
        }
        Concern::BadList {
            configuration, key, ..
        } => format!(
            "8 {} none none 0 0 0 {}",
            digits(configuration),
            *key as u32
        ),
        Concern::Missing {
            configuration,
            key,
            index,
            ..
        } => {
            let configuration = digits(configuration);
            format!("16 {configuration} none none {index} 0 0 {}", *key as u32)
        }
        Concern::BadDefault { default, .. } => {
            format!("32 {} none none 0 0 0 0", or_none(*default))
        }
        Concern::Trailing { size, .. } => format!("64 none none none 0 {size} 0 0"),
        Concern::SkippedHash { image, node, .. } => {
            format!("128 {} {} none 0 0 0 0", digits(image), digits(node))
        }
        Concern::Unsigned { .. } => kind_alone(256),
        Concern::NoNodes { .. } => kind_alone(512),
        Concern::NoImages { .. } => kind_alone(1024),
        Concern::Uncovered { .. } => kind_alone(2048),
        Concern::Foreign { .. } => kind_alone(4096),
        Concern::Strings { .. } => kind_alone(8192),
        Concern::UnitAddress { .. } => kind_alone(16384),
        other => panic!("{other:?}"),
    };
    println!("concern {words}");
}

/// Prints the node at a path, and the nodes below it.
fn print_node(fit: &Fit, path: &[u8]) -> Result<(), Error> {
    println!("node {}", digits(path));
    for property in fit.properties(path)? {
        println!(
            "property {} {}",
            digits(property.name),
            digits(property.value)
        );
        assert_eq!(fit.property(path, property.name)?, property.value);
    }
    assert_eq!(fit.property(path, b"\0"), Err(Error::NoProperty));
    for name in fit.children(path)? {
        let above = path.strip_suffix(b"/").unwrap_or(path);
        print_node(fit, &[above, b"/", name].concat())?;
    }
    assert_eq!(fit.children([path, b"/"].concat()), Err(Error::NoNode));
    Ok(())
}

/// Prints all nodes with their properties.
fn print_nodes(fit: &Fit) -> Result<(), Error> {
    for node in fit.nodes()? {
        println!("element 1 {} {} none", node.depth, digits(node.name));
        for one in node.properties {
            let (name, value) = (digits(one.name), digits(one.value));
            println!("element 2 {} {name} {value}", node.depth + 1);
        }
    }
    Ok(())
}

/// Prints the indices of the images under a key, or the number of the reason why there are none.
fn print_list(fit: &Fit, number: usize, listed: Result<&[FitImage], Error>) {
    let (reason, index) = match listed {
        Ok(images) => {
            print!("key {number}");
            for image in images {
                let index = fit.images.iter().position(|one| one.name == image.name);
                print!(" {}", index.expect("a listed image is one of the images"));
            }
            return println!();
        }
        Err(Error::NoKey) => (5, 0),
        Err(Error::BadList) => (6, 0),
        Err(Error::MissingImage(index)) => (7, index),
        Err(error) => panic!("{error}"),
    };
    println!("listed: reason {reason} {index}");
}
