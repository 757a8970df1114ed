//! Prints a table of the images of a FIT, which comes from standard input.

use std::io::Read;

fn main() -> Result<(), Box<dyn std::error::Error>> {
    let mut file = Vec::new();
    std::io::stdin().read_to_end(&mut file)?;
    for image in bootimg::Fit::read(&file, bootimg::Limits::default())?.images {
        let (name, payload) = (
            String::from_utf8_lossy(image.name),
            image.payload.unwrap_or(b""),
        );
        println!("{name:10} {:6} bytes at {}", payload.len(), image.offset);
    }
    Ok(())
}
