//! Prints the listing of the image in standard input.
use std::io::{Read, Write};

#[repr(C)]
#[derive(Default)]
struct Answer {
    size: usize,
    value: usize,
    numbers: [u32; 4],
}

#[link(name = "bootimg")]
extern "C" {
    fn bootimg_list(
        file: *const u8, size: usize, limit: u32, depth: u32, buffer: *mut u8, buffer_size: usize, answer: *mut Answer,
    ) -> u32;
}

fn main() -> std::io::Result<()> {
    let (mut file, mut text, mut answer) = (Vec::new(), vec![0; 100_000], Answer::default());
    std::io::stdin().read_to_end(&mut file)?;
    // The file, the buffer and the struct are apart, and none of the pointers is null.
    let status = unsafe {
        bootimg_list(file.as_ptr(), file.len(), 0x7fff_ffff, 64, text.as_mut_ptr(), text.len(), &mut answer)
    };
    assert_eq!(status, 0);
    std::io::stdout().write_all(&text[..answer.size])
}
