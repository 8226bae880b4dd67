extern "C" {
    fn fb_read_head(file: *const u8, file_length: usize) -> u64;
}

/// Of the picture whose record file this is: width and height in macroblocks, and the rows of a slice; or the refusal's number and place.
fn read_head(file: &[u8]) -> Result<[u64; 3], (u64, u64)> {
    // The library reads so many bytes from there on, and writes nothing.
    let word = unsafe { fb_read_head(file.as_ptr(), file.len()) };
    let above = word / 256;
    match word % 256 {
        0 => Ok([above % 256, above / 256 % 256, above / 65536]),
        number => Err((number, above)),
    }
}

fn main() {
    println!("{:?}", read_head(&[0x48, 0x44, 0, 1, 0, 1, 0, 0x8E]));
    println!("{:?}", read_head(&[0x48, 0x53, 0, 4, 0, 3, 0, 2, 0, 0xA4]));
}
