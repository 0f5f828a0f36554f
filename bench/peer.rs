//! A PEER of bench/decode over the crate jpeg-decoder: `peer [--scale WxH] [--repeat N] FILE`.
//!
//! Writes the pixels, or decodes N times from memory and asks for the time around each decoding.

use jpeg_decoder::{Decoder, Error};
use std::io::Write;
use std::time::Instant;

#[derive(Default)]
struct Request {
    size: Option<(u16, u16)>,
    decodings: Option<u32>,
    file: String,
}

fn request_of(mut words: impl Iterator<Item = String>) -> Option<Request> {
    let mut request = Request::default();
    while let Some(word) = words.next() {
        match word.as_str() {
            "--scale" => {
                let size = words.next()?;
                let (width, height) = size.split_once('x')?;
                request.size = Some((width.parse().ok()?, height.parse().ok()?));
            }
            "--repeat" => request.decodings = Some(words.next()?.parse().ok()?),
            _ => request.file = word,
        }
    }
    Some(request)
}

fn pixels_of(bytes: &[u8], size: Option<(u16, u16)>) -> Result<Vec<u8>, Error> {
    let mut decoder = Decoder::new(bytes);
    if let Some((width, height)) = size {
        decoder.read_info()?;
        decoder.scale(width, height)?;
    }
    decoder.decode()
}

fn main() -> Result<(), Error> {
    let usage = "usage: peer [--scale WxH] [--repeat N] FILE";
    let request = request_of(std::env::args().skip(1)).expect(usage);
    let bytes = std::fs::read(&request.file)?;
    let Some(decodings) = request.decodings else {
        std::io::stdout().write_all(&pixels_of(&bytes, request.size)?)?;
        return Ok(());
    };
    for _ in 0..decodings {
        let start = Instant::now();
        let pixels = pixels_of(&bytes, request.size);
        let _ = start.elapsed();
        pixels?;
    }
    Ok(())
}
