//! A PEER of bench/decode over the crate zune-jpeg: `zune [--repeat N] FILE`. It doesn't scale.
//!
//! Writes the pixels, or decodes N times from memory and asks for the time around each decoding.
//! Grey stays grey, CMYK stays CMYK, as with the others.

use std::io::Write;
use std::time::Instant;
use zune_core::colorspace::ColorSpace;
use zune_core::options::DecoderOptions;
use zune_jpeg::errors::DecodeErrors;
use zune_jpeg::JpegDecoder;

#[derive(Default)]
struct Request {
    is_scaled: bool,
    decodings: Option<u32>,
    file: String,
}

fn request_of(mut words: impl Iterator<Item = String>) -> Option<Request> {
    let mut request = Request::default();
    while let Some(word) = words.next() {
        match word.as_str() {
            "--scale" => {
                words.next()?;
                request.is_scaled = true;
            }
            "--repeat" => request.decodings = Some(words.next()?.parse().ok()?),
            _ => request.file = word,
        }
    }
    Some(request)
}

fn pixels_of(bytes: &[u8]) -> Result<Vec<u8>, DecodeErrors> {
    let mut decoder = JpegDecoder::new(bytes);
    decoder.decode_headers()?;
    let colours = match decoder.get_input_colorspace() {
        Some(ColorSpace::Luma) => ColorSpace::Luma,
        Some(ColorSpace::CMYK | ColorSpace::YCCK) => ColorSpace::CMYK,
        _ => ColorSpace::RGB,
    };
    decoder.set_options(DecoderOptions::default().jpeg_set_out_colorspace(colours));
    decoder.decode()
}

fn main() {
    let request = request_of(std::env::args().skip(1)).expect("usage: zune [--repeat N] FILE");
    let bytes = std::fs::read(&request.file).expect("the file can't be read");
    if request.is_scaled {
        std::process::exit(1);
    }
    let Some(decodings) = request.decodings else {
        let pixels = pixels_of(&bytes).expect("a picture");
        std::io::stdout().write_all(&pixels).expect("written");
        return;
    };
    for _ in 0..decodings {
        let start = Instant::now();
        let pixels = pixels_of(&bytes);
        let _ = start.elapsed();
        if pixels.is_err() {
            std::process::exit(1);
        }
    }
}
