//! Decodes the JPEG stream on standard input by the crate jpeg-decoder: writes a line WIDTH HEIGHT
//! FORMAT and the pixels, as jpegraw does. An error goes to standard error, with status 1. With the
//! feature `partial`, and the argument `--partial`, the stream is decoded up to its first fault,
//! which goes to standard error with status 3.

use jpeg_decoder::{Decoder, Error};
use std::io::{self, Read, Write};
use std::process::ExitCode;

/// Returns the pixels, and the fault of the stream, if it is decoded up to that.
fn pixels_of(decoder: &mut Decoder<&[u8]>) -> Result<(Vec<u8>, Option<Error>), Error> {
    #[cfg(feature = "partial")]
    if std::env::args().any(|word| word == "--partial") {
        let partial = decoder.decode_partial()?;
        return Ok((partial.pixels, partial.fault));
    }
    Ok((decoder.decode()?, None))
}

fn main() -> io::Result<ExitCode> {
    let mut jpeg = Vec::new();
    io::stdin().read_to_end(&mut jpeg)?;
    let mut decoder = Decoder::new(&jpeg[..]);
    let (pixels, fault) = match pixels_of(&mut decoder) {
        Ok(decoded) => decoded,
        Err(error) => {
            eprintln!("{error}");
            return Ok(ExitCode::from(1));
        }
    };
    let info = decoder.info().expect("a decoded picture has a description");
    let mut output = io::stdout().lock();
    writeln!(
        output,
        "{} {} {:?}",
        info.width, info.height, info.pixel_format
    )?;
    output.write_all(&pixels)?;
    Ok(fault.map_or(ExitCode::SUCCESS, |fault| {
        eprintln!("{fault}");
        ExitCode::from(3)
    }))
}
