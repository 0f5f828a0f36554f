//! What there is of a stream whose reader stops, and where the settings and the reader are then.

use std::io::{self, Read};
use zaxbriar::{Decoder, Error};

fn grey() -> Vec<u8> {
    std::fs::read("tests/grey.jpg").unwrap()
}

/// A reader that fails after its bytes.
struct Failing<'a>(&'a [u8]);

impl Read for Failing<'_> {
    fn read(&mut self, buffer: &mut [u8]) -> io::Result<usize> {
        match self.0.read(buffer)? {
            0 => Err(io::Error::new(
                io::ErrorKind::Other,
                "the reader has failed",
            )),
            count => Ok(count),
        }
    }
}

#[test]
fn every_cut_after_the_header_has_a_picture_and_a_fault() -> Result<(), Error> {
    let jpeg = grey();
    let whole = Decoder::new(&jpeg[..]).decode()?;
    for length in 0..jpeg.len() {
        let mut decoder = Decoder::new(&jpeg[..length]);
        match decoder.decode_partial() {
            Ok(partial) => {
                assert!(length >= 84);
                let is_whole = partial.whole_rows == 8;
                assert!(is_whole || partial.whole_rows == 0);
                let shown = if is_whole { &whole[..] } else { &[128; 64] };
                assert_eq!(partial.pixels, shown);
                assert!(decoder.info().is_some());
                assert!(matches!(partial.fault, Some(Error::Io(_))));
            }
            Err(error) => assert!(length < 84 && matches!(error, Error::Io(_))),
        }
        assert!(matches!(decoder.decode(), Err(Error::Internal(_))));
    }
    Ok(())
}

#[test]
fn the_fault_is_the_error_of_the_reader() -> Result<(), Error> {
    let jpeg = grey();
    let partial = Decoder::new(Failing(&jpeg[..130])).decode_partial()?;
    assert_eq!(partial.pixels, [128; 64]);
    let fault = partial.fault.unwrap();
    assert_eq!(fault.to_string(), "the reader has failed");
    assert!(Decoder::new(Failing(&jpeg))
        .decode_partial()?
        .fault
        .is_none());
    Ok(())
}

#[test]
fn a_limit_refuses_and_other_settings_may_be_tried() -> Result<(), Error> {
    let jpeg = grey();
    let mut decoder = Decoder::new(&jpeg[..130]);
    decoder.set_max_decoding_buffer_size(63);
    assert!(matches!(decoder.decode_partial(), Err(Error::Format(_))));
    decoder.set_max_decoding_buffer_size(64);
    assert_eq!(decoder.decode_partial()?.pixels, [128; 64]);
    Ok(())
}

#[test]
fn a_lent_reader_stands_after_a_whole_image() -> Result<(), Error> {
    let jpeg = grey();
    let two_images = [&jpeg[..], &jpeg].concat();
    let mut reader = &two_images[..];
    assert!(Decoder::new(&mut reader).decode_partial()?.fault.is_none());
    assert_eq!(reader.len(), jpeg.len());
    Ok(())
}
