//! Limits are compared with the header, before the rest of the stream is read.

use std::io::{self, Read};
use zaxbriar::{Decoder, Error, Scale};

/// The header of a grey picture of 65535x65535, and nothing after it.
fn large_header() -> Vec<u8> {
    let mut jpeg = std::fs::read("tests/grey.jpg").unwrap();
    jpeg.truncate(84);
    jpeg[76..80].fill(0xFF);
    jpeg
}

#[test]
fn a_large_picture_is_refused_by_its_header() -> Result<(), Error> {
    let jpeg = large_header();
    let mut decoder = Decoder::new(&jpeg[..]);
    decoder.read_info()?;
    assert!(decoder.decoding_bytes() > Some(65535 * 65535));
    decoder.set_max_decoding_bytes(1 << 30);
    assert!(matches!(decoder.decode(), Err(Error::Format(_))));
    decoder.set_max_decoding_bytes(u64::MAX);
    decoder.set_max_decoding_buffer_size(65535 * 65535 - 1);
    assert!(matches!(decoder.decode(), Err(Error::Format(_))));
    Ok(())
}

#[test]
fn a_partial_picture_is_limited_as_a_whole_one_is() -> Result<(), Error> {
    let jpeg = large_header();
    let mut decoder = Decoder::new(&jpeg[..]);
    decoder.set_scale(Scale::Eighth)?;
    // The planes and the picture have 2^26 bytes each, all blocks 2^33, and a row of them 2^20.
    let bytes = decoder.decoding_bytes().unwrap();
    assert!(bytes < 1 << 28);
    decoder.set_max_decoding_bytes(bytes - 1);
    assert!(matches!(decoder.decode(), Err(Error::Format(_))));
    assert!(matches!(decoder.decode_partial(), Err(Error::Format(_))));
    decoder.set_max_decoding_bytes(bytes);
    let partial = decoder.decode_partial()?;
    assert!(partial.pixels.len() == 8192 * 8192 && partial.pixels.iter().all(|&byte| byte == 128));
    assert!(matches!(partial.fault, Some(Error::Io(_))));
    Ok(())
}

#[test]
fn a_scale_makes_a_picture_smaller_and_other_settings_may_be_tried() -> Result<(), Error> {
    let jpeg = std::fs::read("tests/grey.jpg").unwrap();
    let mut decoder = Decoder::new(&jpeg[..]);
    decoder.set_max_decoding_buffer_size(16);
    assert!(matches!(decoder.decode(), Err(Error::Format(_))));
    assert_eq!(decoder.scale(3, 3)?, (4, 4));
    assert_eq!(decoder.decode()?, [0x81; 16]);
    assert!(matches!(decoder.decode(), Err(Error::Internal(_))));
    Ok(())
}

#[test]
fn metadata_behind_the_frame_are_read_under_any_limit() -> Result<(), Error> {
    let mut jpeg = std::fs::read("tests/grey.jpg").unwrap();
    jpeg.splice(84..84, *b"\xFF\xE1\0\x09Exif\0\0\x01");
    let mut decoder = Decoder::new(&jpeg[..]);
    decoder.set_scale(Scale::Eighth)?;
    // At full size it takes 192 bytes.
    decoder.set_max_decoding_bytes(191);
    assert_eq!(decoder.decode()?, [0x81]);
    assert_eq!(decoder.exif_data(), Some(&[1][..]));
    Ok(())
}

/// A reader that repeats a byte after some others, and counts what it has given.
struct Endless<'a> {
    head: &'a [u8],
    byte: u8,
    given: u64,
}

impl Read for Endless<'_> {
    fn read(&mut self, buffer: &mut [u8]) -> io::Result<usize> {
        let mut count = self.head.read(buffer)?;
        if count == 0 {
            buffer.fill(self.byte);
            count = buffer.len();
        }
        self.given += count as u64;
        Ok(count)
    }
}

const STREAM_LIMIT: &str = " bytes in the stream (set_max_stream_bytes)";

fn is_stream_limit(error: &Error, max: u64) -> bool {
    matches!(error, Error::Format(text) if *text == format!("more than {max}{STREAM_LIMIT}"))
}

#[test]
fn a_stream_without_an_end_is_refused_within_its_limit() -> Result<(), Error> {
    let jpeg = std::fs::read("tests/grey.jpg").unwrap();
    // In a scan, in fill bytes before a scan, before a frame, and in the header.
    for (length, byte) in [(139, 0), (84, 0xFF), (84, 0), (2, 0xFF), (2, 0)] {
        // The limit on memory counts here too, but not below 1 MiB.
        for (memory, stream, max) in [
            (2 << 20, None, 2 << 20),
            (1000, None, 1 << 20),
            (u64::MAX, Some(5000), 5000),
            (1000, Some(2 << 20), 2 << 20),
        ] {
            let head = &jpeg[..length];
            let mut reader = Endless {
                head,
                byte,
                given: 0,
            };
            let mut decoder = Decoder::new(&mut reader);
            decoder.set_max_decoding_bytes(memory);
            stream
                .into_iter()
                .for_each(|max| decoder.set_max_stream_bytes(max));
            let refusal = decoder.decode().unwrap_err();
            assert!(is_stream_limit(&refusal, max), "{refusal}");
            // Without a higher limit nothing more is read.
            assert!(is_stream_limit(&decoder.decode().unwrap_err(), max));
            drop(decoder);
            assert!(reader.given <= max && reader.given + 64 > max);
        }
    }
    let mut decoder = Decoder::new(Endless {
        head: &jpeg[..139],
        byte: 0,
        given: 0,
    });
    decoder.set_max_stream_bytes(5000);
    assert!(is_stream_limit(
        &decoder.decode_partial()?.fault.unwrap(),
        5000
    ));
    Ok(())
}

#[test]
fn a_stream_is_read_on_under_a_higher_limit() -> Result<(), Error> {
    let jpeg = std::fs::read("tests/grey.jpg").unwrap();
    let whole = Decoder::new(&jpeg[..]).decode()?;
    let two_images = [&jpeg[..], &jpeg].concat();
    for step in 1..=jpeg.len() {
        let mut reader = &two_images[..];
        let mut decoder = Decoder::new(&mut reader);
        for max in (0..jpeg.len()).step_by(step) {
            decoder.set_max_stream_bytes(max as u64);
            let refusal = decoder.decode().unwrap_err();
            assert!(
                is_stream_limit(&refusal, max.max(2) as u64),
                "{max}: {refusal}"
            );
        }
        decoder.set_max_stream_bytes(jpeg.len() as u64);
        assert_eq!(decoder.decode()?, whole);
        assert_eq!(reader.len(), jpeg.len());
    }
    Ok(())
}
