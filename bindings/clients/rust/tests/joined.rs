//! Metadata that stand in several segments.

use zaxbriar::{Decoder, Error};

/// Exif data of a thumbnail alone, of three bytes at 44.
const EXIF: &[u8] = b"MM\0*\0\0\0\x08\0\0\0\0\0\x0e\0\x02\
    \x02\x01\0\x04\0\0\0\x01\0\0\0\x2c\x02\x02\0\x04\0\0\0\x01\0\0\0\x03\0\0\0\0abc";

/// A main packet, and the parts of the extension that it names.
const PACKET: &[u8] = b"xmpNote:HasExtendedXMP='0123456789ABCDEF0123456789ABCDEF'";
const FIRST: &[u8] = b"0123456789ABCDEF0123456789ABCDEF\0\0\0\x05\0\0\0\0de";
const SECOND: &[u8] = b"0123456789ABCDEF0123456789ABCDEF\0\0\0\x05\0\0\0\x02fgh";

/// IPTC data of four bytes.
const RESOURCES: &[u8] = b"8BIM\x04\x04\0\0\0\0\0\x04ijkl";

/// The offset after the frame header of tests/grey.jpg.
const FRAME_END: usize = 84;

/// Returns a segment: its marker, its name and its data.
fn segment(marker: u8, name: &[u8], data: &[u8]) -> Vec<u8> {
    let length = (2 + name.len() + data.len()) as u16;
    [&[0xff, marker], &length.to_be_bytes()[..], name, data].concat()
}

fn exif(data: &[u8]) -> Vec<u8> {
    segment(0xe1, b"Exif\0\0", data)
}

fn part(data: &[u8]) -> Vec<u8> {
    segment(0xe1, b"http://ns.adobe.com/xmp/extension/\0", data)
}

fn resources(data: &[u8]) -> Vec<u8> {
    segment(0xed, b"Photoshop 3.0\0", data)
}

/// Returns a picture with some segments before its frame header, and others after it.
fn picture(before: &[Vec<u8>], behind: &[Vec<u8>]) -> Vec<u8> {
    let grey = std::fs::read("tests/grey.jpg").unwrap();
    let (head, tail) = grey.split_at(FRAME_END);
    [
        &head[..2],
        &before.concat(),
        &head[2..],
        &behind.concat(),
        tail,
    ]
    .concat()
}

#[test]
fn data_of_several_segments_are_joined() -> Result<(), Error> {
    let xmp = segment(0xe1, b"http://ns.adobe.com/xap/1.0/\0", PACKET);
    let jpeg = picture(
        &[exif(&EXIF[..20]), part(SECOND), resources(&RESOURCES[..9])],
        &[
            xmp,
            exif(&EXIF[20..]),
            part(FIRST),
            resources(&RESOURCES[9..]),
        ],
    );
    let mut decoder = Decoder::new(&jpeg[..]);
    assert_eq!(decoder.joined_exif_data(), None);
    decoder.read_info()?;
    assert_eq!(decoder.joined_exif_data().as_deref(), Some(&EXIF[..20]));
    assert_eq!(decoder.thumbnail(), None);
    assert_eq!(decoder.extended_xmp_data(), None);
    assert_eq!(decoder.iptc_data(), None);
    decoder.decode()?;
    assert_eq!(decoder.exif_data(), Some(&EXIF[20..]));
    assert_eq!(decoder.joined_exif_data().as_deref(), Some(EXIF));
    assert_eq!(decoder.thumbnail().as_deref(), Some(&b"abc"[..]));
    assert_eq!(decoder.extended_xmp_data().as_deref(), Some(&b"defgh"[..]));
    assert_eq!(decoder.iptc_data().as_deref(), Some(&b"ijkl"[..]));
    Ok(())
}

#[test]
fn resources_alone_are_read() -> Result<(), Error> {
    let jpeg = picture(&[resources(RESOURCES)], &[exif(&[])]);
    let mut decoder = Decoder::new(&jpeg[..]);
    decoder.read_info()?;
    assert_eq!(decoder.iptc_data().as_deref(), Some(&b"ijkl"[..]));
    assert_eq!(decoder.joined_exif_data(), None);
    decoder.decode()?;
    assert_eq!(decoder.joined_exif_data().as_deref(), Some(&[][..]));
    assert_eq!(decoder.thumbnail(), None);
    Ok(())
}

#[test]
fn data_before_a_fault_are_joined() {
    let mut jpeg = picture(&[exif(&EXIF[..9]), exif(&EXIF[9..])], &[]);
    jpeg.truncate(jpeg.len() - 4);
    let mut decoder = Decoder::new(&jpeg[..]);
    assert!(decoder.decode().is_err());
    assert_eq!(decoder.thumbnail().as_deref(), Some(&b"abc"[..]));
}
