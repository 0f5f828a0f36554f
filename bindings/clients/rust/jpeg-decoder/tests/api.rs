//! The names, types and traits of jpeg-decoder's interface, and what its calls give. This file
//! compiles and passes over the original crate too.

use jpeg_decoder::{
    CodingProcess, ColorTransform, Decoder, Error, ImageInfo, PixelFormat, UnsupportedFeature,
};
use std::error::Error as StdError;
use std::fmt::{Debug, Display};
use std::hash::Hash;
use std::io::{self, Cursor, Read};
use std::panic::{RefUnwindSafe, UnwindSafe};

/// A grey picture of 8x8, each sample of which is 81.
const GREY: &[u8] = include_bytes!("../../tests/grey.jpg");

fn is_shared<T: Send + Sync + Unpin + UnwindSafe + RefUnwindSafe + 'static>() {}
fn is_thread_safe<T: Send + Sync + Unpin + 'static>() {}
fn is_plain<T: Copy + Clone + Debug + PartialEq + Send + Sync + 'static>() {}
fn is_hashed<T: Clone + Debug + PartialEq + Eq + Hash>() {}
fn is_error<T: StdError + Display + Debug + From<io::Error>>() {}

#[test]
fn traits() {
    is_shared::<Decoder<Cursor<Vec<u8>>>>();
    is_thread_safe::<Error>();
    is_error::<Error>();
    is_plain::<PixelFormat>();
    is_plain::<ImageInfo>();
    is_plain::<CodingProcess>();
    is_plain::<ColorTransform>();
    is_hashed::<ColorTransform>();
    is_hashed::<UnsupportedFeature>();
}

#[test]
fn texts_and_sources_of_errors() {
    let features = [
        (UnsupportedFeature::Hierarchical, "Hierarchical"),
        (
            UnsupportedFeature::ArithmeticEntropyCoding,
            "ArithmeticEntropyCoding",
        ),
        (
            UnsupportedFeature::SamplePrecision(12),
            "SamplePrecision(12)",
        ),
        (UnsupportedFeature::ComponentCount(2), "ComponentCount(2)"),
        (UnsupportedFeature::DNL, "DNL"),
        (UnsupportedFeature::SubsamplingRatio, "SubsamplingRatio"),
        (
            UnsupportedFeature::NonIntegerSubsamplingRatio,
            "NonIntegerSubsamplingRatio",
        ),
        (
            UnsupportedFeature::ColorTransform(ColorTransform::JcsBgYcc),
            "ColorTransform(JcsBgYcc)",
        ),
    ];
    for (feature, name) in features {
        let error = Error::Unsupported(feature);
        assert_eq!(
            error.to_string(),
            format!("unsupported JPEG feature: {name}")
        );
        assert!(error.source().is_none());
    }
    let error = Error::Format("why".to_string());
    assert_eq!(error.to_string(), "invalid JPEG format: why");
    assert!(error.source().is_none());
    let error: Error = io::Error::new(io::ErrorKind::Other, "why").into();
    assert!(matches!(error, Error::Io(_)));
    assert_eq!(error.to_string(), "why");
    assert!(error.source().unwrap().is::<io::Error>());
    let error = Error::Internal("why".into());
    assert_eq!(error.to_string(), "why");
    assert!(error.source().is_some());
}

#[test]
fn variants() {
    // Matches without `_`, as of enums that are exhaustive.
    let bytes = |format| match format {
        PixelFormat::L8 => 1usize,
        PixelFormat::L16 => 2,
        PixelFormat::RGB24 => 3,
        PixelFormat::CMYK32 => 4,
    };
    for format in [
        PixelFormat::L8,
        PixelFormat::L16,
        PixelFormat::RGB24,
        PixelFormat::CMYK32,
    ] {
        assert_eq!(format.pixel_bytes(), bytes(format));
    }
    let name = |process| match process {
        CodingProcess::DctSequential => "DctSequential",
        CodingProcess::DctProgressive => "DctProgressive",
        CodingProcess::Lossless => "Lossless",
    };
    for process in [
        CodingProcess::DctSequential,
        CodingProcess::DctProgressive,
        CodingProcess::Lossless,
    ] {
        assert_eq!(format!("{process:?}"), name(process));
    }
    let transforms = [
        (ColorTransform::None, "None"),
        (ColorTransform::Unknown, "Unknown"),
        (ColorTransform::Grayscale, "Grayscale"),
        (ColorTransform::RGB, "RGB"),
        (ColorTransform::YCbCr, "YCbCr"),
        (ColorTransform::CMYK, "CMYK"),
        (ColorTransform::YCCK, "YCCK"),
        (ColorTransform::JcsBgYcc, "JcsBgYcc"),
        (ColorTransform::JcsBgRgb, "JcsBgRgb"),
    ];
    for (transform, name) in transforms {
        assert_eq!(format!("{transform:?}"), name);
    }
}

#[test]
fn calls() -> Result<(), Error> {
    let mut decoder: Decoder<&[u8]> = Decoder::new(GREY);
    assert!(decoder.info().is_none());
    let (): () = decoder.read_info()?;
    let info: ImageInfo = decoder.info().unwrap();
    let ImageInfo {
        width,
        height,
        pixel_format,
        coding_process,
    } = info;
    assert_eq!((width, height), (8u16, 8u16));
    assert_eq!(pixel_format, PixelFormat::L8);
    assert_eq!(coding_process, CodingProcess::DctSequential);
    let exif: Option<&[u8]> = decoder.exif_data();
    assert!(exif.is_none());
    let xmp: Option<&[u8]> = decoder.xmp_data();
    assert!(xmp.is_none());
    let icc: Option<Vec<u8>> = decoder.icc_profile();
    assert!(icc.is_none());
    decoder.set_color_transform(ColorTransform::Grayscale);
    decoder.set_max_decoding_buffer_size(64usize);
    let pixels: Vec<u8> = decoder.decode()?;
    assert_eq!(pixels, [0x81; 64]);
    Ok(())
}

#[test]
fn scales() -> Result<(), Error> {
    for (asked, given) in [
        ((0, 0), 1),
        ((0, 8), 1),
        ((2, 9), 2),
        ((8, 8), 8),
        ((9, 9), 8),
    ] {
        let mut decoder = Decoder::new(GREY);
        let size: (u16, u16) = decoder.scale(asked.0, asked.1)?;
        assert_eq!(size, (given, given));
        assert_eq!(decoder.decode()?.len(), usize::from(given * given));
    }
    Ok(())
}

#[test]
fn limits() {
    for (limit, is_decoded) in [(0, false), (63, false), (64, true)] {
        let mut decoder = Decoder::new(GREY);
        decoder.set_max_decoding_buffer_size(limit);
        match decoder.decode() {
            Ok(_) => assert!(is_decoded),
            Err(Error::Format(_)) => assert!(!is_decoded),
            Err(error) => panic!("{error}"),
        }
    }
}

#[test]
fn metadata_before_and_behind_the_frame() -> Result<(), Error> {
    let frame = 71;
    let exif = |byte| [b"\xFF\xE1\0\x09Exif\0\0", &[byte][..]].concat();
    let jpeg = [
        &GREY[..2],
        &exif(1),
        &GREY[2..frame + 13],
        &exif(2),
        &GREY[frame + 13..],
    ]
    .concat();
    let mut decoder = Decoder::new(&jpeg[..]);
    decoder.read_info()?;
    assert_eq!(decoder.exif_data(), Some(&[1][..]));
    decoder.decode()?;
    assert_eq!(decoder.exif_data(), Some(&[2][..]));
    let mut cut = Decoder::new(&jpeg[..jpeg.len() - 2]);
    assert!(matches!(cut.decode(), Err(Error::Io(_))));
    assert_eq!(cut.exif_data(), Some(&[2][..]));
    Ok(())
}

/// A reader of some bytes that fails after them.
struct Failing<'a>(&'a [u8]);

impl Read for Failing<'_> {
    fn read(&mut self, buffer: &mut [u8]) -> io::Result<usize> {
        match self.0.read(buffer)? {
            0 if !buffer.is_empty() => {
                Err(io::Error::new(io::ErrorKind::Other, "the disk is gone"))
            }
            count => Ok(count),
        }
    }
}

#[test]
fn a_failure_of_the_reader_is_returned() {
    assert!(Decoder::new(Failing(GREY)).decode().is_ok());
    for end in 0..GREY.len() {
        match Decoder::new(Failing(&GREY[..end])).decode() {
            Err(Error::Io(error)) => assert_eq!(error.to_string(), "the disk is gone", "{end}"),
            other => panic!("{end}: {other:?}"),
        }
    }
}

/// A reader that gives a byte every other time, and is interrupted between.
struct Interrupted<'a>(&'a [u8], bool);

impl Read for Interrupted<'_> {
    fn read(&mut self, buffer: &mut [u8]) -> io::Result<usize> {
        self.1 = !self.1;
        if self.1 {
            return Err(io::ErrorKind::Interrupted.into());
        }
        let count = buffer.len().min(1);
        self.0.read(&mut buffer[..count])
    }
}

#[test]
fn an_interrupted_reader_is_asked_again() {
    assert_eq!(
        Decoder::new(Interrupted(GREY, false)).decode().unwrap(),
        [0x81; 64]
    );
}

#[test]
fn a_lent_reader_stays_behind_the_header_and_the_image() -> Result<(), Error> {
    let two = [GREY, GREY, b"rest"].concat();
    let mut reader = &two[..];
    let mut decoder = Decoder::new(&mut reader);
    decoder.read_info()?;
    drop(decoder);
    assert_eq!(two.len() - reader.len(), 71 + 13);
    let mut reader = &two[..];
    assert_eq!(Decoder::new(&mut reader).decode()?, [0x81; 64]);
    assert_eq!(reader.len(), GREY.len() + 4);
    assert_eq!(Decoder::new(&mut reader).decode()?, [0x81; 64]);
    assert_eq!(reader, b"rest");
    Ok(())
}
