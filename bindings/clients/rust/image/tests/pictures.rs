//! What `image` decodes through `ZaxbriarDecoder`, beside the decoder itself and `image`'s own.

use image::error::{LimitErrorKind, UnsupportedErrorKind};
use image::{ColorType, DynamicImage, GenericImageView, ImageDecoder, ImageError, ImageFormat};
use std::io::ErrorKind;
use zaxbriar::Decoder;
use zaxbriar_image::ZaxbriarDecoder;

const GREY: &[u8] = include_bytes!("../../tests/grey.jpg");
const COLOUR: &[u8] = include_bytes!("colour.jpg");
/// Of YCCK, by Adobe.
const CMYK: &[u8] = include_bytes!("cmyk.jpg");
/// Of 16 bits, grey and of four components.
const LOSSLESS: &[u8] = include_bytes!("lossless.jpg");
const LOSSLESS_CMYK: &[u8] = include_bytes!("lossless-cmyk.jpg");

fn picture(jpeg: &[u8]) -> DynamicImage {
    DynamicImage::from_decoder(ZaxbriarDecoder::new(jpeg).unwrap()).unwrap()
}

#[test]
fn samples_are_those_of_the_decoder() {
    let files = [
        (GREY, ColorType::L8, (8, 8)),
        (COLOUR, ColorType::Rgb8, (40, 24)),
        (LOSSLESS, ColorType::L16, (12, 9)),
    ];
    for (jpeg, color, size) in files {
        let picture = picture(jpeg);
        assert_eq!((picture.color(), picture.dimensions()), (color, size));
        assert_eq!(picture.as_bytes(), Decoder::new(jpeg).decode().unwrap());
    }
}

#[test]
fn four_components_become_three() {
    let cmyk = Decoder::new(CMYK).decode().unwrap();
    let light = |ink: u8| 255 - u32::from(ink);
    let in_colour = cmyk.chunks(4).flat_map(|pixel| {
        let black = light(pixel[3]);
        pixel[..3]
            .iter()
            .map(move |&ink| (light(ink) * black / 255) as u8)
    });
    let picture = picture(CMYK);
    assert_eq!(
        (picture.color(), picture.dimensions()),
        (ColorType::Rgb8, (24, 16))
    );
    assert_eq!(picture.as_bytes(), in_colour.collect::<Vec<_>>());
}

#[test]
fn four_components_of_16_bits_become_three() {
    let cmyk = Decoder::new(LOSSLESS_CMYK).decode().unwrap();
    let samples: Vec<_> = cmyk
        .chunks(2)
        .map(|bytes| 65535 - u32::from(u16::from_le_bytes([bytes[0], bytes[1]])))
        .collect();
    let in_colour = samples.chunks(4).flat_map(|pixel| {
        let black = pixel[3];
        pixel[..3]
            .iter()
            .map(move |&light| (light * black / 65535) as u16)
    });
    let picture = picture(LOSSLESS_CMYK);
    assert_eq!(
        (picture.color(), picture.dimensions()),
        (ColorType::Rgb16, (5, 4))
    );
    assert_eq!(
        *picture.as_rgb16().unwrap().as_raw(),
        in_colour.collect::<Vec<_>>()
    );
}

/// Where `image`'s own decoder has a picture, it is nearly the same. (That of 0.25 has none of a
/// lossless file.)
#[test]
fn pictures_are_near_those_of_the_own_decoder() {
    let mut compared = 0;
    for jpeg in [GREY, COLOUR, CMYK, LOSSLESS] {
        let own = match image::load_from_memory_with_format(jpeg, ImageFormat::Jpeg) {
            Ok(own) => own,
            Err(_) => continue,
        };
        let ours = picture(jpeg);
        assert_eq!(
            (ours.color(), ours.dimensions()),
            (own.color(), own.dimensions())
        );
        let pairs = ours.as_bytes().iter().zip(own.as_bytes());
        let most = pairs.map(|(ours, own)| ours.abs_diff(*own)).max().unwrap();
        assert!(most <= 3, "a difference of {most}");
        compared += 1;
    }
    assert!(compared >= 3);
}

/// Returns the error of a file that isn't decoded.
fn error(jpeg: &[u8]) -> ImageError {
    ZaxbriarDecoder::new(jpeg)
        .and_then(DynamicImage::from_decoder)
        .unwrap_err()
}

#[test]
fn errors_are_of_their_kinds() {
    assert!(matches!(error(b"GIF89a"), ImageError::Decoding(_)));
    let mut arithmetic = GREY.to_vec();
    arithmetic[72] = 0xC9;
    match error(&arithmetic) {
        ImageError::Unsupported(error) => {
            let feature = "ArithmeticEntropyCoding".to_string();
            assert_eq!(error.kind(), UnsupportedErrorKind::GenericFeature(feature));
            assert_eq!(error.format_hint(), ImageFormat::Jpeg.into());
        }
        other => panic!("{other:?}"),
    }
    for length in [0, 60, 130] {
        match error(&GREY[..length]) {
            ImageError::IoError(error) => assert_eq!(error.kind(), ErrorKind::UnexpectedEof),
            other => panic!("{other:?}"),
        }
    }
}

#[test]
#[allow(deprecated)]
fn limits_refuse_by_the_header() {
    let refusal = |set: &dyn Fn(&mut image::io::Limits)| {
        let mut limits = image::io::Limits::no_limits();
        set(&mut limits);
        let mut decoder = ZaxbriarDecoder::new(COLOUR).unwrap();
        match decoder.set_limits(limits) {
            Ok(()) => None,
            Err(ImageError::Limits(error)) => Some(error.kind()),
            Err(other) => panic!("{other:?}"),
        }
    };
    let needed = {
        let mut decoder = Decoder::new(COLOUR);
        decoder.read_info().unwrap();
        decoder.decoding_bytes().unwrap()
    };
    let dimension = Some(LimitErrorKind::DimensionError);
    assert_eq!(
        refusal(&|limits| limits.max_image_width = Some(39)),
        dimension
    );
    assert_eq!(
        refusal(&|limits| limits.max_image_height = Some(23)),
        dimension
    );
    let memory = Some(LimitErrorKind::InsufficientMemory);
    assert_eq!(
        refusal(&|limits| limits.max_alloc = Some(needed - 1)),
        memory
    );
    assert_eq!(refusal(&|limits| limits.max_alloc = Some(needed)), None);
    assert_eq!(refusal(&|_| {}), None);
}

#[test]
fn a_lent_reader_stands_after_the_image() {
    let two_images = [COLOUR, GREY].concat();
    let mut reader = &two_images[..];
    let decoder = ZaxbriarDecoder::new(&mut reader).unwrap();
    let mut pixels = vec![0; decoder.total_bytes() as usize];
    decoder.read_image(&mut pixels).unwrap();
    assert_eq!(pixels, Decoder::new(COLOUR).decode().unwrap());
    assert_eq!(reader, GREY);
}
