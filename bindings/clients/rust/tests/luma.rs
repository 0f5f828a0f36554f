//! The luma of pictures in colour, beside the components that there are without a conversion.

use zaxbriar::layout::{Grey16, Rgb, Rgba};
use zaxbriar::{ColorTransform, Decoder, Error, PixelFormat, Scale};

const COLOUR: &str = "image/tests/colour.jpg";

fn file(path: &str) -> Vec<u8> {
    std::fs::read(path).expect(path)
}

/// Returns a decoder of a stream that gives its luma alone.
fn decoder_of(jpeg: &[u8]) -> Decoder<&[u8]> {
    let mut decoder = Decoder::new(jpeg);
    decoder.set_luma(true);
    decoder
}

/// Returns the first component of lines of three components, so many samples each.
fn first_of(lines: &[u8], width: usize) -> Vec<u8> {
    lines
        .chunks(width)
        .step_by(3)
        .flat_map(|line| line.to_vec())
        .collect()
}

#[test]
fn luma_is_the_first_component() -> Result<(), Error> {
    let jpeg = file(COLOUR);
    for scale in [Scale::Full, Scale::Half, Scale::Quarter, Scale::Eighth] {
        let mut decoder = Decoder::new(&jpeg[..]);
        decoder.set_color_transform(ColorTransform::None);
        let (width, height) = decoder.set_scale(scale)?;
        let wanted = first_of(&decoder.decode()?, width.into());
        let mut decoder = decoder_of(&jpeg);
        assert_eq!(decoder.set_scale(scale)?, (width, height));
        assert_eq!(decoder.decode()?, wanted);
        assert_eq!(decoder.info().unwrap().pixel_format, PixelFormat::L8);
        let mut decoder = decoder_of(&jpeg);
        decoder.set_scale(scale)?;
        let opaque = wanted.iter().flat_map(|&luma| [luma, luma, luma, 255]);
        assert!(decoder.decode_as(Rgba)?.into_iter().eq(opaque));
        let mut decoder = decoder_of(&jpeg);
        decoder.set_scale(scale)?;
        let wide = wanted.iter().map(|&luma| u16::from(luma) * 257);
        assert!(decoder.decode_as(Grey16)?.into_iter().eq(wide));
    }
    Ok(())
}

#[test]
fn a_part_has_the_luma_of_a_part() -> Result<(), Error> {
    let jpeg = file(COLOUR);
    let mut decoder = Decoder::new(&jpeg[..]);
    decoder.read_info()?;
    let width = decoder.info().unwrap().width.into();
    let mut parts = 0;
    for length in (0..jpeg.len()).step_by(7) {
        let mut decoder = Decoder::new(&jpeg[..length]);
        decoder.set_color_transform(ColorTransform::None);
        let (lines, luma) = match (
            decoder.decode_partial(),
            decoder_of(&jpeg[..length]).decode_partial(),
        ) {
            (Ok(lines), Ok(luma)) => (lines, luma),
            (Err(_), Err(_)) => continue,
            (lines, luma) => panic!("{length} bytes: {lines:?}, {luma:?}"),
        };
        assert_eq!(luma.pixels, first_of(&lines.pixels, width));
        assert_eq!(luma.whole_rows, lines.whole_rows);
        parts += 1;
    }
    assert!(parts > 10);
    Ok(())
}

#[test]
fn a_picture_is_described_as_grey_whenever_that_is_set() -> Result<(), Error> {
    let jpeg = file(COLOUR);
    let mut decoder = Decoder::new(&jpeg[..]);
    decoder.read_info()?;
    let format = |decoder: &Decoder<&[u8]>| decoder.info().unwrap().pixel_format;
    let bytes = decoder.decoding_bytes().unwrap();
    let pixels = 40 * 24;
    assert_eq!(format(&decoder), PixelFormat::RGB24);
    decoder.set_luma(true);
    assert_eq!(format(&decoder), PixelFormat::L8);
    assert_eq!(decoder.decoding_bytes(), Some(bytes - 2 * pixels));
    decoder.set_luma(false);
    assert_eq!(format(&decoder), PixelFormat::RGB24);
    assert_eq!(decoder.decoding_bytes(), Some(bytes));
    decoder.set_luma(true);
    decoder.set_max_decoding_buffer_size(pixels as usize - 1);
    assert!(matches!(decoder.decode(), Err(Error::Format(_))));
    decoder.set_max_decoding_buffer_size(pixels as usize);
    assert_eq!(decoder.decode()?.len() as u64, pixels);
    Ok(())
}

#[test]
fn other_components_are_no_luma() -> Result<(), Error> {
    let cmyk = file("image/tests/cmyk.jpg");
    assert!(matches!(decoder_of(&cmyk).decode(), Err(Error::Format(_))));
    let partial = decoder_of(&cmyk).decode_partial();
    assert!(matches!(partial, Err(Error::Format(_))));
    let jpeg = file(COLOUR);
    for transform in [
        ColorTransform::None,
        ColorTransform::Grayscale,
        ColorTransform::RGB,
        ColorTransform::CMYK,
        ColorTransform::JcsBgYcc,
    ] {
        let mut decoder = decoder_of(&jpeg);
        decoder.set_color_transform(transform);
        let refusal = decoder.decode().unwrap_err();
        assert!(matches!(refusal, Error::Format(_)));
        let text = "of a picture whose luma is asked for, expected YCbCr";
        assert!(refusal.to_string().ends_with(text), "{refusal}");
        decoder.set_color_transform(ColorTransform::YCbCr);
        assert_eq!(decoder.decode()?, decoder_of(&jpeg).decode()?);
    }
    Ok(())
}

#[test]
fn grey_and_lossless_pictures_stay_as_they_are() -> Result<(), Error> {
    for path in ["tests/grey.jpg", "image/tests/lossless.jpg"] {
        let jpeg = file(path);
        let mut stored = Decoder::new(&jpeg[..]);
        let pixels = stored.decode()?;
        let mut decoder = decoder_of(&jpeg);
        assert_eq!(decoder.decode()?, pixels);
        assert_eq!(decoder.info(), stored.info());
        let colours = Decoder::new(&jpeg[..]).decode_as(Rgb)?;
        assert_eq!(decoder_of(&jpeg).decode_as(Rgb)?, colours);
    }
    Ok(())
}
