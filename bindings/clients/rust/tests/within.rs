//! Pictures that fit within a size, beside those whose samples' means they have.

use zaxbriar::layout::Rgba;
use zaxbriar::{Area, ColorTransform, Decoder, Error, Scale};

const COLOUR: &str = "image/tests/colour.jpg";

fn file(path: &str) -> Vec<u8> {
    std::fs::read(path).expect(path)
}

/// Returns the size of a decoder's picture.
fn size_of(decoder: &Decoder<&[u8]>) -> (usize, usize) {
    let info = decoder.info().unwrap();
    (info.width.into(), info.height.into())
}

/// Returns the means of a picture's samples in as many boxes as a smaller one has pixels.
fn boxed(
    pixels: &[u8],
    (width, height): (usize, usize),
    (to_width, to_height): (usize, usize),
) -> Vec<u8> {
    let channels = pixels.len() / (width * height);
    let mut means = Vec::new();
    for y in 0..to_height {
        let rows = y * height / to_height..(y + 1) * height / to_height;
        for x in 0..to_width {
            let columns = x * width / to_width..(x + 1) * width / to_width;
            let count = rows.len() * columns.len();
            for channel in 0..channels {
                let at =
                    |row, column| usize::from(pixels[(row * width + column) * channels + channel]);
                let row_sum = |row| columns.clone().map(|column| at(row, column)).sum::<usize>();
                let sum: usize = rows.clone().map(row_sum).sum();
                means.push(((sum + count / 2) / count) as u8);
            }
        }
    }
    means
}

#[test]
fn samples_are_means_at_each_scale() -> Result<(), Error> {
    let jpeg = file(COLOUR);
    for (most, size, scale) in [
        ((5, 0), (5, 3), Scale::Eighth),
        ((0, 2), (3, 2), Scale::Eighth),
        ((9, 100), (9, 5), Scale::Quarter),
        ((16, 16), (16, 10), Scale::Half),
        ((30, 30), (30, 18), Scale::Full),
        ((39, 1), (2, 1), Scale::Full),
        ((0, 0), (40, 24), Scale::Full),
        ((40, 24), (40, 24), Scale::Full),
        ((u16::MAX, u16::MAX), (40, 24), Scale::Full),
    ] {
        let mut decoder = Decoder::new(&jpeg[..]);
        decoder.set_scale(scale)?;
        let whole_size = size_of(&decoder);
        assert_eq!(decoder.set_within(most.0, most.1)?, size);
        let mut other = Decoder::new(&jpeg[..]);
        other.set_scale(scale)?;
        let means = boxed(&other.decode()?, whole_size, size_of(&decoder));
        assert_eq!(decoder.decode()?, means, "{most:?}");
    }
    Ok(())
}

#[test]
fn a_size_is_that_of_the_picture_as_it_is_shown() -> Result<(), Error> {
    let jpeg = file(COLOUR);
    let exif = b"\xff\xe1\0\x1eExif\0\0MM\0*\0\0\0\x08\0\x01\x01\x12\0\x03\0\0\0\x01\0\x06\0\0";
    let jpeg = [&jpeg[..2], exif, &jpeg[2..]].concat();
    let mut decoder = Decoder::new(&jpeg[..]);
    assert_eq!(decoder.set_within(12, 12)?, (12, 7));
    decoder.set_upright(true);
    assert_eq!(size_of(&decoder), (7, 12));
    decoder.set_luma(true);
    assert_eq!(decoder.decode_as(Rgba)?.len(), 7 * 12 * 4);
    assert_eq!(size_of(&decoder), (7, 12));
    Ok(())
}

#[test]
fn a_size_goes_with_a_scale_and_a_part() -> Result<(), Error> {
    let jpeg = file(COLOUR);
    let mut decoder = Decoder::new(&jpeg[..]);
    decoder.set_scale(Scale::Half)?;
    assert_eq!(decoder.set_within(10, 10)?, (10, 6));
    let area = Area {
        left: 1,
        top: 1,
        width: 18,
        height: 9,
    };
    assert_eq!(decoder.set_crop(Some(area))?, (10, 5));
    assert_eq!(decoder.set_within(0, 3)?, (6, 3));
    let mut other = Decoder::new(&jpeg[..]);
    other.set_scale(Scale::Half)?;
    other.set_crop(Some(area))?;
    let means = boxed(&other.decode()?, (18, 9), (6, 3));
    assert_eq!(decoder.decode()?, means);
    Ok(())
}

#[test]
fn lines_of_components_fit_within_no_size() -> Result<(), Error> {
    let jpeg = file(COLOUR);
    let mut decoder = Decoder::new(&jpeg[..]);
    decoder.set_within(9, 9)?;
    decoder.set_color_transform(ColorTransform::None);
    let refusal = decoder.decode().unwrap_err().to_string();
    let text = "components within a size, expected RGB or YCbCr";
    assert!(refusal.ends_with(text), "{refusal}");
    Ok(())
}
