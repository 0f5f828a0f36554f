//! Pictures that are turned upright, beside those that are stored.

use zaxbriar::layout::{Grey, Layout, Rgb, Rgb16, Rgb565, Rgba};
use zaxbriar::{ColorTransform, Decoder, Error, Scale};

/// Colour, inks, and samples of 16 bits.
const FILES: [&str; 3] = [
    "image/tests/colour.jpg",
    "image/tests/cmyk.jpg",
    "image/tests/lossless.jpg",
];

/// Returns a file with Exif data that have an orientation alone.
fn with_orientation(path: &str, orientation: u8) -> Vec<u8> {
    let jpeg = std::fs::read(path).expect(path);
    let exif = b"\xff\xe1\0\x1eExif\0\0MM\0*\0\0\0\x08\0\x01\x01\x12\0\x03\0\0\0\x01\0";
    [&jpeg[..2], exif, &[orientation, 0, 0], &jpeg[2..]].concat()
}

/// Returns pixels upright, of a picture that is so many wide and high, by the side on which the
/// first row is to be seen and that of the first column (Exif 2.3, 4.6.4).
fn turned<E: Copy>(pixels: &[E], (width, height): (usize, usize), orientation: u8) -> Vec<E> {
    let sides = ["TL", "TR", "BR", "BL", "LT", "RT", "RB", "LB"][usize::from(orientation) - 1];
    let (across, down) = if orientation > 4 {
        (height, width)
    } else {
        (width, height)
    };
    let length = pixels.len() / (width * height);
    let mut upright = pixels.to_vec();
    for (index, pixel) in pixels.chunks(length).enumerate() {
        let away = [index / width, index % width];
        let (mut x, mut y) = (0, 0);
        for (side, away) in sides.chars().zip(away) {
            match side {
                'T' => y = away,
                'B' => y = down - 1 - away,
                'L' => x = away,
                _ => x = across - 1 - away,
            }
        }
        let to = (y * across + x) * length;
        upright[to..to + length].copy_from_slice(pixel);
    }
    upright
}

/// Returns the size of a decoder's picture.
fn size_of(decoder: &Decoder<&[u8]>) -> (usize, usize) {
    let info = decoder.info().unwrap();
    (info.width.into(), info.height.into())
}

/// Compares a picture in a layout, upright, from the top and from the bottom, with the stored one.
fn compare<L: Layout>(jpeg: &[u8], layout: L) -> Result<(), Error> {
    let mut decoder = Decoder::new(jpeg);
    let stored = decoder.decode_as(layout)?;
    let (size, orientation) = (size_of(&decoder), decoder.orientation().unwrap());
    let wanted = turned(&stored, size, orientation);

    let mut decoder = Decoder::new(jpeg);
    decoder.set_upright(true);
    assert_eq!(decoder.decode_as(layout)?, wanted);
    let upright = size_of(&decoder);
    let is_on_side = orientation > 4;
    let wanted_size = if is_on_side { (size.1, size.0) } else { size };
    assert_eq!(upright, wanted_size);
    assert_eq!(decoder.orientation(), Some(orientation));

    let mut decoder = Decoder::new(jpeg);
    decoder.set_upright(true);
    decoder.set_bottom_up(true);
    let row = wanted.len() / upright.1;
    let from_bottom = decoder.decode_as(layout)?;
    assert!(from_bottom.chunks(row).eq(wanted.chunks(row).rev()));
    Ok(())
}

#[test]
fn pictures_are_upright_in_each_orientation() -> Result<(), Error> {
    for file in FILES {
        for orientation in 1..=8 {
            let jpeg = with_orientation(file, orientation);
            compare(&jpeg, Grey)?;
            compare(&jpeg, Rgb)?;
            compare(&jpeg, Rgba)?;
            compare(&jpeg, Rgb565)?;
            compare(&jpeg, Rgb16)?;
        }
    }
    Ok(())
}

#[test]
fn a_picture_is_described_upright_whenever_that_is_set() -> Result<(), Error> {
    for orientation in 1..=8 {
        let jpeg = with_orientation(FILES[0], orientation);
        let upright = if orientation > 4 { (24, 40) } else { (40, 24) };
        let mut decoder = Decoder::new(&jpeg[..]);
        decoder.set_upright(true);
        decoder.read_info()?;
        assert_eq!(size_of(&decoder), upright);
        decoder.set_upright(true);
        assert_eq!(size_of(&decoder), upright);
        decoder.set_upright(false);
        assert_eq!(size_of(&decoder), (40, 24));
        let half = decoder.set_scale(Scale::Half)?;
        assert_eq!(half, (20, 12));
        decoder.set_upright(true);
        let half = (upright.0 / 2, upright.1 / 2);
        assert_eq!(size_of(&decoder), half);
        assert_eq!(decoder.decode()?.len(), 20 * 12 * 3);
        assert_eq!(size_of(&decoder), half);
    }
    Ok(())
}

#[test]
fn a_part_is_turned_and_its_rows_are_those_of_the_stored_picture() -> Result<(), Error> {
    for orientation in 1..=8 {
        let jpeg = with_orientation(FILES[0], orientation);
        let mut rows = Vec::new();
        for length in (0..jpeg.len()).step_by(3) {
            let cut = &jpeg[..length];
            let mut decoder = Decoder::new(cut);
            decoder.set_upright(true);
            let upright = match decoder.decode_partial() {
                Ok(partial) => partial,
                Err(_) => continue,
            };
            let stored = Decoder::new(cut).decode_partial()?;
            let wanted = turned(&stored.pixels, (40, 24), orientation);
            assert_eq!(upright.pixels, wanted);
            assert_eq!(upright.whole_rows, stored.whole_rows);
            rows.push(stored.whole_rows);
        }
        assert!(rows.iter().any(|&count| 0 < count && count < 24));
    }
    Ok(())
}

#[test]
fn lines_of_components_are_not_turned() -> Result<(), Error> {
    let jpeg = with_orientation(FILES[0], 6);
    let mut decoder = Decoder::new(&jpeg[..]);
    decoder.set_upright(true);
    decoder.set_color_transform(ColorTransform::None);
    let refusal = decoder.decode().unwrap_err();
    assert!(matches!(refusal, Error::Format(_)));
    let text = "components turned upright, expected RGB or YCbCr";
    assert!(refusal.to_string().ends_with(text), "{refusal}");
    decoder.set_upright(false);
    assert_eq!(decoder.decode()?.len(), 40 * 24 * 3);
    // Grey and lossless pictures take no transform.
    let jpeg = with_orientation("tests/grey.jpg", 6);
    let mut decoder = Decoder::new(&jpeg[..]);
    decoder.set_upright(true);
    decoder.set_color_transform(ColorTransform::None);
    assert_eq!(decoder.decode()?.len(), 64);
    Ok(())
}
