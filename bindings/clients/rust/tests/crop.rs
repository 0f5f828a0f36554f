//! Parts of pictures, beside the whole ones.

use zaxbriar::layout::{Grey16, Layout, Rgb565, Rgba};
use zaxbriar::{Area, ColorTransform, Decoder, Error, Scale};

const COLOUR: &str = "image/tests/colour.jpg";

fn file(path: &str) -> Vec<u8> {
    std::fs::read(path).expect(path)
}

/// Returns a file with Exif data that have an orientation alone.
fn with_orientation(path: &str, orientation: u8) -> Vec<u8> {
    let jpeg = file(path);
    let exif = b"\xff\xe1\0\x1eExif\0\0MM\0*\0\0\0\x08\0\x01\x01\x12\0\x03\0\0\0\x01\0";
    [&jpeg[..2], exif, &[orientation, 0, 0], &jpeg[2..]].concat()
}

fn area(left: u16, top: u16, width: u16, height: u16) -> Area {
    Area {
        left,
        top,
        width,
        height,
    }
}

/// Returns parts of a picture of this size: all of it, its inside, its last pixel, a row, a column.
fn areas(width: u16, height: u16) -> [Area; 5] {
    [
        area(0, 0, width, height),
        area(2, 1, width - 3, height - 2),
        area(width - 1, height - 1, 1, 1),
        area(0, height / 2, width, 1),
        area(width / 3, 0, 1, height),
    ]
}

/// Returns the elements of a part of a picture that is so wide.
fn part_of<E: Copy>(pixels: &[E], (width, height): (u16, u16), area: Area) -> Vec<E> {
    let row = pixels.len() / usize::from(height);
    let pixel = row / usize::from(width);
    let first = usize::from(area.left) * pixel;
    let count = usize::from(area.width) * pixel;
    let rows = pixels.chunks(row).skip(area.top.into());
    rows.take(area.height.into())
        .flat_map(|row| row[first..first + count].to_vec())
        .collect()
}

/// What decoders are set to.
type Settings<'a> = &'a dyn Fn(&mut Decoder<&[u8]>);

fn decoder_of<'a>(jpeg: &'a [u8], settings: Settings<'_>) -> Decoder<&'a [u8]> {
    let mut decoder = Decoder::new(jpeg);
    settings(&mut decoder);
    decoder
}

fn size_of(decoder: &Decoder<&[u8]>) -> (u16, u16) {
    let info = decoder.info().unwrap();
    (info.width, info.height)
}

/// Compares the parts of a picture, as it is stored and in a layout, from the top and from the
/// bottom, with the whole one.
fn compare<L: Layout>(jpeg: &[u8], settings: Settings<'_>, layout: L) -> Result<(), Error> {
    let mut whole = decoder_of(jpeg, settings);
    let stored = whole.decode()?;
    let size = size_of(&whole);
    let laid_out = decoder_of(jpeg, settings).decode_as(layout)?;
    for area in areas(size.0, size.1) {
        let wanted = (area.width, area.height);
        let mut decoder = decoder_of(jpeg, settings);
        assert_eq!(decoder.set_crop(Some(area))?, wanted);
        assert_eq!(decoder.decode()?, part_of(&stored, size, area));
        assert_eq!(size_of(&decoder), wanted);

        let mut decoder = decoder_of(jpeg, settings);
        decoder.set_crop(Some(area))?;
        let part = part_of(&laid_out, size, area);
        assert_eq!(decoder.decode_as(layout)?, part);

        let mut decoder = decoder_of(jpeg, settings);
        decoder.set_crop(Some(area))?;
        decoder.set_bottom_up(true);
        let from_bottom = decoder.decode_as(layout)?;
        let row = part.len() / usize::from(area.height);
        assert!(from_bottom.chunks(row).eq(part.chunks(row).rev()));
    }
    Ok(())
}

#[test]
fn parts_are_those_of_the_whole_picture() -> Result<(), Error> {
    for path in [COLOUR, "image/tests/cmyk.jpg", "image/tests/lossless.jpg"] {
        for orientation in 1..=8 {
            let jpeg = with_orientation(path, orientation);
            for scale in [Scale::Full, Scale::Half, Scale::Quarter] {
                for is_upright in [false, true] {
                    let settings = |decoder: &mut Decoder<&[u8]>| {
                        decoder.set_scale(scale).unwrap();
                        decoder.set_upright(is_upright);
                    };
                    compare(&jpeg, &settings, Rgba)?;
                    compare(&jpeg, &settings, Rgb565)?;
                    compare(&jpeg, &settings, Grey16)?;
                }
            }
        }
    }
    Ok(())
}

#[test]
fn the_luma_of_a_part_is_a_part_of_the_luma() -> Result<(), Error> {
    let jpeg = with_orientation(COLOUR, 6);
    let settings = |decoder: &mut Decoder<&[u8]>| {
        decoder.set_luma(true);
        decoder.set_upright(true);
    };
    compare(&jpeg, &settings, Rgba)?;
    // (whichever is set first)
    let mut whole = decoder_of(&jpeg, &settings);
    let luma = whole.decode()?;
    let area = area(3, 5, 7, 9);
    let mut decoder = Decoder::new(&jpeg[..]);
    decoder.set_crop(Some(area))?;
    settings(&mut decoder);
    assert_eq!(decoder.decode()?, part_of(&luma, size_of(&whole), area));
    Ok(())
}

#[test]
fn the_rows_of_a_part_that_are_complete_are_its_own() -> Result<(), Error> {
    let jpeg = file(COLOUR);
    let mut rows = Vec::new();
    for length in (0..jpeg.len()).step_by(5) {
        let whole = match Decoder::new(&jpeg[..length]).decode_partial() {
            Ok(whole) => whole,
            Err(_) => continue,
        };
        for area in areas(40, 24) {
            let mut decoder = Decoder::new(&jpeg[..length]);
            decoder.set_crop(Some(area))?;
            let part = decoder.decode_partial()?;
            assert_eq!(part.pixels, part_of(&whole.pixels, (40, 24), area));
            let complete = whole.whole_rows.saturating_sub(area.top).min(area.height);
            assert_eq!(part.whole_rows, complete);
            assert_eq!(part.fault.is_some(), whole.fault.is_some());
            rows.push(complete);
        }
    }
    assert!(rows.iter().any(|&count| 0 < count && count < 22));
    Ok(())
}

/// Asserts that an area is refused, with a text that has this.
fn assert_refused(outcome: Result<impl Sized, Error>, text: &str) {
    match outcome {
        Err(Error::Format(told)) => assert!(told.contains(text), "{told}"),
        Err(error) => panic!("{error:?}"),
        Ok(_) => panic!("{text}: not refused"),
    }
}

#[test]
fn a_part_that_is_not_inside_is_refused_and_another_may_be_tried() -> Result<(), Error> {
    let jpeg = with_orientation(COLOUR, 6);
    let mut decoder = Decoder::new(&jpeg[..]);
    let pixels = decoder_of(&jpeg, &|_| ()).decode()?;
    for wrong in [
        area(1, 0, 40, 1),
        area(0, 24, 1, 1),
        area(0, 0, 1, 0),
        area(1, 1, 0, 0),
        area(u16::MAX, u16::MAX, u16::MAX, u16::MAX),
    ] {
        assert_refused(decoder.set_crop(Some(wrong)), "has 40x24 pixels");
        assert_eq!(size_of(&decoder), (40, 24));
    }
    assert_refused(decoder.set_crop(Some(Area::default())), "without pixels");

    // The picture is 24 pixels wide once it is turned.
    let right = area(30, 2, 10, 20);
    assert_eq!(decoder.set_crop(Some(right))?, (10, 20));
    decoder.set_upright(true);
    assert_refused(decoder.decode(), "has 24x40 pixels");
    assert_refused(decoder.decode_partial_as(Rgba), "has 24x40 pixels");
    decoder.set_upright(false);
    assert_refused(decoder.set_scale(Scale::Half), "has 20x12 pixels");
    assert_eq!(size_of(&decoder), (10, 20));
    assert_eq!(decoder.decode()?, part_of(&pixels, (40, 24), right));

    let mut decoder = Decoder::new(&jpeg[..]);
    decoder.set_crop(Some(right))?;
    assert_eq!(decoder.set_crop(None)?, (40, 24));
    assert_eq!(decoder.decode()?, pixels);
    Ok(())
}

#[test]
fn a_part_is_limited_and_described_as_it_is() -> Result<(), Error> {
    let jpeg = with_orientation(COLOUR, 6);
    let mut decoder = Decoder::new(&jpeg[..]);
    decoder.read_info()?;
    let bytes = decoder.decoding_bytes().unwrap();
    decoder.set_crop(Some(area(1, 2, 3, 4)))?;
    let bytes = bytes - 3 * 40 * 24 + 3 * 3 * 4;
    assert_eq!(decoder.decoding_bytes(), Some(bytes));
    decoder.set_upright(true);
    assert_eq!(size_of(&decoder), (3, 4));
    decoder.set_luma(true);
    assert_eq!(decoder.decoding_bytes(), Some(bytes - 2 * 3 * 4));
    decoder.set_max_decoding_buffer_size(11);
    assert_refused(decoder.decode(), "12 samples");
    decoder.set_max_decoding_buffer_size(12);
    assert_eq!(decoder.decode()?.len(), 12);
    Ok(())
}

#[test]
fn lines_of_components_have_no_parts() -> Result<(), Error> {
    let jpeg = file(COLOUR);
    let mut decoder = Decoder::new(&jpeg[..]);
    decoder.set_crop(Some(area(1, 2, 3, 4)))?;
    decoder.set_color_transform(ColorTransform::None);
    assert_refused(
        decoder.decode(),
        "components of a part, expected RGB or YCbCr",
    );
    decoder.set_crop(None)?;
    assert_eq!(decoder.decode()?.len(), 40 * 24 * 3);
    // Grey and lossless pictures take no transform.
    let jpeg = file("tests/grey.jpg");
    let mut decoder = Decoder::new(&jpeg[..]);
    decoder.set_crop(Some(area(1, 2, 3, 4)))?;
    decoder.set_color_transform(ColorTransform::None);
    assert_eq!(decoder.decode()?.len(), 12);
    Ok(())
}
