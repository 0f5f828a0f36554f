//! Pictures in each layout, from the top and from the bottom.

mod model;

use model::compare_layouts;
use zaxbriar::layout::{Grey, Layout, Rgb16, Rgb565, Rgba};
use zaxbriar::{ColorTransform, Decoder, Error, PartialPicture, Scale};

fn read(path: &str) -> Vec<u8> {
    std::fs::read(path).expect(path)
}

/// Grey, colour, and inks, of 8 bits and of more.
const FILES: [&str; 5] = [
    "tests/grey.jpg",
    "image/tests/colour.jpg",
    "image/tests/cmyk.jpg",
    "image/tests/lossless.jpg",
    "image/tests/lossless-cmyk.jpg",
];

#[test]
fn every_picture_has_every_layout() -> Result<(), Error> {
    for file in FILES {
        for scale in [Scale::Full, Scale::Half, Scale::Quarter, Scale::Eighth] {
            compare_layouts(&read(file), &|decoder| {
                decoder.set_scale(scale).unwrap();
            })?;
        }
    }
    Ok(())
}

#[test]
fn a_layout_says_how_many_elements_a_pixel_has() -> Result<(), Error> {
    fn elements_of<L: Layout>(jpeg: &[u8], layout: L) -> Result<usize, Error> {
        let picture = Decoder::new(jpeg).decode_as(layout)?;
        assert_eq!(picture.len() % L::PIXEL_ELEMENTS, 0);
        Ok(picture.len() / L::PIXEL_ELEMENTS)
    }
    for file in FILES {
        let jpeg = read(file);
        let mut decoder = Decoder::new(&jpeg[..]);
        decoder.read_info()?;
        let info = decoder.info().unwrap();
        let pixels = usize::from(info.width) * usize::from(info.height);
        assert_eq!(elements_of(&jpeg, Rgba)?, pixels);
        assert_eq!(elements_of(&jpeg, Rgb565)?, pixels);
        assert_eq!(elements_of(&jpeg, Rgb16)?, pixels);
    }
    Ok(())
}

#[test]
fn rows_from_the_bottom_are_those_of_the_picture_as_it_is_stored_too() -> Result<(), Error> {
    for file in FILES {
        let jpeg = read(file);
        let mut decoder = Decoder::new(&jpeg[..]);
        decoder.set_bottom_up(true);
        let from_bottom = decoder.decode()?;
        let from_top = Decoder::new(&jpeg[..]).decode()?;
        let row = from_top.len() / usize::from(decoder.info().unwrap().height);
        assert!(from_bottom.chunks(row).eq(from_top.chunks(row).rev()));

        let mut decoder = Decoder::new(&jpeg[..]);
        decoder.set_bottom_up(true);
        decoder.set_bottom_up(false);
        assert_eq!(decoder.decode()?, from_top);
    }
    Ok(())
}

#[test]
fn whole_rows_of_a_part_are_the_last_ones_from_the_bottom() -> Result<(), Error> {
    let jpeg = read("image/tests/colour.jpg");
    let mut rows = Vec::new();
    for length in 0..jpeg.len() {
        let cut = &jpeg[..length];
        let mut decoder = Decoder::new(cut);
        decoder.set_bottom_up(true);
        let from_bottom: PartialPicture<u16> = match decoder.decode_partial_as(Rgb16) {
            Ok(partial) => partial,
            Err(_) => continue,
        };
        let from_top = Decoder::new(cut).decode_partial_as(Rgb16)?;
        let row = 3 * usize::from(decoder.info().unwrap().width);
        let turned = from_top.pixels.chunks(row).rev();
        assert!(from_bottom.pixels.chunks(row).eq(turned));
        assert_eq!(from_bottom.whole_rows, from_top.whole_rows);
        assert!(matches!(from_bottom.fault, Some(Error::Io(_))));
        rows.push(from_bottom.whole_rows);
    }
    assert!(rows.first() == Some(&0) && rows.last() == Some(&24));
    assert!(rows.iter().any(|&count| 0 < count && count < 24));
    Ok(())
}

/// Returns the least limit on memory at which a call has a picture.
fn least_limit<T>(jpeg: &[u8], call: impl Fn(&mut Decoder<&[u8]>) -> Result<T, Error>) -> u64 {
    let has_picture = |&max: &u64| {
        let mut decoder = Decoder::new(jpeg);
        decoder.set_max_decoding_bytes(max);
        call(&mut decoder).is_ok()
    };
    (0..50_000).find(has_picture).expect("no picture")
}

#[test]
fn a_picture_is_limited_as_it_is_in_its_layout() -> Result<(), Error> {
    let jpeg = read("image/tests/colour.jpg");
    let (small, large) = (40 * 24 * 3, 40 * 24 * 6);
    let stored = least_limit(&jpeg, |it| it.decode());
    let wide = least_limit(&jpeg, |it| it.decode_as(Rgb16));
    assert_eq!(wide - large, stored - small);
    assert_eq!(least_limit(&jpeg, |it| it.decode_partial()), stored);
    assert_eq!(least_limit(&jpeg, |it| it.decode_partial_as(Rgb16)), wide);

    // It is refused by the header, of 84 bytes, and may be decoded into another layout.
    let jpeg = read("tests/grey.jpg");
    let stored = least_limit(&jpeg, |it| it.decode());
    let mut decoder = Decoder::new(&jpeg[..]);
    decoder.set_max_decoding_bytes(stored);
    assert!(matches!(decoder.decode_as(Rgb16), Err(Error::Format(_))));
    assert_eq!(decoder.decode_as(Grey)?, [0x81; 64]);
    assert!(matches!(decoder.decode_as(Grey), Err(Error::Internal(_))));
    let mut reader = &jpeg[..];
    let mut decoder = Decoder::new(&mut reader);
    decoder.set_max_decoding_bytes(stored);
    assert!(decoder.decode_as(Rgb16).is_err());
    drop(decoder);
    assert_eq!(reader.len(), jpeg.len() - 84);

    // Samples are those of the stream, whatever the layout.
    let mut decoder = Decoder::new(&jpeg[..]);
    decoder.set_max_decoding_buffer_size(63);
    assert!(matches!(decoder.decode_as(Rgba), Err(Error::Format(_))));
    decoder.set_max_decoding_buffer_size(64);
    assert_eq!(decoder.decode_as(Rgba)?.len(), 256);
    Ok(())
}

#[test]
fn lines_of_components_have_no_layout_and_another_transform_may_be_tried() -> Result<(), Error> {
    for (file, fitting, expected) in [
        (
            "image/tests/colour.jpg",
            ColorTransform::RGB,
            "RGB or YCbCr",
        ),
        ("image/tests/cmyk.jpg", ColorTransform::CMYK, "CMYK or YCCK"),
    ] {
        let jpeg = read(file);
        let mut decoder = Decoder::new(&jpeg[..]);
        for transform in [
            ColorTransform::None,
            ColorTransform::Unknown,
            ColorTransform::Grayscale,
        ] {
            decoder.set_color_transform(transform);
            let refusal = decoder.decode_as(Rgba).unwrap_err();
            assert!(matches!(refusal, Error::Format(_)));
            let text = format!(" in a layout, expected {expected}");
            assert!(refusal.to_string().ends_with(&text), "{refusal}");
            assert!(decoder.decode_partial_as(Rgba).is_err());
        }
        decoder.set_color_transform(fitting);
        assert!(decoder.decode_as(Rgba).is_ok());
        compare_layouts(&jpeg, &|decoder| decoder.set_color_transform(fitting))?;
    }
    // Grey and lossless pictures take no transform.
    for file in ["tests/grey.jpg", "image/tests/lossless.jpg"] {
        let jpeg = read(file);
        let mut decoder = Decoder::new(&jpeg[..]);
        decoder.set_color_transform(ColorTransform::None);
        let pixels = decoder.decode_as(Rgba)?;
        assert_eq!(pixels, Decoder::new(&jpeg[..]).decode_as(Rgba)?);
    }
    Ok(())
}

#[test]
fn a_lent_reader_stands_after_the_image() -> Result<(), Error> {
    let jpeg = read("tests/grey.jpg");
    let two_images = [&jpeg[..], &jpeg].concat();
    let mut reader = &two_images[..];
    Decoder::new(&mut reader).decode_as(Rgb565)?;
    assert_eq!(reader.len(), jpeg.len());
    let cut = &jpeg[..jpeg.len() - 3];
    assert!(matches!(
        Decoder::new(cut).decode_as(Rgba),
        Err(Error::Io(_))
    ));
    Ok(())
}
