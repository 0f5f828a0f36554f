//! Streams that arrive in pieces, beside the part of the same bytes.

use std::io::ErrorKind;
use std::thread;
use zaxbriar::layout::{Layout, Rgb16, Rgba};
use zaxbriar::{Area, Decoder, Error, FedDecoder, FedSettings, PartialPicture, Scale};

const FILES: [&str; 4] = [
    "tests/grey.jpg",
    "image/tests/colour.jpg",
    "image/tests/cmyk.jpg",
    "image/tests/lossless.jpg",
];

fn file(path: &str) -> Vec<u8> {
    std::fs::read(path).expect(path)
}

/// What is shown, or the text of the error.
type Shown<E> = Result<(Vec<E>, u16, Option<String>), String>;

fn told<E>(shown: Result<PartialPicture<E>, Error>) -> Shown<E> {
    let partial = shown.map_err(|error| error.to_string())?;
    let fault = partial.fault.map(|fault| fault.to_string());
    Ok((partial.pixels, partial.whole_rows, fault))
}

/// A decoder of some bytes with the same settings.
fn decoder_of<'a>(jpeg: &'a [u8], settings: &FedSettings) -> Result<Decoder<&'a [u8]>, Error> {
    let mut decoder = Decoder::new(jpeg);
    decoder.set_bottom_up(settings.bottom_up);
    decoder.set_upright(settings.upright);
    decoder.set_luma(settings.luma);
    decoder.set_max_passes(settings.max_passes);
    if let Some(scale) = settings.scale {
        decoder.set_scale(scale)?;
    }
    if settings.crop.is_some() {
        decoder.set_crop(settings.crop)?;
    }
    decoder.set_within(settings.within.0, settings.within.1)?;
    Ok(decoder)
}

/// Compares what is shown after each piece, as it is stored and in a layout.
fn compare<L: Layout>(jpeg: &[u8], size: usize, settings: &FedSettings, layout: L) {
    let mut stored = FedDecoder::new(settings).unwrap();
    let mut laid_out = FedDecoder::new_as(layout, settings).unwrap();
    let mut fed = 0;
    for piece in jpeg.chunks(size) {
        stored.feed(piece).unwrap();
        laid_out.feed(piece).unwrap();
        fed += piece.len();
        assert_eq!(stored.bytes_fed(), fed as u64);
        let bytes = &jpeg[..fed];
        let decoder = || decoder_of(bytes, settings);
        let wanted = told(decoder().and_then(|mut it| it.decode_partial()));
        assert_eq!(told(stored.show()), wanted);
        let wanted = told(decoder().and_then(|mut it| it.decode_partial_as(layout)));
        assert_eq!(told(laid_out.show()), wanted);
        match stored.info() {
            Ok(info) => assert_eq!(info, decoder().ok().and_then(|it| it.info())),
            Err(error) => assert_eq!(error.to_string(), decoder().err().unwrap().to_string()),
        }
    }
}

#[test]
fn what_is_shown_is_the_part_of_the_bytes() {
    for jpeg in FILES.map(file) {
        for size in [1, 7, 4096] {
            compare(&jpeg, size, &FedSettings::default(), Rgba);
        }
        let mut damaged = jpeg.clone();
        damaged[jpeg.len() - 20] ^= 0x55;
        compare(&damaged, 7, &FedSettings::default(), Rgba);
    }
    compare(b"no picture", 1, &FedSettings::default(), Rgba);
}

#[test]
fn settings_are_those_of_a_decoder() {
    let none = FedSettings::default();
    let crop = Some(Area {
        left: 1,
        top: 2,
        width: 3,
        height: 4,
    });
    let settings = [
        FedSettings {
            scale: Some(Scale::Half),
            ..none
        },
        FedSettings {
            bottom_up: true,
            ..none
        },
        FedSettings {
            upright: true,
            ..none
        },
        FedSettings { luma: true, ..none },
        FedSettings { crop, ..none },
        FedSettings {
            within: (5, 0),
            ..none
        },
        FedSettings {
            max_passes: 1,
            ..none
        },
    ];
    for jpeg in FILES.map(file) {
        for settings in &settings {
            compare(&jpeg, 50, settings, Rgb16);
        }
    }
    let crop = Some(Area::default());
    let refused = FedDecoder::new(&FedSettings { crop, ..none });
    assert!(matches!(refused, Err(Error::Format(_))));
}

#[test]
fn a_picture_above_the_limit_is_refused_by_its_header() -> Result<(), Error> {
    let jpeg = file(FILES[1]);
    let mut decoder = Decoder::new(&jpeg[..]);
    decoder.read_info()?;
    let bytes = decoder.decoding_bytes();
    let settings = |max_decoding_bytes| FedSettings {
        max_decoding_bytes,
        ..FedSettings::default()
    };
    let mut fed = FedDecoder::new(&settings(bytes))?;
    fed.feed(&jpeg)?;
    assert!(fed.show()?.fault.is_none());
    let mut fed = FedDecoder::new(&settings(bytes.map(|it| it - 1)))?;
    fed.feed(&jpeg)?;
    assert!(matches!(fed.info(), Err(Error::Format(_))));
    assert!(matches!(fed.show(), Err(Error::Format(_))));
    Ok(())
}

#[test]
fn an_end_that_may_be_none_is_told() -> Result<(), Error> {
    let jpeg = file(FILES[1]);
    let is_end =
        |error: &Error| matches!(error, Error::Io(it) if it.kind() == ErrorKind::UnexpectedEof);
    let mut fed = FedDecoder::new(&FedSettings::default())?;
    assert!(fed.info()?.is_none());
    assert!(fed.show().err().as_ref().map_or(false, is_end));
    fed.feed(&jpeg[..jpeg.len() / 2])?;
    assert!(fed.info()?.is_some());
    assert!(fed.show()?.fault.as_ref().map_or(false, is_end));
    fed.feed(&jpeg[jpeg.len() / 2..])?;
    let whole = fed.show()?;
    assert_eq!(whole.pixels, Decoder::new(&jpeg[..]).decode()?);
    assert!(whole.fault.is_none());
    Ok(())
}

#[test]
fn any_thread_may_have_it() -> Result<(), Error> {
    let jpeg = file(FILES[1]);
    let mut fed = FedDecoder::new(&FedSettings::default())?;
    fed.feed(&jpeg)?;
    let pixels = thread::spawn(move || fed.show().unwrap().pixels)
        .join()
        .unwrap();
    assert_eq!(pixels, Decoder::new(&jpeg[..]).decode()?);
    Ok(())
}
