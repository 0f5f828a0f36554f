//! The rows of pictures, one by one, beside the whole ones.

use std::io::{self, Read};
use std::thread;
use zaxbriar::{Area, ColorTransform, Decoder, Error, Rows, Scale};

const FILES: [&str; 4] = [
    "tests/grey.jpg",
    "image/tests/colour.jpg",
    "image/tests/cmyk.jpg",
    "image/tests/lossless.jpg",
];

fn file(path: &str) -> Vec<u8> {
    std::fs::read(path).expect(path)
}

/// What decoders are set to.
type Settings<'a> = &'a dyn Fn(&mut Decoder<&[u8]>);

fn decoder_of<'a>(jpeg: &'a [u8], settings: Settings<'_>) -> Decoder<&'a [u8]> {
    let mut decoder = Decoder::new(jpeg);
    settings(&mut decoder);
    decoder
}

/// Compares the rows of a stream with its picture, or the text of their refusal. Returns how many
/// there were.
fn compare(jpeg: &[u8], settings: Settings<'_>) -> usize {
    let mut whole = decoder_of(jpeg, settings);
    let wanted = whole.decode();
    let mut decoder = decoder_of(jpeg, settings);
    let mut rows = match decoder.rows() {
        Ok(rows) => rows,
        Err(error) => {
            assert_eq!(error.to_string(), wanted.unwrap_err().to_string());
            return 0;
        }
    };
    let (info, row_bytes) = (rows.info(), rows.row_bytes());
    assert_eq!(Some(info), whole.info());
    let mut given = Vec::new();
    let mut row = vec![7; row_bytes + 1];
    let outcome = loop {
        match rows.next_row(&mut row) {
            Ok(true) => given.extend_from_slice(&row[..row_bytes]),
            outcome => break outcome,
        }
        assert_eq!(row[row_bytes], 7);
        assert_eq!(given.len(), usize::from(rows.rows_given()) * row_bytes);
    };
    let count = given.len() / row_bytes;
    match (&outcome, &wanted) {
        (Ok(_), Ok(pixels)) => assert_eq!(&given, pixels),
        (Err(error), Err(wanted)) => assert_eq!(error.to_string(), wanted.to_string()),
        _ => panic!("{outcome:?}, not {wanted:?}"),
    }
    // After the end there is nothing, and after an error nothing but that.
    let again = rows.next_row(&mut row);
    assert_eq!(outcome.is_ok(), matches!(again, Ok(false)));
    assert_eq!(outcome.is_err(), matches!(again, Err(Error::Internal(_))));
    drop(rows);
    assert!(matches!(decoder.decode(), Err(Error::Internal(_))));

    let mut decoder = decoder_of(jpeg, settings);
    let mut rows = decoder.rows().unwrap();
    let vectors: Vec<_> = rows.by_ref().collect();
    let last = usize::from(outcome.is_err());
    assert_eq!(vectors.len(), count + last);
    let good: Vec<u8> = vectors.into_iter().flatten().flatten().collect();
    assert_eq!((good, rows.next().is_none()), (given, true));
    count
}

#[test]
fn rows_are_those_of_the_picture() {
    for jpeg in FILES.map(file) {
        for scale in [Scale::Full, Scale::Half, Scale::Quarter, Scale::Eighth] {
            let settings = |decoder: &mut Decoder<&[u8]>| {
                decoder.set_scale(scale).unwrap();
            };
            assert!(compare(&jpeg, &settings) > 0);
        }
        use ColorTransform::*;
        for transform in [None, Unknown, Grayscale, RGB, YCbCr, CMYK, YCCK] {
            compare(&jpeg, &|decoder| decoder.set_color_transform(transform));
        }
    }
}

#[test]
fn rows_before_a_fault_are_given_with_it() {
    let mut counts = Vec::new();
    for jpeg in FILES.map(file) {
        let parts = (0..jpeg.len()).map(|end| jpeg[..end].to_vec());
        let damaged = (0..jpeg.len()).map(|at| {
            let mut other = jpeg.clone();
            other[at] ^= 0x55;
            other
        });
        counts.extend(parts.chain(damaged).map(|it| compare(&it, &|_| {})));
    }
    assert!(counts.contains(&0) && counts.contains(&8));
}

#[test]
fn a_reader_is_left_after_the_image() -> Result<(), Error> {
    let jpeg = file(FILES[1]);
    let two = [&jpeg[..], &jpeg].concat();
    let mut reader = &two[..];
    for _ in 0..2 {
        let mut decoder = Decoder::new(&mut reader);
        let rows: Result<Vec<_>, _> = decoder.rows()?.collect();
        assert_eq!(rows?.concat(), Decoder::new(&jpeg[..]).decode()?);
    }
    assert!(reader.is_empty());
    Ok(())
}

/// A reader that fails at its end.
struct Failing<'a>(&'a [u8]);

impl Read for Failing<'_> {
    fn read(&mut self, buffer: &mut [u8]) -> io::Result<usize> {
        match self.0.read(buffer)? {
            0 => Err(io::Error::new(
                io::ErrorKind::ConnectionReset,
                "the line is cut",
            )),
            count => Ok(count),
        }
    }
}

#[test]
fn an_error_of_the_reader_comes_after_the_rows_before_it() {
    let jpeg = file(FILES[1]);
    let mut decoder = Decoder::new(Failing(&jpeg[..jpeg.len() - 20]));
    let mut rows = decoder.rows().unwrap();
    let error = rows.by_ref().find_map(Result::err).unwrap();
    assert_eq!(error.to_string(), "the line is cut");
    assert!(rows.rows_given() > 0);
}

#[test]
fn limits_are_those_of_a_picture() -> Result<(), Error> {
    let jpeg = file(FILES[1]);
    let mut decoder = Decoder::new(&jpeg[..]);
    decoder.set_max_decoding_bytes(100);
    assert!(matches!(decoder.rows(), Err(Error::Format(_))));
    decoder.set_max_decoding_bytes(u64::MAX);
    decoder.set_max_stream_bytes(jpeg.len() as u64 - 20);
    let refusal = decoder.rows().map(|_| ()).unwrap_err().to_string();
    assert!(refusal.ends_with("bytes in the stream (set_max_stream_bytes)"));
    decoder.set_max_stream_bytes(jpeg.len() as u64);
    assert_eq!(decoder.rows()?.count(), 24);
    Ok(())
}

#[test]
fn settings_that_arrange_samples_are_refused() -> Result<(), Error> {
    let jpeg = file(FILES[1]);
    let area = Area {
        left: 0,
        top: 0,
        width: 1,
        height: 1,
    };
    let settings: [Settings<'_>; 5] = [
        &|decoder| decoder.set_bottom_up(true),
        &|decoder| decoder.set_upright(true),
        &|decoder| decoder.set_luma(true),
        &|decoder| drop(decoder.set_crop(Some(area))),
        &|decoder| drop(decoder.set_within(8, 8)),
    ];
    for settings in settings {
        let mut decoder = decoder_of(&jpeg, settings);
        assert!(matches!(decoder.rows(), Err(Error::Format(_))));
        assert!(decoder.decode().is_ok());
    }
    Ok(())
}

#[test]
fn metadata_are_those_of_the_whole_image() -> Result<(), Error> {
    let mut jpeg = file(FILES[0]);
    jpeg.splice(84..84, *b"\xFF\xE1\0\x09Exif\0\0\x01");
    let mut decoder = Decoder::new(&jpeg[..]);
    let mut rows = decoder.rows()?;
    assert!(rows.next().is_some());
    drop(rows);
    assert_eq!(decoder.exif_data(), Some(&[1][..]));
    Ok(())
}

#[test]
fn any_thread_may_have_the_rest() -> Result<(), Error> {
    fn rest(rows: Rows<'_>) -> usize {
        rows.count()
    }
    let jpeg = file(FILES[1]);
    let mut decoder = Decoder::new(&jpeg[..]);
    let mut rows = decoder.rows()?;
    assert!(rows.next().is_some());
    let count = thread::scope(|scope| scope.spawn(move || rest(rows)).join().unwrap());
    assert_eq!(count, 23);
    Ok(())
}

#[test]
#[should_panic]
fn a_slice_that_is_shorter_than_a_row_is_a_fault_of_the_caller() {
    let jpeg = file(FILES[1]);
    let mut decoder = Decoder::new(&jpeg[..]);
    let mut rows = decoder.rows().unwrap();
    let mut row = vec![0; rows.row_bytes() - 1];
    let _ = rows.next_row(&mut row);
}
