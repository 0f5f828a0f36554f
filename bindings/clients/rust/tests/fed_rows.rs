//! Rows of streams that arrive in pieces, beside those of the same bytes.

use std::io::ErrorKind;
use std::thread;
use zaxbriar::{Decoder, Error, FedDecoder, FedRows, FedSettings, Given, Scale};

const FILES: [&str; 4] = [
    "tests/grey.jpg",
    "image/tests/colour.jpg",
    "image/tests/cmyk.jpg",
    "image/tests/lossless.jpg",
];

/// The rows, and the text of the error after them.
type Told = (Vec<Vec<u8>>, Option<String>);

/// What `rows` gives of the bytes.
fn wanted(jpeg: &[u8], max_passes: u64) -> Told {
    let mut decoder = Decoder::new(jpeg);
    decoder.set_max_passes(max_passes);
    let mut found = Vec::new();
    match decoder.rows() {
        Err(error) => return (found, Some(error.to_string())),
        Ok(rows) => {
            for row in rows {
                match row {
                    Ok(row) => found.push(row),
                    Err(error) => return (found, Some(error.to_string())),
                }
            }
        }
    }
    (found, None)
}

/// Takes what rows there are, and returns the last answer.
fn take(rows: &mut FedRows, found: &mut Vec<Vec<u8>>) -> Result<Given, Error> {
    let mut row = vec![0; rows.row_bytes()];
    loop {
        match rows.next_row(&mut row)? {
            Given::Row => found.push(row.clone()),
            given => return Ok(given),
        }
        assert_eq!(usize::from(rows.rows_given()), found.len());
    }
}

/// What is given of the bytes in pieces of a size.
fn given(jpeg: &[u8], size: usize, max_passes: u64) -> Told {
    let settings = FedSettings {
        max_passes,
        ..FedSettings::default()
    };
    let mut decoder = FedDecoder::new(&settings).unwrap();
    let mut found = Vec::new();
    let mut pieces = jpeg.chunks(size);
    loop {
        match decoder.info() {
            Ok(Some(_)) => break,
            Err(error) => return (found, Some(error.to_string())),
            Ok(None) => match pieces.next() {
                Some(piece) => decoder.feed(piece).unwrap(),
                None => return (found, decoder.into_rows().err().map(|it| it.to_string())),
            },
        }
    }
    let mut rows = decoder.into_rows().unwrap();
    for piece in pieces {
        assert_eq!(take(&mut rows, &mut found).unwrap(), Given::Waiting);
        rows.feed(piece).unwrap();
    }
    rows.end();
    assert!(matches!(rows.feed(&[0]), Err(Error::Internal(_))));
    let fault = match take(&mut rows, &mut found) {
        Ok(given) => {
            assert_eq!(given, Given::End);
            assert_eq!(take(&mut rows, &mut found).unwrap(), Given::End);
            None
        }
        Err(error) => {
            assert!(matches!(
                take(&mut rows, &mut found),
                Err(Error::Internal(_))
            ));
            Some(error.to_string())
        }
    };
    (found, fault)
}

fn compare(jpeg: &[u8], max_passes: u64) {
    for size in [1, 7, 100, 4096] {
        assert_eq!(given(jpeg, size, max_passes), wanted(jpeg, max_passes));
    }
}

#[test]
fn rows_are_those_of_the_bytes() {
    for path in FILES {
        let mut jpeg = std::fs::read(path).expect(path);
        compare(&jpeg, 0);
        compare(&jpeg, 1);
        for part in 0..16 {
            let place = jpeg.len() * part / 16;
            compare(&jpeg[..place], 0);
            jpeg[place] ^= 0x55;
            compare(&jpeg, 0);
            jpeg[place] ^= 0x55;
        }
    }
}

#[test]
fn rows_are_of_the_whole_picture() {
    let jpeg = std::fs::read(FILES[1]).unwrap();
    let decoder_of = |settings: FedSettings| {
        let mut decoder = FedDecoder::new(&settings).unwrap();
        decoder.feed(&jpeg).unwrap();
        decoder.into_rows()
    };
    let plain = FedSettings::default();
    for settings in [
        FedSettings {
            scale: Some(Scale::Half),
            ..plain
        },
        FedSettings {
            upright: true,
            ..plain
        },
        FedSettings {
            bottom_up: true,
            ..plain
        },
        FedSettings {
            luma: true,
            ..plain
        },
        FedSettings {
            within: (1, 0),
            ..plain
        },
    ] {
        assert!(matches!(decoder_of(settings), Err(Error::Format(_))));
    }
    let limited = FedSettings {
        max_decoding_bytes: Some(1),
        ..plain
    };
    assert!(decoder_of(limited).is_err());
    let empty = FedDecoder::new(&plain).unwrap().into_rows();
    assert!(matches!(empty, Err(Error::Io(it)) if it.kind() == ErrorKind::UnexpectedEof));
    let full = FedSettings {
        scale: Some(Scale::Full),
        ..plain
    };
    let mut rows = decoder_of(full).unwrap();
    let (mut found, of_all) = (Vec::new(), wanted(&jpeg, 0).0);
    let last = thread::spawn(move || {
        rows.end();
        (take(&mut rows, &mut found).unwrap(), found)
    });
    assert_eq!(last.join().unwrap(), (Given::End, of_all));
}
