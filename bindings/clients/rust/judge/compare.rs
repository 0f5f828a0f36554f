//! Compares this crate with jpeg-decoder: decodes each file that standard input names by both, in
//! many ways, and says how often both give the same, and what differs where they don't.
//!
//! An answer is the picture, its size and format, Exif data and the ICC profile, and how many bytes
//! of the reader were read; or the kind of the refusal, and these data.

use std::collections::BTreeMap;
use std::io::{self, BufRead, Read};
use std::panic::{catch_unwind, set_hook};

const TRANSFORMS: [&str; 9] = [
    "None",
    "Unknown",
    "Grayscale",
    "RGB",
    "YCbCr",
    "CMYK",
    "YCCK",
    "JcsBgYcc",
    "JcsBgRgb",
];
const SIZES: [(u16, u16); 7] = [
    (0, 0),
    (0, 65535),
    (1, 1),
    (9, 9),
    (40, 30),
    (100, 65535),
    (65535, 65535),
];

/// A way of asking for a picture.
#[derive(Clone, Copy)]
enum Way {
    Decode,
    Info,
    Scale((u16, u16)),
    Transform(&'static str),
    /// A limit that is this many samples below the picture's.
    Limit(usize),
}

/// What a crate gives.
#[derive(PartialEq)]
struct Answer {
    outcome: Result<Vec<u8>, String>,
    said: String,
    is_lossless: bool,
    read: usize,
}

struct Counting<'a> {
    rest: &'a [u8],
    read: usize,
}

impl Read for Counting<'_> {
    fn read(&mut self, buffer: &mut [u8]) -> io::Result<usize> {
        let count = self.rest.read(buffer)?;
        self.read += count;
        Ok(count)
    }
}

macro_rules! answers_of {
    ($name:ident, $library:ident) => {
        mod $name {
            use super::{Answer, Counting, Way};
            use $library::{CodingProcess, ColorTransform::*, Decoder, Error, PixelFormat};

            fn ask(decoder: &mut Decoder<&mut Counting<'_>>, way: Way) -> Result<Vec<u8>, Error> {
                match way {
                    Way::Decode => {}
                    Way::Info => return decoder.read_info().map(|()| Vec::new()),
                    Way::Scale((width, height)) => {
                        decoder.scale(width, height)?;
                    }
                    Way::Transform(name) => {
                        let all = [
                            None, Unknown, Grayscale, RGB, YCbCr, CMYK, YCCK, JcsBgYcc, JcsBgRgb,
                        ];
                        let named = all
                            .iter()
                            .find(|transform| format!("{transform:?}") == name);
                        decoder.set_color_transform(*named.unwrap());
                    }
                    Way::Limit(less) => {
                        decoder.read_info()?;
                        let info = decoder.info().unwrap();
                        let components = match info.pixel_format {
                            PixelFormat::L16 => 1,
                            format => format.pixel_bytes(),
                        };
                        let pixels = usize::from(info.width) * usize::from(info.height);
                        decoder.set_max_decoding_buffer_size(pixels * components - less);
                    }
                }
                decoder.decode()
            }

            pub fn answer(bytes: &[u8], way: Way) -> Answer {
                let mut reader = Counting {
                    rest: bytes,
                    read: 0,
                };
                let mut decoder = Decoder::new(&mut reader);
                let outcome = ask(&mut decoder, way).map_err(|error| match error {
                    Error::Format(_) => "Format".to_string(),
                    Error::Unsupported(_) => "Unsupported".to_string(),
                    Error::Io(error) => format!("{:?}", error.kind()),
                    Error::Internal(_) => "Internal".to_string(),
                });
                let exif = decoder.exif_data();
                let (info, icc) = (decoder.info(), decoder.icc_profile());
                let said = format!("{info:?}{exif:?}{icc:?}");
                let is_lossless =
                    info.map_or(false, |info| info.coding_process == CodingProcess::Lossless);
                // How far a refused stream was read isn't compared.
                let read = if outcome.is_ok() { reader.read } else { 0 };
                Answer {
                    outcome,
                    said,
                    is_lossless,
                    read,
                }
            }
        }
    };
}

answers_of!(here, zaxbriar);
answers_of!(original, original);
answers_of!(with_kernels, original_with_kernels);

/// Says in a few words in what two answers agree or differ.
fn verdict(theirs: &Answer, ours: &Answer) -> String {
    match (&theirs.outcome, &ours.outcome) {
        (Ok(_), Ok(_)) if theirs == ours => "the same picture".to_string(),
        (Ok(a), Ok(b)) if a != b => "other samples".to_string(),
        (Ok(_), Ok(_)) if theirs.said != ours.said => "another description".to_string(),
        (Ok(_), Ok(_)) => "another number of bytes read".to_string(),
        (Err(a), Err(b)) if a != b => format!("refused there: {a}, here: {b}"),
        (Err(_), Err(_)) if theirs.said != ours.said => "refused, another description".to_string(),
        (Err(_), Err(_)) => "the same refusal".to_string(),
        (Ok(_), Err(b)) => format!("decoded there, refused here: {b}"),
        (Err(a), Ok(_)) => format!("refused there: {a}, decoded here"),
    }
}

fn ways() -> Vec<(String, Way)> {
    let mut ways = vec![
        ("decode".to_string(), Way::Decode),
        ("info".to_string(), Way::Info),
    ];
    ways.extend(SIZES.map(|size| (format!("scale {size:?}"), Way::Scale(size))));
    ways.extend(TRANSFORMS.map(|name| (format!("transform {name}"), Way::Transform(name))));
    ways.extend([0, 1].map(|less| (format!("limit less {less}"), Way::Limit(less))));
    ways
}

fn main() {
    set_hook(Box::new(|_| ()));
    let mut tally: BTreeMap<String, Vec<String>> = BTreeMap::new();
    let (mut samples, mut other, mut greatest) = (0u64, 0u64, 0u8);
    for name in io::stdin().lock().lines().map(|line| line.unwrap()) {
        let bytes = std::fs::read(&name).unwrap();
        for (title, way) in ways() {
            let ours = here::answer(&bytes, way);
            let verdict = catch_unwind(|| original::answer(&bytes, way))
                .map_or("a panic there".to_string(), |theirs| {
                    verdict(&theirs, &ours)
                });
            let process = if ours.is_lossless { "lossless" } else { "DCT" };
            tally
                .entry(format!("{process}: {verdict}"))
                .or_default()
                .push(format!("{name}, {title}"));
            if let (Way::Decode, Ok(ours)) = (way, &ours.outcome) {
                let theirs = catch_unwind(|| with_kernels::answer(&bytes, way).outcome);
                if let Ok(Ok(theirs)) = theirs {
                    let apart = theirs.iter().zip(ours).map(|(a, b)| a.abs_diff(*b));
                    samples += ours.len() as u64;
                    other += apart.clone().filter(|difference| *difference > 0).count() as u64;
                    greatest = greatest.max(apart.max().unwrap_or(0));
                }
            }
        }
    }
    for (verdict, places) in &tally {
        println!("{:7} {verdict}", places.len());
        if !verdict.contains("the same") {
            for place in places.iter().step_by(places.len().div_ceil(4)) {
                println!("            {place}");
            }
        }
    }
    println!(
        "to the original's kernels: {other} of {samples} samples differ, at most by {greatest}"
    );
}
