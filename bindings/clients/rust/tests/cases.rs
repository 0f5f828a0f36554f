//! The conformance suite of the repository, `tests/decoder`: each stream with the
//! answers that a decoder must give (`docs/CONFORMANCE.md` has the format), by readers of four
//! kinds.
//!
//! Not asked: `into` and the calls after it, since this crate has no decoding into the caller's
//! memory; rows a second time, with a limit or of the luma alone, or by which feature they are
//! refused; `orientation`, which the suite asks of headers without a frame, and which is known here
//! after an accepted one; and in `info` the bytes of the parts of decoding.
//!
//! Its pictures are also compared in each layout with the formulas of `model`.

mod model;

use model::compare_layouts;
use std::cell::Cell;
use std::fmt::Write;
use std::fs::read_to_string;
use std::io::{self, Read};
use std::path::{Path, PathBuf};
use zaxbriar::{ColorTransform, Decoder, Error, ImageInfo, Scale};

/// A reader over a stream that gives at most `most` bytes a read, and that says how many are left.
struct Pieces<'a> {
    rest: &'a [u8],
    most: usize,
    left: &'a Cell<usize>,
}

impl Read for Pieces<'_> {
    fn read(&mut self, buffer: &mut [u8]) -> io::Result<usize> {
        let most = self.most.min(buffer.len());
        let count = self.rest.read(&mut buffer[..most])?;
        self.left.set(self.rest.len());
        Ok(count)
    }
}

/// A stream, the calls of a decoder, and the line that they have to give.
struct Case<'a> {
    name: &'a str,
    stream: Vec<u8>,
    calls: Vec<&'a str>,
}

fn cases_of(text: &str) -> Vec<Case<'_>> {
    let mut cases: Vec<Case<'_>> = Vec::new();
    for line in text
        .lines()
        .filter(|line| !line.is_empty() && !line.starts_with('#'))
    {
        if let Some(name) = line.strip_prefix("case ") {
            cases.push(Case {
                name,
                stream: Vec::new(),
                calls: Vec::new(),
            });
            continue;
        }
        let case = cases
            .last_mut()
            .expect("a line stands before the first case");
        // (a stream may be empty, and `stream_transform` is a call)
        let words = line.strip_prefix("stream");
        match words.filter(|words| words.is_empty() || words.starts_with(' ')) {
            Some(words) => case
                .stream
                .extend(words.split_whitespace().flat_map(bytes_of_word)),
            None => case.calls.push(line),
        }
    }
    cases
}

/// Returns the bytes of a word such as `FFD8` or `00*15`.
fn bytes_of_word(word: &str) -> Vec<u8> {
    let (digits, count) = word.split_once('*').unwrap_or((word, "1"));
    let pairs = (0..digits.len()).step_by(2).map(|at| &digits[at..at + 2]);
    let bytes: Vec<u8> = pairs
        .map(|pair| u8::from_str_radix(pair, 16).unwrap())
        .collect();
    bytes.repeat(count.parse().unwrap())
}

/// Returns bytes as words of `size` bytes, with a space before each, and equal ones counted.
fn words_of(bytes: &[u8], size: usize) -> String {
    let mut text = String::new();
    let mut words = bytes.chunks(size.max(1)).peekable();
    while let Some(word) = words.next() {
        let mut count = 1;
        while words.next_if_eq(&word).is_some() {
            count += 1;
        }
        text.push(' ');
        word.iter()
            .for_each(|byte| write!(text, "{byte:02X}").unwrap());
        if count > 1 {
            write!(text, "*{count}").unwrap();
        }
    }
    text
}

fn transform_named(name: &str) -> ColorTransform {
    use ColorTransform::*;
    let all = [
        None, Unknown, Grayscale, RGB, YCbCr, CMYK, YCCK, JcsBgYcc, JcsBgRgb,
    ];
    *all.iter()
        .find(|transform| format!("{transform:?}") == name)
        .expect(name)
}

fn scale_named(name: &str) -> Scale {
    match name {
        "1" => Scale::Full,
        "1/2" => Scale::Half,
        "1/4" => Scale::Quarter,
        "1/8" => Scale::Eighth,
        _ => panic!("no scale {name}"),
    }
}

fn refusal(error: &Error, is_whole: bool) -> String {
    match error {
        // (the words of the original crate)
        Error::Io(error)
            if error.kind() == io::ErrorKind::UnexpectedEof
                && error.to_string() == "failed to fill whole buffer" =>
        {
            "refused: the file ends too soon".to_string()
        }
        Error::Format(_) if !is_whole => "refused: invalid JPEG format".to_string(),
        _ => format!("refused: {error}"),
    }
}

/// Returns the text of a picture that a decoder has returned.
fn picture_text<R: Read>(decoder: &Decoder<R>, pixels: &[u8]) -> String {
    text_of(decoder.info().unwrap(), pixels)
}

fn text_of(info: ImageInfo, pixels: &[u8]) -> String {
    let pixel_bytes = pixels.len() / (usize::from(info.width) * usize::from(info.height));
    let words = words_of(pixels, pixel_bytes);
    format!(
        "{} {} {:?}{words}",
        info.width, info.height, info.pixel_format
    )
}

fn picture<R: Read>(decoder: &mut Decoder<R>, is_whole: bool) -> String {
    match decoder.decode() {
        Ok(pixels) => picture_text(decoder, &pixels),
        Err(error) => refusal(&error, is_whole),
    }
}

fn partial_picture<R: Read>(decoder: &mut Decoder<R>) -> String {
    match decoder.decode_partial() {
        Ok(partial) => {
            let fault = partial.fault.map(|fault| refusal(&fault, false));
            let fault = fault.as_deref().unwrap_or("none");
            let name = fault.strip_prefix("refused: ").unwrap_or(fault);
            let (picture, rows) = (picture_text(decoder, &partial.pixels), partial.whole_rows);
            format!("{picture}, rows {rows}, fault {name}")
        }
        Err(error) => refusal(&error, false),
    }
}

/// Returns the text of all rows, or of a refusal and the rows before it.
fn rows<R: Read>(decoder: &mut Decoder<R>) -> String {
    let mut rows = match decoder.rows() {
        Ok(rows) => rows,
        Err(error) => return format!("{}, lines 0", refusal(&error, false)),
    };
    let (info, row_bytes) = (rows.info(), rows.row_bytes());
    let mut given = Vec::new();
    let mut row = vec![0; row_bytes];
    let outcome = loop {
        match rows.next_row(&mut row) {
            Ok(true) => given.extend_from_slice(&row),
            outcome => break outcome,
        }
    };
    match outcome {
        Ok(_) => text_of(info, &given),
        Err(error) => {
            let (text, count) = (refusal(&error, false), rows.rows_given());
            let words = words_of(&given, row_bytes / usize::from(info.width));
            format!("{text}, lines {count}{words}")
        }
    }
}

fn size(outcome: Result<(u16, u16), Error>) -> String {
    match outcome {
        Ok((width, height)) => format!("{width} {height}"),
        Err(error) => refusal(&error, false),
    }
}

fn description<R: Read>(decoder: &Decoder<R>) -> String {
    let info = decoder.info().map_or("none".to_string(), |info| {
        let (format, process) = (info.pixel_format, info.coding_process);
        format!("{} {} {format:?} {process:?}", info.width, info.height)
    });
    let precision = decoder
        .precision()
        .map_or("none".to_string(), |bits| bits.to_string());
    format!("{info}, precision {precision}")
}

fn data(bytes: Option<&[u8]>) -> String {
    bytes.map_or("none".to_string(), |bytes| {
        format!("{} bytes{}", bytes.len(), words_of(bytes, 1))
    })
}

/// Returns the lengths from which on the shorter beginnings of a stream have another answer.
fn cuts(stream: &[u8]) -> String {
    let mut answers: Vec<(usize, String)> = Vec::new();
    for length in 0..stream.len() {
        let answer = picture(&mut Decoder::new(&stream[..length]), false);
        if answers.last().map_or(true, |(_, last)| *last != answer) {
            answers.push((length, answer));
        }
    }
    let texts: Vec<_> = answers
        .iter()
        .map(|(from, text)| format!("from {from} bytes {text}"))
        .collect();
    texts.join(", ")
}

/// Returns whether rows are asked for after some calls: not a second time, nor with a limit, which
/// the suite's decoder doesn't keep for them, nor of the luma alone, which they don't have.
fn asks_rows(before: &[&str]) -> bool {
    let differs = |call: &&str| call.starts_with("limit") || ["rows", "luma"].contains(call);
    !before.iter().any(differs)
}

/// Returns the answers to the calls of a case, up to one that isn't asked.
fn answers_of(case: &Case<'_>, most: usize) -> Vec<String> {
    let left = Cell::new(case.stream.len());
    let mut decoder = Decoder::new(Pieces {
        rest: &case.stream,
        most,
        left: &left,
    });
    let mut answers = Vec::new();
    for (at, call) in case.calls.iter().enumerate() {
        let words: Vec<_> = call.split(' ').collect();
        answers.push(match words[..] {
            ["transform", name] => {
                decoder.set_color_transform(transform_named(name));
                continue;
            }
            ["limit", samples] => {
                decoder.set_max_decoding_buffer_size(samples.parse().unwrap());
                continue;
            }
            ["luma"] => {
                decoder.set_luma(true);
                continue;
            }
            ["rows"] if !asks_rows(&case.calls[..at]) => break,
            ["rows"] => rows(&mut decoder),
            ["header"] => decoder
                .read_info()
                .map_or_else(|e| refusal(&e, false), |()| "ok".into()),
            ["scale", width, height] => {
                size(decoder.scale(width.parse().unwrap(), height.parse().unwrap()))
            }
            ["at", part] => size(decoder.set_scale(scale_named(part))),
            ["decode"] => picture(&mut decoder, false),
            ["refusal"] => picture(&mut decoder, true),
            ["partial"] => partial_picture(&mut decoder),
            ["info"] => description(&decoder),
            ["exif"] => data(decoder.exif_data()),
            ["xmp"] => data(decoder.xmp_data()),
            ["icc"] => data(decoder.icc_profile().as_deref()),
            ["rest"] => left.get().to_string(),
            ["cuts"] => cuts(&case.stream),
            ["feed" | "into", _] | ["orientation" | "stream_transform" | "planes"] => break,
            _ => panic!("no such call: {call}"),
        });
    }
    answers
}

/// Whether an answer is what the suite has; the texts of the library end after 111 bytes.
fn is_wanted(answer: &str, wanted: &str) -> bool {
    let wanted = wanted.split(", bytes").next().unwrap();
    answer == wanted || (answer.len() >= "refused: ".len() + 111 && wanted.starts_with(answer))
}

fn suite() -> PathBuf {
    Path::new(env!("CARGO_MANIFEST_DIR")).join("../../../tests/decoder")
}

#[test]
fn answers_are_those_of_the_suite() {
    let read = |name: &str| read_to_string(suite().join(name)).expect(name);
    let (files, wanted) = (read("args"), read("answers"));
    let mut wanted = wanted.lines();
    let (mut cases, mut answers, mut faults) = (0, 0, Vec::new());
    for file in files.lines() {
        for case in cases_of(&read(&format!("data/{file}"))) {
            let line = wanted.next().expect("a case has no line");
            let line = line
                .strip_prefix(case.name)
                .and_then(|line| line.strip_prefix(": "));
            let line: Vec<_> = line
                .expect("a line is of another case")
                .split("; ")
                .collect();
            for most in [1, 2, 1000, usize::MAX] {
                let given = answers_of(&case, most);
                let is_right = given.len() <= line.len()
                    && given
                        .iter()
                        .zip(&line)
                        .all(|(answer, wanted)| is_wanted(answer, wanted));
                if !is_right {
                    faults.push(format!("{file}: {}: {given:?}, not {line:?}", case.name));
                }
                if most == usize::MAX {
                    cases += usize::from(!given.is_empty());
                    answers += given.len();
                }
            }
        }
    }
    assert!(wanted.next().is_none());
    println!("{answers} answers in {cases} cases");
    assert!(faults.is_empty(), "{}", faults.join("\n"));
}

#[test]
fn every_picture_of_the_suite_has_every_layout() {
    let read = |name: &str| read_to_string(suite().join(name)).expect(name);
    let mut pictures = 0;
    for file in read("args").lines() {
        for case in cases_of(&read(&format!("data/{file}"))) {
            for scale in [Scale::Full, Scale::Half] {
                // (pictures of more samples take long, and have nothing that smaller ones haven't)
                let settings = |decoder: &mut Decoder<&[u8]>| {
                    decoder.set_max_decoding_buffer_size(1 << 14);
                    let _refusal = decoder.set_scale(scale);
                };
                pictures += usize::from(compare_layouts(&case.stream, &settings).is_ok());
            }
        }
    }
    println!("{pictures} pictures in each layout");
    assert!(pictures > 1000);
}
