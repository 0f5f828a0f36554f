//! Reads as much of a reader as a decoder needs: for a header up to the end of the frame header,
//! and for a picture up to the end of the image.
//!
//! The library takes its bytes in memory, and a borrowed reader has to be left right after the
//! image. The library's call `zaxbriar_next_segment` is proved to find the next segment (T.81,
//! B.1.1.2), or else to return the least number of further bytes with which there can be one.
//! Exactly that many are read.
//!
//! Only the loop is this module's own, and only tested: it decides which markers end the header and
//! the image, and that every marker begins with FF, since it asks the library about the data of a
//! scan only where it has read an FF. It doesn't decide what a stream means: if a call lacks bytes
//! that the reader has, [`Stream::read_rest`] adds all of them, and the call is made again. So a
//! fault here can leave a borrowed reader at the wrong place, wait for bytes that nobody needs, or
//! overlook metadata, and nothing else.

use crate::library::{self, Segment};
use std::io::{self, ErrorKind, Read};

const DHT: u8 = 0xC4;
const JPG: u8 = 0xC8;
const DAC: u8 = 0xCC;
const RST0: u8 = 0xD0;
const RST7: u8 = 0xD7;
const SOI: u8 = 0xD8;
const SOS: u8 = 0xDA;
const DQT: u8 = 0xDB;
const DRI: u8 = 0xDD;
const APP0: u8 = 0xE0;
const APP1: u8 = 0xE1;
const APP2: u8 = 0xE2;
const APP13: u8 = 0xED;
const APP15: u8 = 0xEF;
const COM: u8 = 0xFE;

/// Why no more bytes are read.
pub enum Failure {
    /// The reader has failed, or has no more bytes; or there is no memory for them.
    Reader(io::Error),
    /// So many bytes are kept, and no more may be.
    Limit(u64),
}

/// Why reading stops before the place that is looked for.
enum Stop {
    /// The image has ended, or its stream breaks a rule: the library will say so.
    AtEnd,
    Failed(Failure),
}

impl From<io::Error> for Stop {
    fn from(error: io::Error) -> Stop {
        Stop::Failed(Failure::Reader(error))
    }
}

/// Returns the error for a stream that ends too soon, in the words of [`Read::read_exact`], with
/// which the original crate reads.
pub fn end_of_bytes() -> io::Error {
    io::Error::new(ErrorKind::UnexpectedEof, "failed to fill whole buffer")
}

/// The bytes that were read of a stream.
pub struct Stream {
    bytes: Vec<u8>,
    /// How many bytes may be read. With more, reading goes on where it has stopped.
    max_bytes: u64,
    /// Where the next segment is looked for: after the last one, or later in the data of a scan.
    position: usize,
    /// Whether the frame header was read.
    has_header: bool,
    /// Whether the last segment was a scan's, but for restart markers.
    is_in_scan: bool,
    /// Where the last segment APP1, APP2 or APP13 ends.
    metadata_end: usize,
}

impl Stream {
    pub fn new() -> Stream {
        Stream {
            bytes: Vec::new(),
            max_bytes: u64::MAX,
            position: 0,
            has_header: false,
            is_in_scan: false,
            metadata_end: 0,
        }
    }

    /// Sets how many bytes may be read.
    pub fn set_max_bytes(&mut self, max: u64) {
        // (the two bytes of SOI are always read, and at once)
        self.max_bytes = max.max(2);
    }

    /// Returns how many more bytes may be read.
    fn room(&self) -> u64 {
        self.max_bytes.saturating_sub(self.bytes.len() as u64)
    }

    /// Returns all bytes that were read.
    pub fn bytes(&self) -> &[u8] {
        &self.bytes
    }

    /// Returns how many of the bytes may have metadata: those up to the end of the last segment
    /// APP1, APP2 or APP13.
    pub fn metadata_end(&self) -> usize {
        self.metadata_end
    }

    /// Reads up to the end of the frame header. Returns why no more could be read, if that isn't for
    /// what was read.
    pub fn read_header<R: Read>(&mut self, reader: &mut R) -> Option<Failure> {
        self.read_while(reader, |stream| !stream.has_header)
    }

    /// Reads up to the end of the image, and returns the same.
    pub fn read_image<R: Read>(&mut self, reader: &mut R) -> Option<Failure> {
        self.read_while(reader, |_| true)
    }

    /// Reads all that the reader has, if so much may be read, and returns why that was all.
    pub fn read_rest<R: Read>(&mut self, reader: &mut R) -> Failure {
        let mut rest = reader.by_ref().take(self.room());
        let outcome = rest.read_to_end(&mut self.bytes);
        self.metadata_end = self.bytes.len();
        match outcome {
            Ok(_) if self.room() == 0 => Failure::Limit(self.max_bytes),
            Ok(_) => Failure::Reader(end_of_bytes()),
            Err(error) => Failure::Reader(error),
        }
    }

    /// Reads segment by segment as long as more is wanted.
    fn read_while<R: Read>(
        &mut self,
        reader: &mut R,
        is_wanted: impl Fn(&Stream) -> bool,
    ) -> Option<Failure> {
        while is_wanted(self) {
            match self.read_segment(reader) {
                Ok(()) => {}
                Err(Stop::AtEnd) => return None,
                Err(Stop::Failed(failure)) => return Some(failure),
            }
        }
        None
    }

    /// Reads the marker at the start, or up to the end of the next segment, if one may follow here:
    /// of another, such as EOI, no more than the marker.
    fn read_segment<R: Read>(&mut self, reader: &mut R) -> Result<(), Stop> {
        if self.position == 0 {
            return self.read_start(reader);
        }
        loop {
            match library::next_segment(&self.bytes[self.position..]) {
                Segment::Malformed => return Err(Stop::AtEnd),
                Segment::Whole { marker, .. }
                | Segment::Cut {
                    marker: Some(marker),
                    ..
                } if !self.may_follow(marker) => return Err(Stop::AtEnd),
                Segment::Whole { marker, end } => {
                    self.pass(marker, end);
                    return Ok(());
                }
                Segment::Cut {
                    skipped, needed, ..
                } => {
                    self.position += skipped;
                    if self.position < self.bytes.len() {
                        self.read(reader, needed)?;
                    } else {
                        self.read_to_ff(reader)?;
                    }
                }
            }
        }
    }

    /// Reads SOI, without which a stream is refused by its first byte or two.
    fn read_start<R: Read>(&mut self, reader: &mut R) -> Result<(), Stop> {
        for byte in [0xFF, SOI] {
            self.read(reader, 1)?;
            if self.bytes.last() != Some(&byte) {
                return Err(Stop::AtEnd);
            }
        }
        self.position = self.bytes.len();
        Ok(())
    }

    /// Returns whether a marker may follow here. After EOI nothing does, and decoding refuses all
    /// other markers.
    fn may_follow(&self, marker: u8) -> bool {
        match marker {
            DHT | DQT | DRI | COM | APP0..=APP15 => true,
            RST0..=RST7 => self.is_in_scan,
            SOS => self.has_header,
            _ => is_of_frame(marker) && !self.has_header,
        }
    }

    /// Passes over a segment that ends so many bytes after the position.
    fn pass(&mut self, marker: u8, end: usize) {
        self.position += end;
        if matches!(marker, APP1 | APP2 | APP13) {
            self.metadata_end = self.position;
        }
        self.has_header |= is_of_frame(marker);
        self.is_in_scan = matches!(marker, SOS | RST0..=RST7);
    }

    /// Reads up to an FF, and passes over all bytes before it. To gather some bytes before they are
    /// appended halves the time that a [`BufReader`](io::BufReader) takes.
    fn read_to_ff<R: Read>(&mut self, reader: &mut R) -> Result<(), Stop> {
        loop {
            let mut run = [0; 64];
            let most = self.room().min(run.len() as u64) as usize;
            if most == 0 {
                return Err(Stop::Failed(Failure::Limit(self.max_bytes)));
            }
            let (count, outcome) = read_run(reader, &mut run[..most]);
            if self.bytes.try_reserve(count).is_err() {
                return Err(io::Error::from(ErrorKind::OutOfMemory).into());
            }
            self.bytes.extend_from_slice(&run[..count]);
            outcome?;
            self.position = self.bytes.len();
            if self.bytes.last() == Some(&0xFF) {
                self.position -= 1;
                return Ok(());
            }
        }
    }

    /// Reads so many bytes, and keeps those that there are where the reader has fewer. Reads none
    /// where so many may not be read.
    fn read<R: Read>(&mut self, reader: &mut R, count: usize) -> Result<(), Stop> {
        if count as u64 > self.room() {
            return Err(Stop::Failed(Failure::Limit(self.max_bytes)));
        }
        let mut part = reader.by_ref().take(count as u64);
        if part.read_to_end(&mut self.bytes)? < count {
            return Err(end_of_bytes().into());
        }
        Ok(())
    }
}

/// Returns whether a marker is a frame header's, SOFn. DHT, JPG and DAC stand between them.
fn is_of_frame(marker: u8) -> bool {
    matches!(marker, 0xC0..=0xCF) && !matches!(marker, DHT | JPG | DAC)
}

/// Reads single bytes up to an FF and with it, or as many as there is room for. Returns how many
/// were read, and whether the reader had them.
fn read_run<R: Read>(reader: &mut R, room: &mut [u8]) -> (usize, io::Result<()>) {
    for (index, place) in room.iter_mut().enumerate() {
        let mut byte = [0];
        if let Err(error) = reader.read_exact(&mut byte) {
            return (index, Err(error));
        }
        *place = byte[0];
        if byte[0] == 0xFF {
            return (index + 1, Ok(()));
        }
    }
    (room.len(), Ok(()))
}

#[cfg(test)]
mod tests {
    use super::*;

    #[test]
    fn an_end_of_bytes_is_said_in_the_words_of_read_exact() {
        let error = (&[][..]).read_exact(&mut [0]).unwrap_err();
        let own = end_of_bytes();
        assert_eq!(
            (own.kind(), own.to_string()),
            (error.kind(), error.to_string())
        );
    }

    #[test]
    fn the_rest_is_read_up_to_the_limit_and_on_under_a_higher_one() {
        let bytes = [1; 15];
        let mut reader = &bytes[..];
        let mut stream = Stream::new();
        stream.set_max_bytes(10);
        for _ in 0..2 {
            assert!(matches!(stream.read_rest(&mut reader), Failure::Limit(10)));
            assert_eq!((stream.bytes().len(), reader.len()), (10, 5));
        }
        stream.set_max_bytes(16);
        assert!(matches!(stream.read_rest(&mut reader), Failure::Reader(_)));
        assert_eq!(stream.bytes(), bytes);
    }
}
