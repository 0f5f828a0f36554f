//! The calls of `zaxbriar.h`, and all `unsafe` code of this crate.
#![allow(unsafe_code)]

use crate::info::Area;
use std::alloc::{alloc_zeroed, Layout};
use std::marker::PhantomData;
use std::mem::{size_of, size_of_val};
use std::ops::Range;
use std::os::raw::{c_int, c_void};
use std::ptr::{self, NonNull};
use std::slice;

const OK: c_int = 0;
const MALFORMED: c_int = 1;
const UNSUPPORTED: c_int = 2;
const TRUNCATED: c_int = 3;
const NO_MEMORY: c_int = 4;
const NO_ROOM: c_int = 5;
const BAD_ARGUMENT: c_int = 6;
const TOO_LARGE: c_int = 8;
const PARTIAL: c_int = 9;
const TOO_MANY_PASSES: c_int = 10;
const END: c_int = 11;
const WAITING: c_int = 12;

/// A picture's coding process.
const LOSSLESS: u8 = 3;

/// The last orientation of a picture that doesn't lie on its side.
const LAST_STANDING: u8 = 4;

/// The bytes of a picture's text.
const TEXT_BYTES: usize = 112;

/// The kind of metadata that an ICC profile is.
const ICC: c_int = 3;

/// A kind of metadata that are joined from several segments.
#[derive(Clone, Copy)]
#[repr(i32)]
pub enum Joined {
    Exif = 1,
    ExtendedXmp = 4,
    Iptc = 5,
    Thumbnail = 6,
}

/// The bytes of a segment before those of an ICC profile's part: the marker, the length field, the
/// name, and the two numbers.
const ICC_HEAD_BYTES: usize = 18;

/// `zaxbriar_options`.
#[repr(C)]
#[derive(Clone, Copy, Default)]
pub struct Options {
    max_samples: u64,
    stride: u64,
    pub min_width: u16,
    pub min_height: u16,
    pub transform: u8,
    pub layout: u8,
    pub scale: u8,
    pub bottom_up: u8,
    max_bytes: u64,
    /// Null.
    pointers: [u64; 2],
    pub max_passes: u64,
    pub upright: u8,
    pub luma: u8,
    reserved_bytes: [u8; 6],
    /// A part of the picture, or zeros for all of it.
    pub crop: Area,
    /// What the picture fits within, or zeros.
    pub most_width: u16,
    pub most_height: u16,
    reserved_half: [u8; 4],
    reserved_words: [u64; 6],
}

impl Options {
    /// Returns whether only the library says what size the picture has.
    pub fn has_own_size(&self) -> bool {
        self.crop != Area::default() || self.is_fitted()
    }

    /// Returns whether the picture is made to fit within a size.
    pub fn is_fitted(&self) -> bool {
        self.most_width > 0 || self.most_height > 0
    }

    /// Returns whether the rows of a picture have their places and their samples as they are stored.
    pub fn is_plain(&self) -> bool {
        let Options {
            layout,
            bottom_up,
            upright,
            luma,
            ..
        } = *self;
        [layout, bottom_up, upright, luma] == [0; 4] && !self.has_own_size()
    }
}

/// `zaxbriar_picture`.
#[repr(C)]
#[derive(Clone, Copy)]
pub struct Picture {
    pub size: u64,
    pub row_bytes: u64,
    pub decoding_bytes: u64,
    pub stream_bytes: u64,
    pub width: u32,
    pub height: u32,
    whole_rows: u32,
    pixel_bytes: u8,
    layout: u8,
    pub components: u8,
    pub precision: u8,
    sample_bytes: u8,
    pub process: u8,
    pub orientation: u8,
    pub format: u8,
    feature: u8,
    feature_argument: u8,
    sampling: [u8; 4],
    fault: u8,
    pub density_unit: u8,
    pub horizontal_density: u16,
    pub vertical_density: u16,
    reserved: [u8; 144],
    text: [u8; TEXT_BYTES],
}

/// `zaxbriar_segment`.
#[repr(C)]
#[derive(Default)]
struct FoundSegment {
    offset: u64,
    size: u64,
    end: u64,
    needed: u64,
    skipped: u64,
    marker: u8,
    reserved: [u8; 23],
}

/// `zaxbriar_place`.
#[repr(C)]
#[derive(Clone, Copy, Default)]
struct Place {
    offset: u64,
    size: u64,
}

impl Place {
    /// Returns the range of the place in the bytes, or none where it says that there is none.
    fn range(self) -> Option<Range<usize>> {
        let start = self.offset as usize;
        (start > 0).then(|| start..start + self.size as usize)
    }
}

/// `zaxbriar_places`.
#[repr(C)]
struct Places {
    exif: Place,
    xmp: Place,
    stream_bytes: u64,
    icc_parts: u32,
    ended: u32,
    reserved: [u64; 4],
    icc: [Place; 255],
}

// The library is for 64 bits, the lower byte of a number first, and has structs of these sizes.
const _: () = assert!(cfg!(target_endian = "little"));
const _: () = assert!(size_of::<usize>() == 8);
const _: () = assert!(size_of::<Options>() == 128);
const _: () = assert!(size_of::<Picture>() == 320);
const _: () = assert!(size_of::<FoundSegment>() == 64);
const _: () = assert!(size_of::<Places>() == 4160);

impl Picture {
    const NONE: Picture = Picture {
        size: 0,
        row_bytes: 0,
        decoding_bytes: 0,
        stream_bytes: 0,
        width: 0,
        height: 0,
        whole_rows: 0,
        pixel_bytes: 0,
        layout: 0,
        components: 0,
        precision: 0,
        sample_bytes: 0,
        process: 0,
        orientation: 0,
        format: 0,
        feature: 0,
        feature_argument: 0,
        sampling: [0; 4],
        fault: 0,
        density_unit: 0,
        horizontal_density: 0,
        vertical_density: 0,
        reserved: [0; 144],
        text: [0; TEXT_BYTES],
    };

    /// Returns how many samples the picture has.
    pub fn samples(&self) -> u64 {
        u64::from(self.width) * u64::from(self.height) * u64::from(self.components)
    }

    /// Returns how many bytes the picture and decoding it take.
    pub fn bytes(&self) -> u64 {
        self.size.saturating_add(self.decoding_bytes)
    }

    /// Returns the picture as it is described once it is turned, or no longer turned, upright.
    pub fn turned(self) -> Picture {
        if self.orientation <= LAST_STANDING {
            return self;
        }
        Picture {
            width: self.height,
            height: self.width,
            ..self
        }
    }

    /// Returns the picture as it is described once its luma alone is asked for, or its colours again.
    pub fn with_luma(self, is_luma: bool) -> Picture {
        if self.is_lossless() {
            return self;
        }
        // (these have 8 bits a sample; and formats of several components their number)
        let components = if is_luma { 1 } else { self.stream_components() };
        let row_bytes = u64::from(self.width) * u64::from(components);
        Picture {
            size: row_bytes * u64::from(self.height),
            row_bytes,
            pixel_bytes: components,
            components,
            format: components,
            ..self
        }
    }

    /// Returns how many components the stream has, also where the picture is its luma alone.
    pub fn stream_components(&self) -> u8 {
        self.sampling.iter().filter(|&&factors| factors > 0).count() as u8
    }

    /// Returns whether the picture's process is lossless.
    pub fn is_lossless(&self) -> bool {
        self.process == LOSSLESS
    }
}

/// Why a call has no picture. A text is the library's.
pub enum Refusal {
    Malformed(String),
    /// By the numbers of the feature, and of what the stream asks for of it.
    Unsupported {
        feature: u8,
        argument: u8,
        text: String,
    },
    Truncated,
    NoMemory,
    /// The picture and what decoding takes beside it have this many bytes, more than the limit.
    TooLarge(u64),
    /// A part of the picture that isn't inside it.
    Misfit(String),
    /// A fault of this crate's: a call that no stream answers so.
    Call(String),
}

/// Returns the refusal that an answer stands for, or none for OK.
fn refusal_of(answer: c_int, picture: &Picture) -> Option<Refusal> {
    let text = || {
        let bytes = picture.text.split(|&byte| byte == 0).next();
        String::from_utf8_lossy(bytes.unwrap_or_default()).into_owned()
    };
    match answer {
        OK => None,
        MALFORMED | TOO_MANY_PASSES => Some(Refusal::Malformed(text())),
        UNSUPPORTED => Some(Refusal::Unsupported {
            feature: picture.feature,
            argument: picture.feature_argument,
            text: text(),
        }),
        TRUNCATED => Some(Refusal::Truncated),
        NO_MEMORY => Some(Refusal::NoMemory),
        TOO_LARGE => Some(Refusal::TooLarge(picture.bytes())),
        BAD_ARGUMENT => Some(Refusal::Misfit(text())),
        _ => Some(Refusal::Call(text())),
    }
}

extern "C" {
    fn zaxbriar_read_info(
        jpeg: *const c_void,
        jpeg_size: usize,
        options: *const Options,
        picture: *mut Picture,
    ) -> c_int;

    fn zaxbriar_decode(
        jpeg: *const c_void,
        jpeg_size: usize,
        options: *const Options,
        pixels: *mut c_void,
        pixels_size: usize,
        picture: *mut Picture,
    ) -> c_int;

    fn zaxbriar_decode_partial(
        jpeg: *const c_void,
        jpeg_size: usize,
        options: *const Options,
        pixels: *mut c_void,
        pixels_size: usize,
        picture: *mut Picture,
    ) -> c_int;

    fn zaxbriar_rows_new(
        jpeg: *const c_void,
        jpeg_size: usize,
        options: *const Options,
        rows: *mut *mut KeptRows,
        picture: *mut Picture,
    ) -> c_int;

    fn zaxbriar_rows_next(rows: *mut KeptRows, line: *mut c_void, line_size: usize) -> c_int;

    fn zaxbriar_rows_refusal(rows: *mut KeptRows, picture: *mut Picture) -> c_int;

    fn zaxbriar_rows_free(rows: *mut KeptRows);

    fn zaxbriar_fed_new(options: *const Options, fed: *mut *mut KeptPieces) -> c_int;

    fn zaxbriar_fed_feed(fed: *mut KeptPieces, bytes: *const c_void, size: usize) -> c_int;

    fn zaxbriar_fed_info(fed: *mut KeptPieces, picture: *mut Picture) -> c_int;

    fn zaxbriar_fed_show(
        fed: *mut KeptPieces,
        pixels: *mut c_void,
        pixels_size: usize,
        picture: *mut Picture,
    ) -> c_int;

    fn zaxbriar_fed_rows(fed: *mut KeptPieces, picture: *mut Picture) -> c_int;

    fn zaxbriar_fed_next(fed: *mut KeptPieces, line: *mut c_void, line_size: usize) -> c_int;

    fn zaxbriar_fed_end(fed: *mut KeptPieces) -> c_int;

    fn zaxbriar_fed_refusal(fed: *mut KeptPieces, picture: *mut Picture) -> c_int;

    fn zaxbriar_fed_free(fed: *mut KeptPieces);

    fn zaxbriar_metadata(
        jpeg: *const c_void,
        jpeg_size: usize,
        kind: c_int,
        data: *mut c_void,
        data_size: usize,
        length: *mut usize,
    ) -> c_int;

    fn zaxbriar_joined_metadata(
        jpeg: *const c_void,
        jpeg_size: usize,
        options: *const Options,
        kind: c_int,
        data: *mut c_void,
        data_size: usize,
        length: *mut usize,
    ) -> c_int;

    fn zaxbriar_next_segment(
        jpeg: *const c_void,
        jpeg_size: usize,
        segment: *mut FoundSegment,
    ) -> c_int;

    fn zaxbriar_find_metadata(jpeg: *const c_void, jpeg_size: usize, places: *mut Places) -> c_int;
}

/// What a call that reads a picture gives.
pub struct Answer<T> {
    pub outcome: Result<T, Refusal>,
    /// How many bytes the header or the image takes, or how many were read before a refusal.
    pub stream_bytes: usize,
}

impl<T> Answer<T> {
    fn new(answer: c_int, picture: &Picture, returned: T) -> Answer<T> {
        Answer {
            outcome: refusal_of(answer, picture).map_or(Ok(returned), Err),
            stream_bytes: picture.stream_bytes as usize,
        }
    }
}

/// Describes the picture of a stream by its header.
pub fn read_info(jpeg: &[u8], options: &Options) -> Answer<Picture> {
    let mut picture = Picture::NONE;
    // SAFETY: `jpeg` and `options` are borrowed to be read and `picture` to be written, so that
    // they are valid, and apart, as long as the call takes; the structs are those of the header.
    let answer =
        unsafe { zaxbriar_read_info(jpeg.as_ptr().cast(), jpeg.len(), options, &mut picture) };
    Answer::new(answer, &picture, picture)
}

/// A call that decodes.
type Decoding = unsafe extern "C" fn(
    *const c_void,
    usize,
    *const Options,
    *mut c_void,
    usize,
    *mut Picture,
) -> c_int;

/// Makes one of the two calls that decode, and returns its answer and what it says of the picture.
fn call(decoding: Decoding, jpeg: &[u8], options: &Options, pixels: &mut [u8]) -> (c_int, Picture) {
    let mut picture = Picture::NONE;
    // SAFETY: as in `read_info`; and `pixels` is borrowed to be written.
    let answer = unsafe {
        decoding(
            jpeg.as_ptr().cast(),
            jpeg.len(),
            options,
            pixels.as_mut_ptr().cast(),
            pixels.len(),
            &mut picture,
        )
    };
    (answer, picture)
}

/// Decodes a stream into `pixels`.
pub fn decode(jpeg: &[u8], options: &Options, pixels: &mut [u8]) -> Answer<()> {
    let (answer, picture) = call(zaxbriar_decode, jpeg, options, pixels);
    Answer::new(answer, &picture, ())
}

/// What there is of a stream.
pub struct Part {
    /// How many rows of the picture, from its top and before it is turned, are complete in each
    /// scan that has begun.
    pub whole_rows: u32,
    /// The first fault of the stream, if it has any.
    pub fault: Option<Refusal>,
}

impl Answer<Part> {
    /// Returns what an answer of a call that decodes a part says, and what it says of the picture.
    fn of_part(answer: c_int, picture: &Picture) -> Answer<Part> {
        let is_cut = answer == PARTIAL;
        let part = Part {
            whole_rows: picture.whole_rows,
            fault: refusal_of(if is_cut { picture.fault.into() } else { OK }, picture),
        };
        Answer::new(if is_cut { OK } else { answer }, picture, part)
    }
}

/// Decodes the part of a stream before its first fault into `pixels`.
pub fn decode_partial(jpeg: &[u8], options: &Options, pixels: &mut [u8]) -> Answer<Part> {
    let (answer, picture) = call(zaxbriar_decode_partial, jpeg, options, pixels);
    Answer::of_part(answer, &picture)
}

/// `zaxbriar_rows`.
#[repr(C)]
struct KeptRows {
    unknown: [u8; 0],
}

/// What the library keeps to give the rows of a picture one by one, of the bytes that it reads.
pub struct Lines<'a> {
    kept: NonNull<KeptRows>,
    jpeg: PhantomData<&'a [u8]>,
}

// SAFETY: any thread may make the calls, one at a time: each takes a `Lines` that is owned or
// borrowed to be changed.
unsafe impl Send for Lines<'_> {}

impl<'a> Lines<'a> {
    /// Begins to give the rows of the picture of a stream.
    pub fn new(jpeg: &'a [u8], options: &Options) -> Result<Lines<'a>, Refusal> {
        let mut picture = Picture::NONE;
        let mut kept = ptr::null_mut();
        // SAFETY: as in `read_info`; `kept` is borrowed to be written; and `jpeg` is borrowed as
        // long as there is what the call returns.
        let answer = unsafe {
            zaxbriar_rows_new(
                jpeg.as_ptr().cast(),
                jpeg.len(),
                options,
                &mut kept,
                &mut picture,
            )
        };
        match NonNull::new(kept) {
            Some(kept) => Ok(Lines {
                kept,
                jpeg: PhantomData,
            }),
            None => Err(refusal_of(answer, &picture).unwrap_or(Refusal::NoMemory)),
        }
    }

    /// Writes the next row to the start of `row`, which has room for it, or returns false after the
    /// last one.
    pub fn next(&mut self, row: &mut [u8]) -> Result<bool, Refusal> {
        // SAFETY: `kept` is what `new` has got, and `row` is borrowed to be written.
        let answer =
            unsafe { zaxbriar_rows_next(self.kept.as_ptr(), row.as_mut_ptr().cast(), row.len()) };
        match answer {
            OK => Ok(true),
            END => Ok(false),
            _ => Err(self.refusal(answer)),
        }
    }

    /// Returns why the stream is refused, after this answer of `next`.
    fn refusal(&mut self, answer: c_int) -> Refusal {
        let mut picture = Picture::NONE;
        // SAFETY: `kept` is what `new` has got, and `picture` is borrowed to be written.
        unsafe { zaxbriar_rows_refusal(self.kept.as_ptr(), &mut picture) };
        refusal_of(answer, &picture).unwrap_or(Refusal::NoMemory)
    }
}

impl Drop for Lines<'_> {
    fn drop(&mut self) {
        // SAFETY: `kept` is what `new` has got, and nobody has it after this.
        unsafe { zaxbriar_rows_free(self.kept.as_ptr()) }
    }
}

/// `zaxbriar_fed`.
#[repr(C)]
struct KeptPieces {
    unknown: [u8; 0],
}

/// What there is after a call for the next row of a stream that arrives.
#[derive(Clone, Copy, Debug, Eq, PartialEq)]
pub enum Given {
    /// The row.
    Row,
    /// No row, until more bytes are fed, or their end is said.
    Waiting,
    /// No row: all were given, and the stream has no fault.
    End,
}

/// What the library keeps of a stream that arrives in pieces.
pub struct Pieces {
    kept: NonNull<KeptPieces>,
}

// SAFETY: any thread may make the calls, one at a time: each takes a `Pieces` that is owned or
// borrowed to be changed.
unsafe impl Send for Pieces {}

impl Pieces {
    /// Begins to take a stream.
    pub fn new(options: &Options) -> Result<Pieces, Refusal> {
        let mut kept = ptr::null_mut();
        // SAFETY: `options` is borrowed to be read and `kept` to be written; the struct is that of
        // the header.
        let answer = unsafe { zaxbriar_fed_new(options, &mut kept) };
        match NonNull::new(kept) {
            Some(kept) => Ok(Pieces { kept }),
            None => Err(refusal_of(answer, &Picture::NONE).unwrap_or(Refusal::NoMemory)),
        }
    }

    /// Copies the next bytes of the stream, or refuses all of them.
    pub fn feed(&mut self, bytes: &[u8]) -> Result<(), Refusal> {
        // SAFETY: `kept` is what `new` has got, and `bytes` is borrowed to be read.
        let answer =
            unsafe { zaxbriar_fed_feed(self.kept.as_ptr(), bytes.as_ptr().cast(), bytes.len()) };
        refusal_of(answer, &Picture::NONE).map_or(Ok(()), Err)
    }

    /// Describes the picture by the header.
    pub fn info(&mut self) -> Result<Picture, Refusal> {
        let mut picture = Picture::NONE;
        // SAFETY: `kept` is what `new` has got, and `picture` is borrowed to be written.
        let answer = unsafe { zaxbriar_fed_info(self.kept.as_ptr(), &mut picture) };
        refusal_of(answer, &picture).map_or(Ok(picture), Err)
    }

    /// Decodes what there is of the stream into `pixels`.
    pub fn show(&mut self, pixels: &mut [u8]) -> Answer<Part> {
        let mut picture = Picture::NONE;
        // SAFETY: as in `info`; and `pixels` is borrowed to be written.
        let answer = unsafe {
            zaxbriar_fed_show(
                self.kept.as_ptr(),
                pixels.as_mut_ptr().cast(),
                pixels.len(),
                &mut picture,
            )
        };
        Answer::of_part(answer, &picture)
    }

    /// Describes the picture by the header, and begins to give its rows.
    pub fn begin_rows(&mut self) -> Result<Picture, Refusal> {
        let mut picture = Picture::NONE;
        // SAFETY: as in `info`.
        let answer = unsafe { zaxbriar_fed_rows(self.kept.as_ptr(), &mut picture) };
        refusal_of(answer, &picture).map_or(Ok(picture), Err)
    }

    /// Writes the next row to the start of `row`, which has room for it, if it is there.
    pub fn next_row(&mut self, row: &mut [u8]) -> Result<Given, Refusal> {
        // SAFETY: `kept` is what `new` has got, and `row` is borrowed to be written.
        let answer =
            unsafe { zaxbriar_fed_next(self.kept.as_ptr(), row.as_mut_ptr().cast(), row.len()) };
        match answer {
            OK => Ok(Given::Row),
            WAITING => Ok(Given::Waiting),
            END => Ok(Given::End),
            _ => {
                let mut picture = Picture::NONE;
                // SAFETY: as in `info`.
                unsafe { zaxbriar_fed_refusal(self.kept.as_ptr(), &mut picture) };
                Err(refusal_of(answer, &picture).unwrap_or(Refusal::NoMemory))
            }
        }
    }

    /// Says that no more bytes come.
    pub fn end(&mut self) {
        // SAFETY: `kept` is what `new` has got.
        unsafe { zaxbriar_fed_end(self.kept.as_ptr()) };
    }
}

impl Drop for Pieces {
    fn drop(&mut self) {
        // SAFETY: `kept` is what `new` has got, and nobody has it after this.
        unsafe { zaxbriar_fed_free(self.kept.as_ptr()) }
    }
}

/// What bytes have of the next segment.
pub enum Segment {
    /// All of it: its marker's second byte, and how many bytes there are up to its end.
    Whole { marker: u8, end: usize },
    /// Not all of it, perhaps not even the marker: it doesn't depend on so many bytes at the
    /// beginning, and needs at least so many more.
    Cut {
        marker: Option<u8>,
        skipped: usize,
        needed: usize,
    },
    /// A length field that is less than its own size.
    Malformed,
}

/// Finds the first segment in some bytes.
pub fn next_segment(jpeg: &[u8]) -> Segment {
    let mut found = FoundSegment::default();
    // SAFETY: as in `read_info`; and `found` is borrowed to be written.
    let answer = unsafe { zaxbriar_next_segment(jpeg.as_ptr().cast(), jpeg.len(), &mut found) };
    let marker = found.marker;
    match answer {
        OK => Segment::Whole {
            marker,
            end: found.end as usize,
        },
        TRUNCATED => Segment::Cut {
            marker: (marker > 0).then_some(marker),
            skipped: found.skipped as usize,
            needed: found.needed as usize,
        },
        _ => Segment::Malformed,
    }
}

/// Where metadata are in a stream.
#[derive(Default)]
pub struct Metadata {
    pub exif: Option<Range<usize>>,
    pub xmp: Option<Range<usize>>,
    /// The parts of an ICC profile, in the order of the stream.
    icc: Vec<Range<usize>>,
}

/// Finds the metadata of an image. Nothing is decoded.
pub fn find_metadata(jpeg: &[u8]) -> Metadata {
    let mut places = Places {
        exif: Place::default(),
        xmp: Place::default(),
        stream_bytes: 0,
        icc_parts: 0,
        ended: 0,
        reserved: [0; 4],
        icc: [Place::default(); 255],
    };
    // SAFETY: as in `read_info`; and `places` is borrowed to be written. Bytes that hold nothing
    // leave nothing in it.
    unsafe { zaxbriar_find_metadata(jpeg.as_ptr().cast(), jpeg.len(), &mut places) };
    Metadata {
        exif: places.exif.range(),
        xmp: places.xmp.range(),
        icc: places.icc.iter().map_while(|part| part.range()).collect(),
    }
}

/// Joins an ICC profile from its parts, if all of them are there.
///
/// That is the library's to do. It is given the parts' segments alone, as those of a header, since
/// it would read the scans for those that follow the frame header.
pub fn icc_profile(jpeg: &[u8], metadata: &Metadata) -> Option<Vec<u8>> {
    let mut header = b"\xFF\xD8".to_vec();
    for part in &metadata.icc {
        header.extend_from_slice(&jpeg[part.start - ICC_HEAD_BYTES..part.end]);
    }
    let mut profile: Vec<u8> = zeros(header.len() as u64).ok()?;
    let mut length = 0;
    // SAFETY: as in `read_info`; and `profile` and `length` are borrowed to be written.
    let answer = unsafe {
        zaxbriar_metadata(
            header.as_ptr().cast(),
            header.len(),
            ICC,
            profile.as_mut_ptr().cast(),
            profile.len(),
            &mut length,
        )
    };
    profile.truncate(length);
    (answer == OK).then_some(profile)
}

/// Copies metadata of a kind to `data`, if they have room there, and returns the answer and how
/// many bytes they have.
fn copy_joined(jpeg: &[u8], kind: Joined, data: &mut [u8]) -> (c_int, usize) {
    let mut length = 0;
    // SAFETY: as in `read_info`; and `data` and `length` are borrowed to be written.
    let answer = unsafe {
        zaxbriar_joined_metadata(
            jpeg.as_ptr().cast(),
            jpeg.len(),
            ptr::null(),
            kind as c_int,
            data.as_mut_ptr().cast(),
            data.len(),
            &mut length,
        )
    };
    (answer, length)
}

/// Joins metadata of an image, if there are any. Nothing is decoded.
pub fn joined_metadata(jpeg: &[u8], kind: Joined) -> Option<Vec<u8>> {
    let (answer, length) = copy_joined(jpeg, kind, &mut []);
    if answer != OK && answer != NO_ROOM {
        return None;
    }
    let mut data: Vec<u8> = zeros(length as u64).ok()?;
    (copy_joined(jpeg, kind, &mut data).0 == OK).then_some(data)
}

/// What a picture is a vector of: numbers without padding, of which each pattern of bits is one.
pub trait Number {}

impl Number for u8 {}
impl Number for u16 {}

/// Returns the zeros that take so many bytes, on pages that the system has cleared and that are
/// taken when they are written. Where memory is refused that is an error, and not an abort as in
/// `vec!`.
pub fn zeros<N: Number>(bytes: u64) -> Result<Vec<N>, Refusal> {
    let bytes = usize::try_from(bytes).map_err(|_| Refusal::NoMemory)?;
    let count = bytes / size_of::<N>();
    if count == 0 {
        return Ok(Vec::new());
    }
    let layout = Layout::array::<N>(count).map_err(|_| Refusal::NoMemory)?;
    // SAFETY: the layout has a size above 0. The block comes of the global allocator with the
    // layout of `count` numbers, each of which is set, so that it is a vector's.
    unsafe {
        let block = alloc_zeroed(layout);
        if block.is_null() {
            Err(Refusal::NoMemory)
        } else {
            Ok(Vec::from_raw_parts(block.cast(), count, count))
        }
    }
}

/// Returns the bytes of numbers, to be written.
pub fn bytes_of<N: Number>(numbers: &mut [N]) -> &mut [u8] {
    let size = size_of_val(numbers);
    // SAFETY: the bytes are those of `numbers`, which are borrowed to be written as long as these
    // are. `N` is u8 or u16, so that each byte is set, and whatever is written to them are numbers.
    unsafe { slice::from_raw_parts_mut(numbers.as_mut_ptr().cast(), size) }
}
