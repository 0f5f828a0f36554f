use crate::color::{transform_number, ColorTransform};
use crate::error::{Error, Result};
use crate::info::{size_of, Area, Density, ImageInfo, Scale};
use crate::layout::{Layout, AS_STORED};
use crate::library::{self, Answer, Joined, Metadata, Number, Options, Part, Picture, Refusal};
use crate::rows::Rows;
use crate::stream::{Failure, Stream};
use std::io::Read;
use std::ops::Range;

/// The least limit on the bytes of a stream that a limit on memory sets: those of a small picture
/// with an ICC profile and Exif data are many more than it takes.
const LEAST_STREAM_LIMIT: u64 = 1 << 20;

/// How far a decoder has come.
#[derive(Clone, Copy, PartialEq)]
enum Stage {
    Fresh,
    HeaderRead,
    Decoded,
    Failed,
}

/// The picture that a stream has brought up to its first fault, and that fault.
#[derive(Debug)]
pub struct PartialPicture<E = u8> {
    /// The picture, as [`Decoder::decode`] or [`Decoder::decode_as`] returns it. What no scan has
    /// brought is mid-grey.
    pub pixels: Vec<E>,
    /// The number of rows, from the top of the picture, or of its part, before it is turned, that
    /// need nothing that a scan which was begun lacks. All rows if the stream has no fault.
    pub whole_rows: u16,
    /// The first fault of the stream, or none if it is whole.
    pub fault: Option<Error>,
}

/// A decoder of the JPEG stream that a reader gives.
///
/// It asks the reader for single bytes, so give it a [`BufReader`](std::io::BufReader) over a file.
/// A reader may be lent (`&mut reader`): after [`decode`](Decoder::decode) it stands right after the
/// image.
///
/// ```
/// # let jpeg = &std::fs::read("tests/grey.jpg").unwrap()[..];
/// use zaxbriar::Decoder;
///
/// let two_images = [jpeg, jpeg].concat();
/// let mut reader = &two_images[..];
/// let first = Decoder::new(&mut reader).decode()?;
/// let second = Decoder::new(&mut reader).decode()?;
/// assert_eq!(first, second);
/// assert!(reader.is_empty());
/// # Ok::<(), zaxbriar::Error>(())
/// ```
pub struct Decoder<R> {
    reader: R,
    stream: Stream,
    stage: Stage,
    picture: Option<Picture>,
    metadata: Metadata,
    /// How many bytes of the stream the metadata are of.
    metadata_end: usize,
    color_transform: Option<ColorTransform>,
    /// The scale, what the picture fits within, the order of rows, whether the picture is turned,
    /// whether it is its luma, its part, and the limit of passes; the rest is as the library has
    /// it.
    options: Options,
    max_samples: u64,
    max_bytes: u64,
    /// None where it goes by `max_bytes`.
    max_stream_bytes: Option<u64>,
}

/// The interface of jpeg-decoder.
impl<R: Read> Decoder<R> {
    /// Returns a decoder of what a reader gives. Nothing is read yet.
    pub fn new(reader: R) -> Decoder<R> {
        Decoder {
            reader,
            stream: Stream::new(),
            stage: Stage::Fresh,
            picture: None,
            metadata: Metadata::default(),
            metadata_end: 0,
            color_transform: None,
            options: Options::default(),
            max_samples: u64::MAX,
            max_bytes: u64::MAX,
            max_stream_bytes: None,
        }
    }

    /// Sets how components become samples, in place of what the stream says.
    pub fn set_color_transform(&mut self, transform: ColorTransform) {
        self.color_transform = Some(transform);
    }

    /// Sets how many samples a picture may have: its width times its height times the number of its
    /// components, at its scale.
    ///
    /// [`decode`](Decoder::decode) refuses a picture of more by its header. It counts samples, of
    /// which each takes two bytes in a lossless picture above 8 bits; see
    /// [`set_max_decoding_bytes`](Decoder::set_max_decoding_bytes) for memory.
    pub fn set_max_decoding_buffer_size(&mut self, max: usize) {
        self.max_samples = max as u64;
    }

    /// Returns what the header says of the picture, once it was read.
    pub fn info(&self) -> Option<ImageInfo> {
        self.picture.as_ref().map(ImageInfo::of)
    }

    /// Returns the last Exif data that were read, from their TIFF header on.
    ///
    /// Like the next two calls it returns what was read before a failure, too.
    pub fn exif_data(&self) -> Option<&[u8]> {
        self.data_at(&self.metadata.exif)
    }

    /// Returns the last XMP data that were read.
    pub fn xmp_data(&self) -> Option<&[u8]> {
        self.data_at(&self.metadata.xmp)
    }

    /// Returns a copy of the ICC profile, if all of its parts were read.
    pub fn icc_profile(&self) -> Option<Vec<u8>> {
        library::icc_profile(self.stream.bytes(), &self.metadata)
    }

    /// Reads the header, and nothing after it, if it wasn't read before.
    ///
    /// ```
    /// # let jpeg = &std::fs::read("tests/grey.jpg").unwrap()[..];
    /// use zaxbriar::{Decoder, PixelFormat};
    ///
    /// let mut decoder = Decoder::new(jpeg);
    /// decoder.read_info()?;
    /// let info = decoder.info().unwrap();
    /// assert_eq!((info.width, info.height, info.pixel_format), (8, 8, PixelFormat::L8));
    /// # Ok::<(), zaxbriar::Error>(())
    /// ```
    pub fn read_info(&mut self) -> Result<()> {
        match self.stage {
            Stage::Fresh => {}
            Stage::HeaderRead | Stage::Decoded => return Ok(()),
            Stage::Failed => return Err(Error::Internal("decoder has failed".into())),
        }
        self.stage = Stage::Failed;
        let options = self.options;
        let failure = self.stream.read_header(&mut self.reader);
        let call = |bytes: &[u8]| library::read_info(bytes, &options);
        let (outcome, failure) = self.ask(failure, is_truncated, call);
        if is_above_limit(&outcome, &failure) {
            self.stage = Stage::Fresh;
        }
        self.picture = Some(outcome.map_err(|refusal| Error::of(refusal, failure))?);
        self.stage = Stage::HeaderRead;
        Ok(())
    }

    /// Chooses the least of 1/8, 1/4, 1/2 and 1 of the picture's size at which it is at least that
    /// wide or at least that high, and returns the size that it has then. Reads the header.
    ///
    /// A lossless picture keeps its size. The sides are those of the picture as it is stored, also
    /// where it is turned ([`set_upright`](Decoder::set_upright)).
    pub fn scale(&mut self, requested_width: u16, requested_height: u16) -> Result<(u16, u16)> {
        // 0 asks for no more than 1 does; to the library it is a side that does not matter.
        let mut options = self.options;
        options.scale = 0;
        options.min_width = requested_width.max(1);
        options.min_height = requested_height.max(1);
        self.resize(options)
    }

    /// Decodes the picture, and returns its rows from the top, or from the bottom after
    /// [`set_bottom_up`](Decoder::set_bottom_up). Reads the stream up to the end of the image, and
    /// nothing after it.
    ///
    /// A row has its pixels from the left, and a pixel the samples of its components, each of which
    /// takes one byte; or two, the lower one first, in a lossless picture above 8 bits.
    ///
    /// Where the picture is above a limit, or can't have the colour transform, nothing after the
    /// header is read, and other settings may be tried; where the stream is above its limit it was
    /// read as far as that, and is read on under a higher one. After another error the decoder has
    /// failed, and after a picture a second one is [`Error::Internal`].
    pub fn decode(&mut self) -> Result<Vec<u8>> {
        let (pixels, (), _) = self.decode_by(AS_STORED, library::decode, is_truncated)?;
        Ok(pixels)
    }
}

/// What jpeg-decoder doesn't have.
impl<R: Read> Decoder<R> {
    /// Sets how many bytes decoding may take, as [`decoding_bytes`](Decoder::decoding_bytes) counts
    /// them. [`decode`](Decoder::decode) refuses a picture that needs more by its header, before it
    /// takes any.
    ///
    /// The bytes of the stream, which aren't counted among them, may be as many too, or 1 MiB if
    /// that is more, unless [`set_max_stream_bytes`](Decoder::set_max_stream_bytes) sets their
    /// number.
    ///
    /// ```
    /// # let jpeg = &std::fs::read("tests/grey.jpg").unwrap()[..];
    /// use zaxbriar::{Decoder, Error};
    ///
    /// let mut decoder = Decoder::new(jpeg);
    /// decoder.set_max_decoding_bytes(100);
    /// assert!(matches!(decoder.decode(), Err(Error::Format(_))));
    /// decoder.set_max_decoding_bytes(100_000_000);
    /// assert!(decoder.decode().is_ok());
    /// ```
    pub fn set_max_decoding_bytes(&mut self, max: u64) {
        self.max_bytes = max;
        self.limit_stream();
    }

    /// Sets how many bytes of the stream may be read, since a decoder keeps all of them: for
    /// readers that don't end by themselves, such as a connection.
    ///
    /// A stream whose header or image doesn't end within so many bytes is [`Error::Format`], by a
    /// text that names this call, and [`decode_partial`](Decoder::decode_partial) shows what they
    /// bring, with that fault. No more bytes are read, and after a refusal a higher limit may be
    /// set, under which the stream is read on.
    ///
    /// ```
    /// # let jpeg = &std::fs::read("tests/grey.jpg").unwrap()[..];
    /// use std::io::{repeat, Read};
    /// use zaxbriar::Decoder;
    ///
    /// let mut decoder = Decoder::new(jpeg[..139].chain(repeat(0)));
    /// decoder.set_max_stream_bytes(10_000_000);
    /// let refusal = decoder.decode().unwrap_err().to_string();
    /// assert!(refusal.ends_with("more than 10000000 bytes in the stream (set_max_stream_bytes)"));
    /// ```
    pub fn set_max_stream_bytes(&mut self, max: u64) {
        self.max_stream_bytes = Some(max);
        self.limit_stream();
    }

    /// Sets how many times the scans may code the blocks of the picture, all together, or 0 for any
    /// number, as a new decoder has it. This bounds the time: a scan of eleven bytes can go over all
    /// blocks again. Few files need more than 8; 100 is a limit for files that aren't trusted.
    ///
    /// [`decode`](Decoder::decode) refuses a scan that would exceed it as [`Error::Format`], and
    /// [`decode_partial`](Decoder::decode_partial) shows what the scans before it have brought.
    ///
    /// ```
    /// # let grey = &std::fs::read("tests/grey.jpg").unwrap()[..];
    /// # let scan = grey.windows(2).position(|two| two == [0xFF, 0xDA]).unwrap();
    /// # let (head, end) = (&grey[..scan], &grey[grey.len() - 2..]);
    /// # let twice = [&grey[scan..grey.len() - 2]; 2].concat();
    /// # let jpeg = &[head, &twice, end].concat()[..];
    /// use zaxbriar::{Decoder, Error};
    ///
    /// let mut decoder = Decoder::new(jpeg);
    /// decoder.set_max_passes(1);
    /// assert!(matches!(decoder.decode(), Err(Error::Format(_))));
    /// let mut decoder = Decoder::new(jpeg);
    /// decoder.set_max_passes(2);
    /// assert!(decoder.decode().is_ok());
    /// ```
    pub fn set_max_passes(&mut self, max: u64) {
        self.options.max_passes = max;
    }

    /// Returns the most memory that decoding takes at a time for the picture, its planes and its
    /// coefficients, once the header was read. Not counted are the bytes of the stream, metadata,
    /// and tables and lines, at most some 256 kB. It counts the picture as
    /// [`decode`](Decoder::decode) returns it; in a layout that alone has another number of bytes.
    pub fn decoding_bytes(&self) -> Option<u64> {
        self.picture.as_ref().map(Picture::bytes)
    }

    /// Reads as far as the stream goes, and returns the picture that it has brought up to its first
    /// fault, and that fault: for streams that are truncated or damaged, which
    /// [`decode`](Decoder::decode) refuses.
    ///
    /// The blocks before the fault count, in a progressive picture those of all scans before it;
    /// of a lossless scan the rows of MCUs that are whole; what no scan has brought is mid-grey. A
    /// marker in place of blocks is a fault, where `decode` takes zeros for the bits that are
    /// lacking. An error of the reader is a fault of the stream, by that error.
    ///
    /// The result is an error if no frame header was accepted before the fault, if the picture is
    /// above a limit or can't have the colour transform, and as `decode`'s after another call.
    ///
    /// It takes no more memory than `decode` does, and is limited by
    /// [`set_max_decoding_bytes`](Decoder::set_max_decoding_bytes) in the same way.
    ///
    /// ```
    /// # let jpeg = &std::fs::read("tests/grey.jpg").unwrap()[..];
    /// use zaxbriar::{Decoder, Error};
    ///
    /// let cut = &jpeg[..130];
    /// let partial = Decoder::new(cut).decode_partial()?;
    /// assert_eq!(partial.pixels, [128; 64]);
    /// assert_eq!(partial.whole_rows, 0);
    /// assert!(matches!(partial.fault, Some(Error::Io(_))));
    ///
    /// let partial = Decoder::new(jpeg).decode_partial()?;
    /// assert_eq!(partial.pixels, Decoder::new(jpeg).decode()?);
    /// assert_eq!(partial.whole_rows, 8);
    /// assert!(partial.fault.is_none());
    /// # Ok::<(), Error>(())
    /// ```
    pub fn decode_partial(&mut self) -> Result<PartialPicture> {
        self.decode_partial_by(AS_STORED)
    }

    /// Decodes the picture into a layout, such as [`Rgba`](crate::layout::Rgba), and returns its
    /// rows as [`decode`](Decoder::decode) does: a vector of `u8`, or of `u16` in the machine's
    /// order of bytes if a sample or a pixel of the layout has 16 bits.
    ///
    /// A row has its pixels from the left, without gaps, each of
    /// [`PIXEL_ELEMENTS`](Layout::PIXEL_ELEMENTS) elements. The layout's module says what they are;
    /// [`info`](Decoder::info) describes the picture as it is stored, whatever the layout.
    ///
    /// It reads and refuses what `decode` does. The rows are written in the layout at once, without
    /// a second picture, and [`set_max_decoding_bytes`](Decoder::set_max_decoding_bytes) limits the
    /// picture in its layout. The colour transform [`None`](ColorTransform::None) is an
    /// [`Error::Format`] for a picture of several components, since its rows have no pixels.
    ///
    /// ```
    /// # let jpeg = &std::fs::read("tests/grey.jpg").unwrap()[..];
    /// use zaxbriar::layout::{Bgra, Grey16};
    /// use zaxbriar::Decoder;
    ///
    /// let mut decoder = Decoder::new(jpeg);
    /// let pixels = decoder.decode_as(Bgra)?;
    /// let info = decoder.info().unwrap();
    /// assert_eq!(pixels.len(), usize::from(info.width) * usize::from(info.height) * 4);
    ///
    /// let samples: Vec<u16> = Decoder::new(jpeg).decode_as(Grey16)?;
    /// assert_eq!(samples, [0x8181; 64]);
    /// # Ok::<(), zaxbriar::Error>(())
    /// ```
    pub fn decode_as<L: Layout>(&mut self, layout: L) -> Result<Vec<L::Element>> {
        let (pixels, (), _) = self.decode_by(layout.number(), library::decode, is_truncated)?;
        Ok(pixels)
    }

    /// Returns what [`decode_partial`](Decoder::decode_partial) does, with the picture in a layout,
    /// as [`decode_as`](Decoder::decode_as) returns it.
    ///
    /// ```
    /// # let jpeg = &std::fs::read("tests/grey.jpg").unwrap()[..];
    /// use zaxbriar::layout::Rgb565;
    /// use zaxbriar::Decoder;
    ///
    /// let partial = Decoder::new(&jpeg[..130]).decode_partial_as(Rgb565)?;
    /// let mid_grey: u16 = 128 / 8 * 2048 + 128 / 4 * 32 + 128 / 8;
    /// assert_eq!(partial.pixels, [mid_grey; 64]);
    /// assert!(partial.fault.is_some());
    /// # Ok::<(), zaxbriar::Error>(())
    /// ```
    pub fn decode_partial_as<L: Layout>(
        &mut self,
        layout: L,
    ) -> Result<PartialPicture<L::Element>> {
        self.decode_partial_by(layout.number())
    }

    /// Reads the stream up to the end of the image, and nothing after it, and returns the rows of
    /// the picture one by one, from the top, as they are decoded: for a program that needs no whole
    /// picture in memory.
    ///
    /// If the first scan has all components of a sequential frame, as in most files, two rows of
    /// MCUs are in memory at most beside the bytes of the stream, whatever the height is. Other
    /// streams are decoded to their end for the first row.
    ///
    /// The rows are together what [`decode`](Decoder::decode) returns, at the scale and by the
    /// colour transform that are set, and the limits are the same. Another order of rows, an
    /// upright picture, its luma, a part of it or a size to fit within are an [`Error::Format`],
    /// which changes nothing. Nor does one by a limit; otherwise the decoder decodes no more.
    ///
    /// ```
    /// # let jpeg = &std::fs::read("image/tests/colour.jpg").unwrap()[..];
    /// use zaxbriar::Decoder;
    ///
    /// let mut decoder = Decoder::new(jpeg);
    /// let rows = decoder.rows()?;
    /// let mut red = 0;
    /// for row in rows {
    ///     red += row?.chunks(3).map(|pixel| u64::from(pixel[0])).sum::<u64>();
    /// }
    /// # let pixels = Decoder::new(jpeg).decode()?;
    /// # assert_eq!(red, pixels.chunks(3).map(|pixel| u64::from(pixel[0])).sum());
    /// # Ok::<(), zaxbriar::Error>(())
    /// ```
    pub fn rows(&mut self) -> Result<Rows<'_>> {
        if !self.options.is_plain() {
            let text = "rows are given as they are stored, of the whole picture, and from the top";
            return Err(Error::Format(text.into()));
        }
        let (options, picture) = self.begin(AS_STORED)?;
        let failure = self.stream.read_image(&mut self.reader);
        if matches!(failure, Some(Failure::Limit(_))) {
            return Err(Error::of(Refusal::Truncated, failure));
        }
        self.stage = Stage::Decoded;
        self.metadata_end = self.stream.metadata_end();
        self.metadata = library::find_metadata(&self.stream.bytes()[..self.metadata_end]);
        Rows::new(self.stream.bytes(), &options, &picture, failure)
    }

    /// Sets whether a picture's rows are returned from the bottom, the last one first, as BMP files
    /// and OpenGL have them. A new decoder returns them from the top. A row has its pixels from the
    /// left all the same, and [`whole_rows`](PartialPicture::whole_rows) counts from the top.
    ///
    /// ```
    /// # let jpeg = &std::fs::read("image/tests/colour.jpg").unwrap()[..];
    /// use zaxbriar::layout::Bgr;
    /// use zaxbriar::Decoder;
    ///
    /// let from_top = Decoder::new(jpeg).decode_as(Bgr)?;
    /// let mut decoder = Decoder::new(jpeg);
    /// decoder.set_bottom_up(true);
    /// let from_bottom = decoder.decode_as(Bgr)?;
    /// let row_bytes = usize::from(decoder.info().unwrap().width) * 3;
    /// assert!(from_bottom.chunks(row_bytes).eq(from_top.chunks(row_bytes).rev()));
    /// # Ok::<(), zaxbriar::Error>(())
    /// ```
    pub fn set_bottom_up(&mut self, is_bottom_up: bool) {
        self.options.bottom_up = is_bottom_up.into();
    }

    /// Sets whether the picture is turned upright, as its [`orientation`](Decoder::orientation)
    /// says. A new decoder returns it as it is stored. [`info`](Decoder::info) then has the size of
    /// the upright picture, also if the header was read before. The pixels are written to their
    /// places, without a second picture.
    ///
    /// Rows from the bottom are those of the upright picture, and
    /// [`whole_rows`](PartialPicture::whole_rows) counts those of the stored one. The colour
    /// transform [`None`](ColorTransform::None) is an [`Error::Format`] for a picture of several
    /// components, since its rows have no pixels.
    ///
    /// ```
    /// # let colour = std::fs::read("image/tests/colour.jpg").unwrap();
    /// # let exif = b"\xff\xe1\0\x1eExif\0\0MM\0*\0\0\0\x08\0\x01\x01\x12\0\x03\0\0\0\x01";
    /// # let jpeg = &[&colour[..2], exif, b"\0\x06\0\0", &colour[2..]].concat()[..];
    /// use zaxbriar::Decoder;
    ///
    /// let mut decoder = Decoder::new(jpeg);
    /// decoder.set_upright(true);
    /// let pixels = decoder.decode()?;
    /// let info = decoder.info().unwrap();
    /// assert_eq!((decoder.orientation(), info.width, info.height), (Some(6), 24, 40));
    /// # assert_eq!(pixels.len(), 24 * 40 * 3);
    /// # Ok::<(), zaxbriar::Error>(())
    /// ```
    pub fn set_upright(&mut self, is_upright: bool) {
        let upright = u8::from(is_upright);
        if self.options.upright != upright {
            self.options.upright = upright;
            self.describe_anew(Picture::turned);
        }
    }

    /// Sets whether a picture in colour gives its luma alone: the samples of its first component,
    /// without a conversion. A new decoder returns it with its colours. [`info`](Decoder::info) then
    /// describes a grey picture, also if the header was read before, and
    /// [`decode_as`](Decoder::decode_as) makes each layout of its samples.
    ///
    /// A picture of several components whose first isn't luma, as in RGB or CMYK, or has fewer
    /// samples than the picture has pixels, is an [`Error::Format`] when it is decoded. Grey and
    /// lossless pictures aren't affected.
    ///
    /// ```
    /// # let jpeg = &std::fs::read("image/tests/colour.jpg").unwrap()[..];
    /// use zaxbriar::{Decoder, PixelFormat};
    ///
    /// let mut decoder = Decoder::new(jpeg);
    /// decoder.set_luma(true);
    /// let luma = decoder.decode()?;
    /// let info = decoder.info().unwrap();
    /// assert_eq!(info.pixel_format, PixelFormat::L8);
    /// assert_eq!(luma.len(), usize::from(info.width) * usize::from(info.height));
    /// # Ok::<(), zaxbriar::Error>(())
    /// ```
    pub fn set_luma(&mut self, is_luma: bool) {
        self.options.luma = is_luma.into();
        self.describe_anew(|picture| picture.with_luma(is_luma));
    }

    /// Chooses a part of the picture, or all of it again, and returns the size that it has then.
    /// Reads the header. The part is one of what [`decode`](Decoder::decode) returns without it: of
    /// the picture at its scale, and of the upright one after
    /// [`set_upright`](Decoder::set_upright).
    ///
    /// It is what `info` describes, whose samples and bytes are limited, and whose rows are
    /// returned, in each layout and order. The stream is read and decoded as a whole all the same,
    /// so a fault anywhere in it refuses the part, too.
    ///
    /// An area without pixels, or that isn't inside the picture, is an [`Error::Format`], and
    /// changes nothing. Where the picture is turned later, so that the area isn't inside it any
    /// more, decoding is that error. So is the colour transform [`None`](ColorTransform::None) for
    /// a part of several components.
    ///
    /// ```
    /// # let jpeg = &std::fs::read("image/tests/colour.jpg").unwrap()[..];
    /// use zaxbriar::{Area, Decoder};
    ///
    /// let whole = Decoder::new(jpeg).decode()?;
    /// let mut decoder = Decoder::new(jpeg);
    /// let area = Area { left: 8, top: 20, width: 16, height: 4 };
    /// assert_eq!(decoder.set_crop(Some(area))?, (16, 4));
    /// let rows = whole.chunks(3 * 40).skip(20).map(|row| &row[3 * 8..3 * 24]);
    /// assert_eq!(decoder.decode()?, rows.collect::<Vec<_>>().concat());
    /// # Ok::<(), zaxbriar::Error>(())
    /// ```
    pub fn set_crop(&mut self, area: Option<Area>) -> Result<(u16, u16)> {
        let mut options = self.options;
        options.crop = area.unwrap_or_default();
        if area == Some(Area::default()) {
            return Err(Error::Format("an area without pixels".into()));
        }
        self.resize(options)
    }

    /// Chooses exactly that part of the picture's size, rounded up, and returns the size that it
    /// has then. Reads the header.
    ///
    /// A lossless picture keeps its size.
    ///
    /// ```
    /// # let jpeg = &std::fs::read("tests/grey.jpg").unwrap()[..];
    /// use zaxbriar::{Decoder, Scale};
    ///
    /// let mut decoder = Decoder::new(jpeg);
    /// assert_eq!(decoder.set_scale(Scale::Quarter)?, (2, 2));
    /// assert_eq!(decoder.decode()?.len(), 4);
    /// # Ok::<(), zaxbriar::Error>(())
    /// ```
    pub fn set_scale(&mut self, scale: Scale) -> Result<(u16, u16)> {
        let mut options = self.options;
        options.scale = scale as u8;
        self.resize(options)
    }

    /// Makes the picture fit within a size, as it is shown, and returns the size that it has then:
    /// the greatest one of its proportions, or its own where that fits. 0 is any width or height.
    /// Reads the header.
    ///
    /// It is the picture at its scale ([`scale`](Decoder::scale),
    /// [`set_scale`](Decoder::set_scale)), or [the part](Decoder::set_crop) of it, that is made
    /// smaller: each sample is the mean of those in its place, rounded to the nearest number. To
    /// decode less of a large picture, choose a scale, too. Decoding it with the colour transform
    /// [`None`](ColorTransform::None) of several components is an [`Error::Format`].
    ///
    /// ```
    /// # let jpeg = &std::fs::read("image/tests/colour.jpg").unwrap()[..];
    /// use zaxbriar::Decoder;
    ///
    /// let mut decoder = Decoder::new(jpeg);
    /// assert_eq!(decoder.set_within(16, 16)?, (16, 10));
    /// assert_eq!(decoder.decode()?.len(), 16 * 10 * 3);
    /// # Ok::<(), zaxbriar::Error>(())
    /// ```
    pub fn set_within(&mut self, width: u16, height: u16) -> Result<(u16, u16)> {
        let mut options = self.options;
        options.most_width = width;
        options.most_height = height;
        self.resize(options)
    }

    /// Returns how many bits a sample has, once the header was read: 8, or 2 to 16 in a lossless
    /// picture.
    pub fn precision(&self) -> Option<u8> {
        self.picture.map(|picture| picture.precision)
    }

    /// Returns the orientation that Exif data before the frame say, 1 to 8, once the header was
    /// read; 1 where they say none. It is that of the stored picture, also where this is turned.
    pub fn orientation(&self) -> Option<u8> {
        self.picture.map(|picture| picture.orientation)
    }

    /// Returns the density that the first JFIF segment before the frame gives, once the header was
    /// read; none where there is no such segment, or a density is 0.
    ///
    /// ```
    /// # let grey = std::fs::read("tests/grey.jpg").unwrap();
    /// # let segment = b"\xff\xe0\0\x10JFIF\0\x01\x02\x01\0\x48\0\x60\0\0";
    /// # let jpeg = [&grey[..2], segment, &grey[2..]].concat();
    /// let mut decoder = zaxbriar::Decoder::new(&jpeg[..]);
    /// decoder.read_info()?;
    /// let density = decoder.density().unwrap();
    /// assert_eq!((density.unit, density.horizontal, density.vertical), (1, 72, 96));
    /// # Ok::<(), zaxbriar::Error>(())
    /// ```
    pub fn density(&self) -> Option<Density> {
        self.picture.as_ref().and_then(Density::of)
    }

    /// Returns a copy of the Exif data that were read, joined from the last segment that begins
    /// with a TIFF header and those after it that continue it.
    ///
    /// [`exif_data`](Decoder::exif_data) returns those of the last segment alone. Like the next
    /// three calls it returns what was read before a failure, too, and none where memory is refused.
    pub fn joined_exif_data(&self) -> Option<Vec<u8>> {
        self.joined(Joined::Exif)
    }

    /// Returns a copy of the extended XMP data that [`xmp_data`](Decoder::xmp_data) names, joined
    /// from their parts, if all of these were read.
    pub fn extended_xmp_data(&self) -> Option<Vec<u8>> {
        self.joined(Joined::ExtendedXmp)
    }

    /// Returns a copy of the IPTC data among the image resources of Photoshop that were read.
    pub fn iptc_data(&self) -> Option<Vec<u8>> {
        self.joined(Joined::Iptc)
    }

    /// Returns a copy of the thumbnail in the Exif data that were read: a JPEG stream as a rule.
    ///
    /// ```
    /// # let grey = std::fs::read("tests/grey.jpg").unwrap();
    /// # let exif = [&b"Exif\0\0II*\0\x08\0\0\0\0\0\x0e\0\0\0\x02\0\x01\x02\x04\0\x01\0\0\0"[..],
    /// #     b"\x2c\0\0\0\x02\x02\x04\0\x01\0\0\0", &[grey.len() as u8, 0, 0, 0, 0, 0, 0, 0], &grey].concat();
    /// # let length = (exif.len() as u16 + 2).to_be_bytes();
    /// # let jpeg = [&grey[..2], b"\xff\xe1", &length, &exif, &grey[2..]].concat();
    /// use zaxbriar::Decoder;
    ///
    /// let mut decoder = Decoder::new(&jpeg[..]);
    /// decoder.read_info()?;
    /// let thumbnail = decoder.thumbnail().unwrap();
    /// let pixels = Decoder::new(&thumbnail[..]).decode()?;
    /// # assert_eq!(thumbnail, grey);
    /// # Ok::<(), zaxbriar::Error>(())
    /// ```
    pub fn thumbnail(&self) -> Option<Vec<u8>> {
        self.joined(Joined::Thumbnail)
    }

    fn joined(&self, kind: Joined) -> Option<Vec<u8>> {
        library::joined_metadata(&self.stream.bytes()[..self.metadata_end], kind)
    }
}

impl<R: Read> Decoder<R> {
    fn limit_stream(&mut self) {
        let by_memory = self.max_bytes.max(LEAST_STREAM_LIMIT);
        let max = self.max_stream_bytes.unwrap_or(by_memory);
        self.stream.set_max_bytes(max);
    }

    /// Describes the picture anew, by other options.
    fn resize(&mut self, options: Options) -> Result<(u16, u16)> {
        self.read_info()?;
        let picture = self.describe(&options)?;
        self.options = options;
        self.picture = Some(picture);
        Ok(size_of(&picture))
    }

    /// Describes the picture anew, once its header was read, after an option was set of which
    /// `change` says what it does to all of it. Where a part isn't inside the picture any more, the
    /// description stays as it is, and decoding refuses the part.
    fn describe_anew(&mut self, change: impl Fn(Picture) -> Picture) {
        self.picture = self.picture.map(|picture| {
            if self.options.has_own_size() {
                self.describe(&self.options).unwrap_or(picture)
            } else {
                change(picture)
            }
        });
    }

    /// Describes the picture by options. The header was read.
    fn describe(&self, options: &Options) -> Result<Picture> {
        let answer = library::read_info(self.stream.bytes(), options);
        answer.outcome.map_err(Error::refused)
    }

    fn refuse_above_limits(&self, picture: &Picture) -> Result<()> {
        let (samples, bytes) = (picture.samples(), picture.bytes());
        let text = if samples > self.max_samples {
            format!(
                "{samples} samples in the picture, expected at most {}",
                self.max_samples
            )
        } else if bytes > self.max_bytes {
            format!(
                "{bytes} bytes for decoding, expected at most {}",
                self.max_bytes
            )
        } else {
            return Ok(());
        };
        Err(Error::Format(text))
    }

    /// Decodes the part of the image before its first fault into a layout.
    fn decode_partial_by<N: Number>(&mut self, layout: u8) -> Result<PartialPicture<N>> {
        let (pixels, part, failure) = self.decode_by(layout, library::decode_partial, shows_cut)?;
        Ok(PartialPicture {
            pixels,
            // No picture has more rows than 65,535.
            whole_rows: part.whole_rows as u16,
            fault: part.fault.map(|fault| Error::of(fault, failure)),
        })
    }

    /// Reads the header, and returns by which options the picture is decoded into a layout, and how
    /// these describe it, unless it was decoded already or can't be.
    fn begin(&mut self, layout: u8) -> Result<(Options, Picture)> {
        self.read_info()?;
        let stored = match (self.stage, self.picture) {
            (Stage::HeaderRead, Some(picture)) => picture,
            _ => return Err(Error::Internal("image was already decoded".into())),
        };
        let mut options = self.options;
        options.layout = layout;
        let picture = if layout == AS_STORED && !options.has_own_size() {
            stored
        } else {
            self.describe(&options)?
        };
        self.refuse_above_limits(&picture)?;
        options.transform = transform_number(self.color_transform, &picture, &options)?;
        Ok((options, picture))
    }

    /// Reads the rest of the image, and decodes it by a call into a layout, whose elements are `N`.
    /// Returns the picture, what the call has returned besides, and why the reader gave no more
    /// bytes, if it didn't.
    fn decode_by<N: Number, T>(
        &mut self,
        layout: u8,
        call: impl Fn(&[u8], &Options, &mut [u8]) -> Answer<T>,
        lacks_bytes: impl Fn(&Outcome<T>) -> bool,
    ) -> Result<(Vec<N>, T, Option<Failure>)> {
        let (options, picture) = self.begin(layout)?;
        self.stage = Stage::Failed;
        let mut pixels = library::zeros(picture.size).map_err(Error::refused)?;
        let failure = self.stream.read_image(&mut self.reader);
        let call = |bytes: &[u8]| call(bytes, &options, library::bytes_of(&mut pixels));
        let (outcome, failure) = self.ask(failure, lacks_bytes, call);
        if is_above_limit(&outcome, &failure) {
            self.stage = Stage::HeaderRead;
        }
        match outcome {
            Ok(returned) => {
                self.stage = Stage::Decoded;
                Ok((pixels, returned, failure))
            }
            Err(refusal) => Err(Error::of(refusal, failure)),
        }
    }

    fn data_at(&self, place: &Option<Range<usize>>) -> Option<&[u8]> {
        place.clone().map(|place| &self.stream.bytes()[place])
    }

    /// Makes a call on the bytes that were read, and finds the metadata in those that it has read.
    /// Where its outcome lacks bytes, and the reader has more, all of it is read and the call is
    /// made again. Returns the outcome, and why the reader gave no more bytes, if it didn't.
    fn ask<T>(
        &mut self,
        mut failure: Option<Failure>,
        lacks_bytes: impl Fn(&Outcome<T>) -> bool,
        mut call: impl FnMut(&[u8]) -> Answer<T>,
    ) -> (Outcome<T>, Option<Failure>) {
        let mut answer = call(self.stream.bytes());
        if failure.is_none() && lacks_bytes(&answer.outcome) {
            failure = Some(self.stream.read_rest(&mut self.reader));
            answer = call(self.stream.bytes());
        }
        self.metadata_end = answer.stream_bytes.min(self.stream.metadata_end());
        self.metadata = library::find_metadata(&self.stream.bytes()[..self.metadata_end]);
        (answer.outcome, failure)
    }
}

/// What a call of the library comes to.
type Outcome<T> = std::result::Result<T, Refusal>;

/// Returns whether a stream is refused since it ends too soon.
fn is_truncated<T>(outcome: &Outcome<T>) -> bool {
    matches!(outcome, Err(Refusal::Truncated))
}

/// Returns whether a stream is refused since it doesn't end within its limit.
fn is_above_limit<T>(outcome: &Outcome<T>, failure: &Option<Failure>) -> bool {
    is_truncated(outcome) && matches!(failure, Some(Failure::Limit(_)))
}

/// Returns whether it ends too soon, and its part before that may be shown.
fn shows_cut(outcome: &Outcome<Part>) -> bool {
    let fault = match outcome {
        Ok(part) => part.fault.as_ref(),
        Err(refusal) => Some(refusal),
    };
    matches!(fault, Some(Refusal::Truncated))
}
