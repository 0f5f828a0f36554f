//! What both versions of `image` ask a decoder for.

use image::error::{DecodingError, LimitError, LimitErrorKind};
use image::error::{UnsupportedError, UnsupportedErrorKind};
use image::{ColorType, ImageError, ImageFormat, ImageResult};
use std::io::{ErrorKind, Read};
use zaxbriar::{Decoder, Error, ImageInfo, PixelFormat};

/// How many times the scans may code the blocks of a picture (`Decoder::set_max_passes`).
const MAX_PASSES: u64 = 100;

/// A decoder of the JPEG picture that a reader gives, for
/// [`DynamicImage::from_decoder`](image::DynamicImage::from_decoder).
///
/// It asks the reader for single bytes, so give it a [`BufReader`](std::io::BufReader) over a
/// file. A reader that is lent (`&mut reader`) stands right after the image when this is decoded.
pub struct ZaxbriarDecoder<R> {
    decoder: Decoder<R>,
    info: ImageInfo,
    precision: u8,
}

impl<R: Read> ZaxbriarDecoder<R> {
    /// Returns a decoder of what a reader gives, whose header is read. Its scans may go 100 times
    /// over the picture, which bounds the time that decoding takes.
    pub fn new(reader: R) -> ImageResult<ZaxbriarDecoder<R>> {
        let mut decoder = Decoder::new(reader);
        decoder.set_max_passes(MAX_PASSES);
        ZaxbriarDecoder::from_decoder(decoder)
    }

    /// Returns the same of a decoder whose settings were made, and reads its header. It has no limit
    /// of passes but its own.
    ///
    /// ```
    /// # let tests = ["tests", "../tests"].map(|folder| format!("{folder}/colour.jpg"));
    /// # let jpeg = &tests.iter().find_map(|path| std::fs::read(path).ok()).unwrap()[..];
    /// use image::{DynamicImage, GenericImageView};
    /// use zaxbriar::{Decoder, Scale};
    /// use zaxbriar_image::ZaxbriarDecoder;
    ///
    /// let mut decoder = Decoder::new(jpeg);
    /// decoder.set_scale(Scale::Quarter)?;
    /// let picture = DynamicImage::from_decoder(ZaxbriarDecoder::from_decoder(decoder)?)?;
    /// assert_eq!(picture.dimensions(), (10, 6));
    /// # Ok::<(), Box<dyn std::error::Error>>(())
    /// ```
    pub fn from_decoder(mut decoder: Decoder<R>) -> ImageResult<ZaxbriarDecoder<R>> {
        decoder.read_info().map_err(image_error)?;
        match (decoder.info(), decoder.precision()) {
            (Some(info), Some(precision)) => Ok(ZaxbriarDecoder {
                decoder,
                info,
                precision,
            }),
            _ => unreachable!("the header was read"),
        }
    }

    /// Returns the decoder, which says more of the picture, such as its orientation, density and
    /// XMP data.
    pub fn decoder(&self) -> &Decoder<R> {
        &self.decoder
    }

    pub(crate) fn size(&self) -> (u32, u32) {
        (self.info.width.into(), self.info.height.into())
    }

    pub(crate) fn format(&self) -> PixelFormat {
        self.info.pixel_format
    }

    pub(crate) fn color(&self) -> ColorType {
        match (self.format(), self.precision > 8) {
            (PixelFormat::L8, _) => ColorType::L8,
            (PixelFormat::L16, _) => ColorType::L16,
            (PixelFormat::RGB24 | PixelFormat::CMYK32, false) => ColorType::Rgb8,
            (PixelFormat::RGB24 | PixelFormat::CMYK32, true) => ColorType::Rgb16,
        }
    }

    /// Refuses the picture if it and decoding it take more bytes than that.
    pub(crate) fn limit_bytes(&mut self, max: Option<u64>) -> ImageResult<()> {
        self.decoder.set_max_decoding_bytes(max.unwrap_or(u64::MAX));
        if self.decoder.decoding_bytes() > max.or(Some(u64::MAX)) {
            return Err(out_of_memory());
        }
        Ok(())
    }

    /// Decodes the picture. Samples of two bytes have the lower one first, as the processor has it.
    pub(crate) fn pixels(&mut self) -> ImageResult<Vec<u8>> {
        let mut pixels = self.decoder.decode().map_err(image_error)?;
        if self.format() == PixelFormat::CMYK32 {
            let most = (1 << self.precision) - 1;
            match self.color() {
                ColorType::Rgb16 => in_colour::<2>(&mut pixels, most),
                _ => in_colour::<1>(&mut pixels, most),
            }
        }
        Ok(pixels)
    }
}

/// Makes red, green and blue of cyan, magenta, yellow and black, in place. Samples have `BYTES`
/// bytes each, and `most` is full ink.
fn in_colour<const BYTES: usize>(pixels: &mut Vec<u8>, most: u32) {
    let sample = |bytes: &[u8]| {
        let value = bytes
            .iter()
            .rev()
            .fold(0, |value, &byte| value << 8 | u32::from(byte));
        most.saturating_sub(value)
    };
    let count = pixels.len() / (4 * BYTES);
    for index in 0..count {
        let from = 4 * BYTES * index;
        let lightness = sample(&pixels[from + 3 * BYTES..from + 4 * BYTES]);
        for component in 0..3 {
            let ink = from + component * BYTES;
            let value = sample(&pixels[ink..ink + BYTES]) * lightness / most;
            let to = (3 * index + component) * BYTES;
            pixels[to..to + BYTES].copy_from_slice(&value.to_le_bytes()[..BYTES]);
        }
    }
    pixels.truncate(3 * BYTES * count);
}

fn out_of_memory() -> ImageError {
    ImageError::Limits(LimitError::from_kind(LimitErrorKind::InsufficientMemory))
}

/// Returns the error of `image` for one of the decoder.
fn image_error(error: Error) -> ImageError {
    let format = ImageFormat::Jpeg.into();
    match error {
        Error::Unsupported(feature) => {
            let kind = UnsupportedErrorKind::GenericFeature(format!("{feature:?}"));
            ImageError::Unsupported(UnsupportedError::from_format_and_kind(format, kind))
        }
        Error::Io(error) if error.kind() == ErrorKind::OutOfMemory => out_of_memory(),
        Error::Io(error) => ImageError::IoError(error),
        error => ImageError::Decoding(DecodingError::new(format, error)),
    }
}
