//! JPEG pictures for the crate [`image`] 0.25, by a decoder that is proved: [`ZaxbriarDecoder`] is
//! an [`ImageDecoder`] over the crate [`zaxbriar`], whose page says what is proved.
//!
//! ```
//! # let path = "tests/colour.jpg";
//! use image::DynamicImage;
//! use std::fs::File;
//! use std::io::BufReader;
//! use zaxbriar_image::ZaxbriarDecoder;
//!
//! let decoder = ZaxbriarDecoder::new(BufReader::new(File::open(path)?))?;
//! let picture = DynamicImage::from_decoder(decoder)?;
//! assert_eq!((picture.width(), picture.height()), (40, 24));
//! # Ok::<(), Box<dyn std::error::Error>>(())
//! ```
#![doc = include_str!("mapping.md")]
#![forbid(unsafe_code)]
#![warn(missing_docs)]

mod picture;

pub use picture::ZaxbriarDecoder;

use image::{ColorType, ExtendedColorType, ImageDecoder, ImageResult, LimitSupport, Limits};
use std::io::Read;
use zaxbriar::PixelFormat;

impl<R: Read> ImageDecoder for ZaxbriarDecoder<R> {
    fn dimensions(&self) -> (u32, u32) {
        self.size()
    }

    fn color_type(&self) -> ColorType {
        self.color()
    }

    fn original_color_type(&self) -> ExtendedColorType {
        match self.color() {
            ColorType::Rgb8 if self.format() == PixelFormat::CMYK32 => ExtendedColorType::Cmyk8,
            color => color.into(),
        }
    }

    /// Returns the profile of the stream. One for cyan, magenta, yellow and black isn't that of the
    /// pixels, which are red, green and blue.
    fn icc_profile(&mut self) -> ImageResult<Option<Vec<u8>>> {
        Ok(self.decoder().icc_profile())
    }

    fn exif_metadata(&mut self) -> ImageResult<Option<Vec<u8>>> {
        Ok(self.decoder().exif_data().map(<[u8]>::to_vec))
    }

    fn set_limits(&mut self, limits: Limits) -> ImageResult<()> {
        limits.check_support(&LimitSupport::default())?;
        let (width, height) = self.size();
        limits.check_dimensions(width, height)?;
        self.limit_bytes(limits.max_alloc)
    }

    fn read_image(mut self, buf: &mut [u8]) -> ImageResult<()> {
        assert_eq!(buf.len() as u64, self.total_bytes());
        buf.copy_from_slice(&self.pixels()?);
        Ok(())
    }

    fn read_image_boxed(self: Box<Self>, buf: &mut [u8]) -> ImageResult<()> {
        (*self).read_image(buf)
    }
}
