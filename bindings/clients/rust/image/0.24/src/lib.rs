//! JPEG pictures for the crate [`image`] 0.24, by a decoder that is proved: [`ZaxbriarDecoder`] is
//! an [`ImageDecoder`] over the crate [`zaxbriar`], whose page says what is proved.
//!
//! ```
//! # let path = "../tests/colour.jpg";
//! use image::{DynamicImage, GenericImageView};
//! use std::fs::File;
//! use std::io::BufReader;
//! use zaxbriar_image::ZaxbriarDecoder;
//!
//! let decoder = ZaxbriarDecoder::new(BufReader::new(File::open(path)?))?;
//! let picture = DynamicImage::from_decoder(decoder)?;
//! assert_eq!(picture.dimensions(), (40, 24));
//! # Ok::<(), Box<dyn std::error::Error>>(())
//! ```
#![doc = include_str!("../../src/mapping.md")]
#![forbid(unsafe_code)]
#![warn(missing_docs)]

#[path = "../../src/picture.rs"]
mod picture;

pub use picture::ZaxbriarDecoder;

use image::io::{LimitSupport, Limits};
use image::{ColorType, ImageDecoder, ImageResult};
use std::io::{Cursor, Read};

impl<'a, R: Read + 'a> ImageDecoder<'a> for ZaxbriarDecoder<R> {
    type Reader = Cursor<Vec<u8>>;

    fn dimensions(&self) -> (u32, u32) {
        self.size()
    }

    fn color_type(&self) -> ColorType {
        self.color()
    }

    fn into_reader(mut self) -> ImageResult<Cursor<Vec<u8>>> {
        self.pixels().map(Cursor::new)
    }

    fn read_image(mut self, buf: &mut [u8]) -> ImageResult<()> {
        assert_eq!(buf.len() as u64, self.total_bytes());
        buf.copy_from_slice(&self.pixels()?);
        Ok(())
    }

    fn set_limits(&mut self, limits: Limits) -> ImageResult<()> {
        limits.check_support(&LimitSupport::default())?;
        let (width, height) = self.size();
        limits.check_dimensions(width, height)?;
        self.limit_bytes(limits.max_alloc)
    }
}
