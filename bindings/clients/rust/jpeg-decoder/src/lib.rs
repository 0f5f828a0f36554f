//! The interface of the crate jpeg-decoder 0.3.2 over [`zaxbriar`], under the original's name, so
//! that a `[patch.crates-io]` puts it in the original's place. The page of [`zaxbriar`] says what
//! differs.

#![forbid(unsafe_code)]
#![warn(missing_docs)]

pub use zaxbriar::{
    CodingProcess, ColorTransform, Decoder, Error, ImageInfo, PixelFormat, UnsupportedFeature,
};
