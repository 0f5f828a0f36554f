//! How pixels are arranged, for [`Decoder::decode_as`](crate::Decoder::decode_as): every picture
//! can be decoded into each of these layouts, grey or colour, of any precision.
//!
//! ```
//! # let jpeg = &std::fs::read("tests/grey.jpg").unwrap()[..];
//! use zaxbriar::layout::{Rgb16, Rgba};
//! use zaxbriar::Decoder;
//!
//! let pixels: Vec<u8> = Decoder::new(jpeg).decode_as(Rgba)?;
//! assert_eq!(pixels[..4], [129, 129, 129, 255]);
//! let samples: Vec<u16> = Decoder::new(jpeg).decode_as(Rgb16)?;
//! assert_eq!(samples[..3], [33153, 33153, 33153]);
//! # Ok::<(), zaxbriar::Error>(())
//! ```
//!
//! # The samples
//!
//! A pixel is first converted to red, green and blue from 0 to `full`, which is 65535 in [`Grey16`]
//! and [`Rgb16`] and 255 in the others, by integer arithmetic:
//!
//! - a sample of a precision of P bits becomes `(sample * full + most / 2) / most`, where `most` is
//!   2^P - 1, so that one of 8 or of 16 bits stays as it is where `full` is 255 or 65535; a greater
//!   sample, which a lossless picture may have, becomes `full`;
//! - a grey sample is repeated;
//! - cyan, magenta and yellow become red, green and blue, each by
//!   `((full - ink) * (full - black) + full / 2) / full`. This is the simple formula of viewers;
//!   for exact colours take the samples of [`Decoder::decode`](crate::Decoder::decode) and the ICC
//!   profile.
//!
//! This is proved of the C library, as the rest of decoding is.

use crate::library::Number;
use sealed::Numbered;
use std::fmt::Debug;

/// The library's number of the picture as it is stored.
pub(crate) const AS_STORED: u8 = 0;

mod sealed {
    /// What only the layouts of this module have.
    pub trait Numbered {
        /// Returns the library's number of the layout.
        fn number(self) -> u8;
    }
}

/// An arrangement of pixels: one of the types of this module, and no other.
pub trait Layout: Numbered + Copy + Debug {
    /// What a picture is a vector of: `u8`, or `u16` in the machine's order of bytes.
    type Element: Number + Copy + Debug + Default + Ord + Into<u32>;

    /// The number of elements of a pixel.
    const PIXEL_ELEMENTS: usize;
}

macro_rules! layouts {
    ($($(#[$doc:meta])* $name:ident = $number:literal, [$element:ty; $count:literal];)*) => {$(
        $(#[$doc])*
        #[derive(Clone, Copy, Debug, PartialEq, Eq)]
        pub struct $name;

        impl Numbered for $name {
            fn number(self) -> u8 {
                $number
            }
        }

        impl Layout for $name {
            type Element = $element;
            const PIXEL_ELEMENTS: usize = $count;
        }
    )*};
}

layouts! {
    /// Grey: the grey sample, or the luma of a colour, which is
    /// `(19595 * red + 38470 * green + 7471 * blue + 32768) / 65536`.
    Grey = 1, [u8; 1];

    /// Red, green and blue.
    Rgb = 2, [u8; 3];

    /// Red, green, blue, and 255.
    Rgba = 3, [u8; 4];

    /// Blue, green, red, and 255.
    Bgra = 4, [u8; 4];

    /// Blue, green and red.
    Bgr = 5, [u8; 3];

    /// 255, red, green and blue.
    Xrgb = 6, [u8; 4];

    /// 255, blue, green and red.
    Abgr = 7, [u8; 4];

    /// A number of 16 bits a pixel: `red / 8 * 2048 + green / 4 * 32 + blue / 8`, each division
    /// rounded down.
    Rgb565 = 8, [u16; 1];

    /// Grey as in [`Grey`], from 0 to 65535.
    Grey16 = 9, [u16; 1];

    /// Red, green and blue, each from 0 to 65535.
    Rgb16 = 10, [u16; 3];
}
