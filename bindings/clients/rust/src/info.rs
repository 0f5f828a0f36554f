//! What a caller is told of a picture, and how it may ask for its size.

use crate::library::Picture;

/// The colours of a pixel, and the bits of a sample.
#[derive(Clone, Copy, Debug, PartialEq)]
pub enum PixelFormat {
    /// Grey, up to 8 bits.
    L8,
    /// Grey, 9 to 16 bits in two bytes, the lower one first.
    L16,
    /// Red, green and blue.
    RGB24,
    /// Cyan, magenta, yellow and black, where 255 is full ink.
    CMYK32,
}

impl PixelFormat {
    /// Returns how many bytes a pixel has: 1, 2, 3 or 4.
    ///
    /// A lossless picture of [`RGB24`](PixelFormat::RGB24) or [`CMYK32`](PixelFormat::CMYK32) has
    /// twice as many where [`Decoder::precision`](crate::Decoder::precision) is above 8.
    pub fn pixel_bytes(&self) -> usize {
        match self {
            PixelFormat::L8 => 1,
            PixelFormat::L16 => 2,
            PixelFormat::RGB24 => 3,
            PixelFormat::CMYK32 => 4,
        }
    }
}

/// How a picture was coded.
#[derive(Clone, Copy, Debug, PartialEq)]
pub enum CodingProcess {
    /// Baseline or extended sequential (T.81, Annex F).
    DctSequential,
    /// Progressive (T.81, Annex G).
    DctProgressive,
    /// Lossless (T.81, Annex H).
    Lossless,
}

/// What a header says of its picture.
#[derive(Clone, Copy, Debug, PartialEq)]
pub struct ImageInfo {
    /// The width in pixels, at the scale that was chosen, upright if that was asked for
    /// ([`Decoder::set_upright`](crate::Decoder::set_upright)), of the part that was
    /// ([`Decoder::set_crop`](crate::Decoder::set_crop)), and within the size that was
    /// ([`Decoder::set_within`](crate::Decoder::set_within)).
    pub width: u16,
    /// The height in pixels, in the same way.
    pub height: u16,
    /// What a pixel is, as [`decode`](crate::Decoder::decode) returns it: grey where the luma alone
    /// is asked for ([`Decoder::set_luma`](crate::Decoder::set_luma)).
    pub pixel_format: PixelFormat,
    /// How the picture was coded.
    pub coding_process: CodingProcess,
}

impl ImageInfo {
    pub(crate) fn of(picture: &Picture) -> ImageInfo {
        let (width, height) = size_of(picture);
        let pixel_format = match picture.format {
            1 => PixelFormat::L8,
            2 => PixelFormat::L16,
            3 => PixelFormat::RGB24,
            _ => PixelFormat::CMYK32,
        };
        let coding_process = match picture.process {
            1 => CodingProcess::DctSequential,
            2 => CodingProcess::DctProgressive,
            _ => CodingProcess::Lossless,
        };
        ImageInfo {
            width,
            height,
            pixel_format,
            coding_process,
        }
    }
}

/// The density that a JFIF segment gives, for [`Decoder::density`](crate::Decoder::density).
#[derive(Clone, Copy, Debug, PartialEq, Eq)]
pub struct Density {
    /// The unit of length: 1 is an inch and 2 a centimetre; with 0 the two numbers only say the
    /// shape of a pixel, whose width is to its height as `vertical` to `horizontal`.
    pub unit: u8,
    /// The pixels of a row per unit, at full size.
    pub horizontal: u16,
    /// The pixels of a column per unit.
    pub vertical: u16,
}

impl Density {
    pub(crate) fn of(picture: &Picture) -> Option<Density> {
        let density = Density {
            unit: picture.density_unit,
            horizontal: picture.horizontal_density,
            vertical: picture.vertical_density,
        };
        (density.horizontal > 0 && density.vertical > 0).then_some(density)
    }
}

/// Returns the width and the height of a picture: a JPEG picture has at most 65535 of either.
pub(crate) fn size_of(picture: &Picture) -> (u16, u16) {
    (picture.width as u16, picture.height as u16)
}

/// A part of a picture, in pixels, for [`Decoder::set_crop`](crate::Decoder::set_crop): so many
/// columns of so many rows.
#[repr(C)]
#[derive(Clone, Copy, Debug, Default, PartialEq, Eq)]
pub struct Area {
    /// The first column, counted from the left.
    pub left: u16,
    /// The first row, counted from the top.
    pub top: u16,
    /// The number of columns, at least 1.
    pub width: u16,
    /// The number of rows, at least 1.
    pub height: u16,
}

/// A part of a picture's size, for [`Decoder::set_scale`](crate::Decoder::set_scale).
#[derive(Clone, Copy, Debug, PartialEq, Eq)]
pub enum Scale {
    /// All of it.
    Full = 1,
    /// A half of each side.
    Half = 2,
    /// A quarter of each side.
    Quarter = 4,
    /// An eighth of each side.
    Eighth = 8,
}
