//! How the components of a picture become the samples of its pixels.

use crate::error::{Error, Result, UnsupportedFeature};
use crate::layout::AS_STORED;
use crate::library::{Options, Picture};

/// How components become samples, in place of what the stream says.
#[derive(Debug, Clone, Copy, PartialEq, Eq, Hash)]
#[non_exhaustive]
pub enum ColorTransform {
    /// They are samples as they are, and a line has those of its first component, then those of the
    /// next ones. [`decode_as`](crate::Decoder::decode_as) refuses it, since it has no pixels, and
    /// so does a decoder that turns the picture ([`set_upright`](crate::Decoder::set_upright)),
    /// gives a part of it ([`set_crop`](crate::Decoder::set_crop)) or makes it smaller
    /// ([`set_within`](crate::Decoder::set_within)).
    None,
    /// A transform that isn't known: refused.
    Unknown,
    /// Brightness; for pictures of one component, which no transform changes.
    Grayscale,
    /// Red, green and blue, as they are.
    RGB,
    /// Brightness and two differences of colour, which become red, green and blue.
    YCbCr,
    /// Cyan, magenta, yellow and black, each of which is inverted.
    CMYK,
    /// Brightness, two differences of colour and black, which become inverted cyan, magenta and
    /// yellow, and inverted black.
    YCCK,
    /// YCbCr of a greater range: refused.
    JcsBgYcc,
    /// RGB of a greater range: refused.
    JcsBgRgb,
}

/// The number of what the stream says, in place of a transform.
const OF_STREAM: u8 = 0;

/// Returns what options make of a picture that has pixels alone, or nothing where its lines may
/// have component after component.
fn place_of(options: &Options) -> &'static str {
    if options.layout != AS_STORED {
        " in a layout"
    } else if options.upright != 0 {
        " turned upright"
    } else if options.is_fitted() {
        " within a size"
    } else if options.has_own_size() {
        " of a part"
    } else {
        ""
    }
}

/// Returns the library's number of a transform for a picture by options. Errors: `Unsupported`,
/// and `Format` for one that fits no picture of several components by these; the library itself
/// refuses `RGB` to `YCCK` if they don't fit this one.
pub(crate) fn transform_number(
    transform: Option<ColorTransform>,
    picture: &Picture,
    options: &Options,
) -> Result<u8> {
    let transform = match transform {
        Some(transform) if picture.stream_components() > 1 && !picture.is_lossless() => transform,
        _ => return Ok(OF_STREAM),
    };
    if options.luma != 0 && transform != ColorTransform::YCbCr {
        return Err(Error::Format(format!(
            "color transform {transform:?} of a picture whose luma is asked for, expected YCbCr"
        )));
    }
    let place = place_of(options);
    let may_be_none = place.is_empty();
    match transform {
        ColorTransform::None if may_be_none => Ok(1),
        ColorTransform::RGB => Ok(2),
        ColorTransform::YCbCr => Ok(3),
        ColorTransform::CMYK => Ok(4),
        ColorTransform::YCCK => Ok(5),
        ColorTransform::None | ColorTransform::Unknown | ColorTransform::Grayscale => {
            let components = picture.components;
            let fitting = match (components, may_be_none) {
                (3, true) => "None, RGB or YCbCr",
                (3, false) => "RGB or YCbCr",
                (_, true) => "None, CMYK or YCCK",
                (_, false) => "CMYK or YCCK",
            };
            Err(Error::Format(format!(
                "color transform {transform:?} with {components} components{place}, expected \
                 {fitting}"
            )))
        }
        ColorTransform::JcsBgYcc | ColorTransform::JcsBgRgb => Err(Error::Unsupported(
            UnsupportedFeature::ColorTransform(transform),
        )),
    }
}
