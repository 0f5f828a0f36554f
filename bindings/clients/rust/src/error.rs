use crate::library::Refusal;
use crate::stream::{end_of_bytes, Failure};
use crate::ColorTransform;
use std::error::Error as StdError;
use std::{fmt, io, result};

/// What a call of a decoder returns.
pub type Result<T> = result::Result<T, Error>;

/// A feature of JPEG that is refused by name.
#[derive(Debug, Clone, PartialEq, Eq, Hash)]
pub enum UnsupportedFeature {
    /// Hierarchical coding (T.81, Annex J); also a second frame.
    Hierarchical,
    /// Arithmetic coding (T.81, Annex D).
    ArithmeticEntropyCoding,
    /// Samples of that many bits in a frame of its kind.
    SamplePrecision(u8),
    /// A frame of that many components.
    ComponentCount(u8),
    /// A height that stands after the first scan (T.81, B.2.5).
    DNL,
    /// Never returned: such pictures are [`NonIntegerSubsamplingRatio`], or decoded.
    ///
    /// [`NonIntegerSubsamplingRatio`]: UnsupportedFeature::NonIntegerSubsamplingRatio
    SubsamplingRatio,
    /// Sampling factors that don't divide the greatest ones.
    NonIntegerSubsamplingRatio,
    /// A colour transform that isn't there, which the stream or a caller asks for.
    ColorTransform(ColorTransform),
}

impl UnsupportedFeature {
    /// Returns the feature of a number of the library's, and of what a stream asks for of it; none
    /// for a number that this crate doesn't know.
    pub(crate) fn numbered(number: u8, argument: u8) -> Option<UnsupportedFeature> {
        match (number, argument) {
            (1, _) => Some(Self::Hierarchical),
            (2, _) => Some(Self::ArithmeticEntropyCoding),
            (3, bits) => Some(Self::SamplePrecision(bits)),
            (4, count) => Some(Self::ComponentCount(count)),
            (5, _) => Some(Self::DNL),
            (6, _) => Some(Self::SubsamplingRatio),
            (7, _) => Some(Self::NonIntegerSubsamplingRatio),
            (8, 6) => Some(Self::ColorTransform(ColorTransform::JcsBgYcc)),
            (8, 7) => Some(Self::ColorTransform(ColorTransform::JcsBgRgb)),
            _ => None,
        }
    }
}

/// Why a call of a decoder has failed.
#[derive(Debug)]
pub enum Error {
    /// The stream breaks a rule of T.81, which the text names; or the picture is above a limit, or
    /// the colour transform isn't one for its components or its layout.
    Format(String),
    /// The stream needs a feature that isn't there.
    Unsupported(UnsupportedFeature),
    /// The reader has failed, by this error of its own; or the stream ends too soon
    /// ([`UnexpectedEof`](io::ErrorKind::UnexpectedEof)); or there is no memory for the picture
    /// ([`OutOfMemory`](io::ErrorKind::OutOfMemory)).
    Io(io::Error),
    /// The decoder has failed before, or has returned its picture.
    Internal(Box<dyn StdError + Send + Sync + 'static>),
}

impl Error {
    /// Returns the error for a refusal that is no fault of a reader.
    pub(crate) fn refused(refusal: Refusal) -> Error {
        Error::of(refusal, None)
    }

    /// Returns the error for a refusal. Where the stream ends too soon it is why no more was read.
    pub(crate) fn of(refusal: Refusal, failure: Option<Failure>) -> Error {
        match refusal {
            Refusal::Malformed(text) => {
                let text = text.strip_prefix("invalid JPEG format: ").unwrap_or(&text);
                Error::Format(text.to_string())
            }
            Refusal::Unsupported {
                feature,
                argument,
                text,
            } => UnsupportedFeature::numbered(feature, argument)
                .map_or(Error::Format(text), Error::Unsupported),
            Refusal::Truncated => match failure {
                Some(Failure::Reader(error)) => Error::Io(error),
                Some(Failure::Limit(max)) => Error::Format(format!(
                    "more than {max} bytes in the stream (set_max_stream_bytes)"
                )),
                None => Error::Io(end_of_bytes()),
            },
            Refusal::NoMemory => Error::Io(io::ErrorKind::OutOfMemory.into()),
            Refusal::TooLarge(bytes) => {
                Error::Format(format!("{bytes} bytes for decoding, more than the limit"))
            }
            Refusal::Misfit(text) => Error::Format(text),
            Refusal::Call(text) => Error::Internal(text.into()),
        }
    }
}

impl fmt::Display for Error {
    fn fmt(&self, formatter: &mut fmt::Formatter<'_>) -> fmt::Result {
        match self {
            Error::Format(text) => write!(formatter, "invalid JPEG format: {text}"),
            Error::Unsupported(name) => write!(formatter, "unsupported JPEG feature: {name:?}"),
            Error::Io(error) => error.fmt(formatter),
            Error::Internal(error) => error.fmt(formatter),
        }
    }
}

impl StdError for Error {
    fn source(&self) -> Option<&(dyn StdError + 'static)> {
        match self {
            Error::Io(error) => Some(error),
            Error::Internal(error) => Some(&**error),
            Error::Format(_) | Error::Unsupported(_) => None,
        }
    }
}

impl From<io::Error> for Error {
    fn from(error: io::Error) -> Error {
        Error::Io(error)
    }
}
