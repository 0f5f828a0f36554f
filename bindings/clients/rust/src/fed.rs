use crate::decoder::PartialPicture;
use crate::error::{Error, Result};
use crate::fed_rows::FedRows;
use crate::info::{Area, ImageInfo, Scale};
use crate::layout::{Layout, AS_STORED};
use crate::library::{self, Number, Options, Picture, Pieces, Refusal};
use std::marker::PhantomData;

/// How a [`FedDecoder`] shows a picture, and what that may cost. By default it is shown as it is
/// stored, without limits. Each member is what the call of [`Decoder`](crate::Decoder) is that sets
/// it.
#[derive(Clone, Copy, Debug, Default)]
pub struct FedSettings {
    /// The part of each side, or all of it ([`set_scale`](crate::Decoder::set_scale)).
    pub scale: Option<Scale>,
    /// Whether rows come from the bottom ([`set_bottom_up`](crate::Decoder::set_bottom_up)).
    pub bottom_up: bool,
    /// Whether the picture is turned upright ([`set_upright`](crate::Decoder::set_upright)).
    pub upright: bool,
    /// Whether it is its luma alone ([`set_luma`](crate::Decoder::set_luma)).
    pub luma: bool,
    /// A part of it, or all ([`set_crop`](crate::Decoder::set_crop)).
    pub crop: Option<Area>,
    /// The width and the height that it fits within, of which 0 is any
    /// ([`set_within`](crate::Decoder::set_within)).
    pub within: (u16, u16),
    /// How many bytes decoding and the picture may take, or any number
    /// ([`set_max_decoding_bytes`](crate::Decoder::set_max_decoding_bytes)). Those of the stream
    /// aren't among them.
    pub max_decoding_bytes: Option<u64>,
    /// How many times the scans may go over the picture, or 0 for any number
    /// ([`set_max_passes`](crate::Decoder::set_max_passes)).
    pub max_passes: u64,
}

impl FedSettings {
    fn options(&self, layout: u8) -> Result<Options> {
        if self.crop == Some(Area::default()) {
            return Err(Error::Format("an area without pixels".into()));
        }
        let mut options = Options::default();
        options.layout = layout;
        options.scale = match self.scale {
            None | Some(Scale::Full) => 0,
            Some(scale) => scale as u8,
        };
        options.bottom_up = self.bottom_up.into();
        options.upright = self.upright.into();
        options.luma = self.luma.into();
        options.crop = self.crop.unwrap_or_default();
        (options.most_width, options.most_height) = self.within;
        options.max_passes = self.max_passes;
        Ok(options)
    }
}

/// A decoder of a stream that arrives in pieces, which shows at any time the picture of what has
/// arrived. However the stream was cut, [`show`](FedDecoder::show) returns what
/// [`Decoder::decode_partial`](crate::Decoder::decode_partial) does of all bytes that were fed.
///
/// ```
/// # let jpeg = &std::fs::read("image/tests/colour.jpg").unwrap()[..];
/// use zaxbriar::layout::Rgba;
/// use zaxbriar::{Error, FedDecoder, FedSettings};
///
/// let settings = FedSettings { upright: true, max_passes: 100, ..FedSettings::default() };
/// let mut decoder = FedDecoder::new_as(Rgba, &settings)?;
/// for piece in jpeg.chunks(100) {
///     decoder.feed(piece)?;
///     if let Some(info) = decoder.info()? {
///         let shown = decoder.show()?;
///         assert_eq!(shown.pixels.len(), usize::from(info.width) * usize::from(info.height) * 4);
///     }
/// }
/// assert!(decoder.show()?.fault.is_none());
/// # Ok::<(), Error>(())
/// ```
///
/// It keeps all bytes, and what whole scans among them have brought. Each whole scan is read once,
/// by the first `show` after it has arrived, and the scan in which the bytes end by each; and each
/// makes all pixels. So show a picture once the bytes have doubled, say, and not for each small
/// piece. With a scale each `show` reads all bytes.
pub struct FedDecoder<E = u8> {
    pieces: Pieces,
    max_bytes: u64,
    bytes_fed: u64,
    /// Whether the picture is as it is stored, at full size.
    is_plain: bool,
    elements: PhantomData<fn() -> E>,
}

impl FedDecoder {
    /// Returns a decoder of a stream of which there are no bytes yet. It shows the picture as
    /// [`Decoder::decode_partial`](crate::Decoder::decode_partial) returns it.
    pub fn new(settings: &FedSettings) -> Result<FedDecoder> {
        FedDecoder::of(AS_STORED, settings)
    }

    /// Returns what gives the rows of the picture one by one, from the top, as soon as their bytes
    /// are there. The header has to be there: until [`info`](FedDecoder::info) has returned it,
    /// this is an error, `UnexpectedEof`. A scale, and settings that arrange samples, are an
    /// [`Error::Format`].
    pub fn into_rows(mut self) -> Result<FedRows> {
        self.describe().map_err(Error::refused)?;
        if !self.is_plain {
            let text = "rows are given as they are stored, of the whole picture, at full size";
            return Err(Error::Format(text.into()));
        }
        FedRows::new(self.pieces)
    }

    /// Returns the same that shows the picture in a layout, as
    /// [`Decoder::decode_partial_as`](crate::Decoder::decode_partial_as) returns it.
    pub fn new_as<L: Layout>(layout: L, settings: &FedSettings) -> Result<FedDecoder<L::Element>> {
        FedDecoder::of(layout.number(), settings)
    }
}

impl<E: Number> FedDecoder<E> {
    fn of(layout: u8, settings: &FedSettings) -> Result<FedDecoder<E>> {
        let options = settings.options(layout)?;
        Ok(FedDecoder {
            pieces: Pieces::new(&options).map_err(Error::refused)?,
            max_bytes: settings.max_decoding_bytes.unwrap_or(u64::MAX),
            bytes_fed: 0,
            is_plain: options.is_plain() && options.scale == 0,
            elements: PhantomData,
        })
    }

    /// Copies the next bytes, and reads nothing of them. After an error, which is one of kind
    /// [`OutOfMemory`](std::io::ErrorKind::OutOfMemory), none of them were taken.
    pub fn feed(&mut self, bytes: &[u8]) -> Result<()> {
        self.pieces.feed(bytes).map_err(Error::refused)?;
        self.bytes_fed += bytes.len() as u64;
        Ok(())
    }

    /// Returns how many bytes were fed.
    pub fn bytes_fed(&self) -> u64 {
        self.bytes_fed
    }

    /// Describes the picture, unless it is above the limit.
    fn describe(&mut self) -> std::result::Result<Picture, Refusal> {
        let picture = self.pieces.info()?;
        if picture.bytes() > self.max_bytes {
            return Err(Refusal::TooLarge(picture.bytes()));
        }
        Ok(picture)
    }

    /// Returns what the header says of the picture, or none while the bytes end before that does.
    pub fn info(&mut self) -> Result<Option<ImageInfo>> {
        match self.describe() {
            Ok(picture) => Ok(Some(ImageInfo::of(&picture))),
            Err(Refusal::Truncated) => Ok(None),
            Err(refusal) => Err(Error::refused(refusal)),
        }
    }

    /// Returns the picture that the bytes have brought, and their fault: that they end too soon,
    /// [`UnexpectedEof`](std::io::ErrorKind::UnexpectedEof), while the image isn't there. Any
    /// other, or none, is final: bytes that follow change nothing.
    ///
    /// Without a header, too, the result is an error, which is `UnexpectedEof` while one may come.
    /// More bytes can be fed after it all the same.
    pub fn show(&mut self) -> Result<PartialPicture<E>> {
        let picture = self.describe().map_err(Error::refused)?;
        let mut pixels = library::zeros(picture.size).map_err(Error::refused)?;
        let answer = self.pieces.show(library::bytes_of(&mut pixels));
        let part = answer.outcome.map_err(Error::refused)?;
        Ok(PartialPicture {
            pixels,
            // No picture has more rows than 65,535.
            whole_rows: part.whole_rows as u16,
            fault: part.fault.map(Error::refused),
        })
    }
}
