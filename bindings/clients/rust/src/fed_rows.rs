use crate::error::{Error, Result};
use crate::info::ImageInfo;
use crate::library::{Given, Pieces};

/// The rows of a picture, one by one and from the top, while its stream arrives, as
/// [`FedDecoder::into_rows`](crate::FedDecoder::into_rows) returns them. However the stream was
/// cut, they and their error are those of [`Rows`](crate::Rows) of all its bytes.
///
/// ```
/// # let mut connection = &std::fs::read("image/tests/colour.jpg").unwrap()[..];
/// use std::io::Read;
/// use zaxbriar::{Error, FedDecoder, FedSettings, Given};
///
/// let mut piece = [0; 100];
/// let mut decoder = FedDecoder::new(&FedSettings::default())?;
/// while decoder.info()?.is_none() {
///     match connection.read(&mut piece)? {
///         0 => return Err(Error::Format("no picture".into())),
///         count => decoder.feed(&piece[..count])?,
///     }
/// }
/// let mut rows = decoder.into_rows()?;
/// let mut row = vec![0; rows.row_bytes()];
/// loop {
///     match rows.next_row(&mut row)? {
///         Given::Row => assert_eq!(row.len(), 3 * usize::from(rows.info().width)),
///         Given::End => break,
///         Given::Waiting => match connection.read(&mut piece)? {
///             0 => rows.end(),
///             count => rows.feed(&piece[..count])?,
///         },
///     }
/// }
/// assert_eq!(rows.rows_given(), rows.info().height);
/// # Ok::<(), Error>(())
/// ```
///
/// Of most files each row of MCUs is decoded once, when its bytes are there, which are dropped
/// then. Files of several scans give all rows after the end of the bytes.
pub struct FedRows {
    pieces: Pieces,
    info: ImageInfo,
    row_bytes: usize,
    given: u16,
    has_ended: bool,
    has_failed: bool,
}

impl FedRows {
    /// Begins with the rows of what was fed, which has the header.
    pub(crate) fn new(mut pieces: Pieces) -> Result<FedRows> {
        let picture = pieces.begin_rows().map_err(Error::refused)?;
        Ok(FedRows {
            pieces,
            info: ImageInfo::of(&picture),
            row_bytes: picture.row_bytes as usize,
            given: 0,
            has_ended: false,
            has_failed: false,
        })
    }

    /// Returns what the header says of the picture.
    pub fn info(&self) -> ImageInfo {
        self.info
    }

    /// Returns how many bytes a row has.
    pub fn row_bytes(&self) -> usize {
        self.row_bytes
    }

    /// Returns how many rows were given.
    pub fn rows_given(&self) -> u16 {
        self.given
    }

    /// Copies the next bytes. After an error, which is one of kind
    /// [`OutOfMemory`](std::io::ErrorKind::OutOfMemory), none of them were taken. After
    /// [`end`](FedRows::end) it is [`Error::Internal`].
    pub fn feed(&mut self, bytes: &[u8]) -> Result<()> {
        if self.has_ended {
            return Err(Error::Internal("the bytes have ended".into()));
        }
        self.pieces.feed(bytes).map_err(Error::refused)
    }

    /// Says that no more bytes come.
    pub fn end(&mut self) {
        self.has_ended = true;
        self.pieces.end();
    }

    /// Writes the next row to the first [`row_bytes`](FedRows::row_bytes) bytes of `row`, if it is
    /// there. Before the end of the bytes the only error is one of kind
    /// [`OutOfMemory`](std::io::ErrorKind::OutOfMemory). After an error a further call is
    /// [`Error::Internal`].
    ///
    /// # Panics
    ///
    /// If `row` is shorter.
    pub fn next_row(&mut self, row: &mut [u8]) -> Result<Given> {
        if self.has_failed {
            return Err(Error::Internal("decoder has failed".into()));
        }
        match self.pieces.next_row(&mut row[..self.row_bytes]) {
            Ok(given) => {
                // (no picture has more rows than 65,535)
                self.given += u16::from(given == Given::Row);
                Ok(given)
            }
            Err(refusal) => {
                self.has_failed = true;
                Err(Error::refused(refusal))
            }
        }
    }
}
