use crate::error::{Error, Result};
use crate::info::ImageInfo;
use crate::library::{self, Lines, Options, Picture, Refusal};
use crate::stream::Failure;

/// The rows of a picture, one by one and from the top, as [`Decoder::rows`](crate::Decoder::rows)
/// returns them.
///
/// Only at its end is a stream known to have no fault. An error after some rows is that of the
/// stream's first fault, which [`rows_given`](Rows::rows_given) rows precede: a program that must
/// not show a part of a damaged picture keeps them back until there are no more.
///
/// As an iterator it returns a vector for each row, and nothing after an error.
/// [`next_row`](Rows::next_row) writes rows to a slice instead.
///
/// ```
/// # let jpeg = &std::fs::read("tests/grey.jpg").unwrap()[..];
/// use zaxbriar::Decoder;
///
/// let mut decoder = Decoder::new(jpeg);
/// let mut rows = decoder.rows()?;
/// let mut row = vec![0; rows.row_bytes()];
/// while rows.next_row(&mut row)? {
///     assert_eq!(row, [0x81; 8]);
/// }
/// assert_eq!(rows.rows_given(), 8);
/// # Ok::<(), zaxbriar::Error>(())
/// ```
pub struct Rows<'a> {
    /// None after the last row, and after an error.
    lines: Option<Lines<'a>>,
    info: ImageInfo,
    row_bytes: usize,
    given: u16,
    has_failed: bool,
    /// Why the reader gave no more bytes, if it didn't.
    failure: Option<Failure>,
}

impl<'a> Rows<'a> {
    /// Returns the rows of the picture that options describe so.
    pub(crate) fn new(
        jpeg: &'a [u8],
        options: &Options,
        picture: &Picture,
        failure: Option<Failure>,
    ) -> Result<Rows<'a>> {
        match Lines::new(jpeg, options) {
            Ok(lines) => Ok(Rows {
                lines: Some(lines),
                info: ImageInfo::of(picture),
                row_bytes: picture.row_bytes as usize,
                given: 0,
                has_failed: false,
                failure,
            }),
            Err(refusal) => Err(Error::of(refusal, failure)),
        }
    }

    /// Returns what the header says of the picture.
    pub fn info(&self) -> ImageInfo {
        self.info
    }

    /// Returns how many bytes a row has.
    pub fn row_bytes(&self) -> usize {
        self.row_bytes
    }

    /// Returns how many rows were given.
    pub fn rows_given(&self) -> u16 {
        self.given
    }

    /// Writes the next row to the first [`row_bytes`](Rows::row_bytes) bytes of `row`, and returns
    /// true; or returns false after the last one, where the stream has no fault. After an error a
    /// further call is [`Error::Internal`].
    ///
    /// # Panics
    ///
    /// If `row` is shorter.
    pub fn next_row(&mut self, row: &mut [u8]) -> Result<bool> {
        if self.has_failed {
            return Err(Error::Internal("decoder has failed".into()));
        }
        let row = &mut row[..self.row_bytes];
        let outcome = self
            .lines
            .as_mut()
            .map_or(Ok(false), |lines| lines.next(row));
        match outcome {
            // (no picture has more rows than 65,535)
            Ok(true) => self.given += 1,
            Ok(false) => self.lines = None,
            Err(refusal) => return Err(self.fail(refusal)),
        }
        Ok(self.lines.is_some())
    }

    /// Lets the rest go, and returns the error for a refusal.
    fn fail(&mut self, refusal: Refusal) -> Error {
        self.lines = None;
        self.has_failed = true;
        Error::of(refusal, self.failure.take())
    }

    /// Returns the next row in a vector of its own, or none after the last one.
    fn take_row(&mut self) -> Result<Option<Vec<u8>>> {
        let mut row = library::zeros(self.row_bytes as u64).map_err(|it| self.fail(it))?;
        Ok(self.next_row(&mut row)?.then_some(row))
    }
}

impl Iterator for Rows<'_> {
    type Item = Result<Vec<u8>>;

    fn next(&mut self) -> Option<Result<Vec<u8>>> {
        if self.has_failed {
            return None;
        }
        self.take_row().transpose()
    }
}

impl std::iter::FusedIterator for Rows<'_> {}
