//! A JPEG decoder that is proved correct, with the interface of the crate jpeg-decoder 0.3.2: the
//! names, types, traits and errors here are the original's, and the samples those of its feature
//! `platform_independent`.
//!
//! ```
//! # let path = "tests/grey.jpg";
//! use std::fs::File;
//! use std::io::BufReader;
//! use zaxbriar::Decoder;
//!
//! let mut decoder = Decoder::new(BufReader::new(File::open(path)?));
//! let pixels = decoder.decode()?;
//! let info = decoder.info().unwrap();
//! let row_bytes = usize::from(info.width) * info.pixel_format.pixel_bytes();
//! assert_eq!(pixels.len(), usize::from(info.height) * row_bytes);
//! # Ok::<(), Box<dyn std::error::Error>>(())
//! ```
//!
//! [`Decoder::decode_as`] returns any picture in one of the layouts of the module [`layout`], such
//! as RGBA or 16 bits a sample, and [`Decoder::rows`] its rows one by one. A [`FedDecoder`] shows
//! a picture while it arrives, or gives its rows.
//!
//! # What is proved
//!
//! Decoding is the C library's, `libzaxbriar`, whose calls are proved: whatever the bytes are they
//! return, read and write nothing but their arguments, and give the picture that the bytes mean by
//! ITU-T T.81. This crate is only tested. It reads a stream into memory, makes the calls, and names
//! their errors. Two parts of it aren't a matter of types:
//!
//! - one module of `unsafe` blocks, which hands slices to the library, keeps what gives rows and
//!   what takes pieces, takes zeroed memory, and writes 16-bit numbers as bytes;
//! - a loop that reads segment by segment up to the end of a header or an image, so that a lent
//!   reader stays right after them. How many bytes a segment needs is the library's to say, which
//!   is proved, too. Pictures and errors don't rest on the loop: where it has read too little, all
//!   is read, and the library is asked again.
//!
//! # What differs from jpeg-decoder
//!
//! The README has the whole table. In short: with its default features on x86-64 jpeg-decoder has
//! other samples, by up to 3 in some 2 to 4 percent of them; texts of [`Error::Format`] are others;
//! limits are compared before the picture is decoded; running out of memory is an [`Error::Io`]
//! and doesn't abort; and a decoder that has failed, or has returned its picture, decodes no more.
//!
//! # With the crate `image`
//!
//! The crate `zaxbriar-image` beside this one has a decoder for `image`, 0.25 or 0.24.

#![deny(unsafe_code)]
#![warn(missing_docs)]

mod color;
mod decoder;
mod error;
mod fed;
mod fed_rows;
mod info;
pub mod layout;
mod library;
mod rows;
mod stream;

pub use color::ColorTransform;
pub use decoder::{Decoder, PartialPicture};
pub use error::{Error, UnsupportedFeature};
pub use fed::{FedDecoder, FedSettings};
pub use fed_rows::FedRows;
pub use info::{Area, CodingProcess, Density, ImageInfo, PixelFormat, Scale};
pub use library::Given;
pub use rows::Rows;
