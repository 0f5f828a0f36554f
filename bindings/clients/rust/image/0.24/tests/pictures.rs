//! The tests of the decoder for `image` 0.25, of the one for 0.24.

#[path = "../../tests/pictures.rs"]
mod pictures;
