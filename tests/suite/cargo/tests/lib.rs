//! The conformance suite as tests: see `tests/suite.rs`.
