//! The decoder that is tested: a command, unless this is changed.
use crate::pictures::{self, Picture};
use std::path::Path;
use std::process::Command;

/// Returns the picture of a file, or None for a refusal. `settings` are words of the command.
pub fn decode(path: &Path, settings: &str) -> Option<Picture> {
    let command = std::env::var("SUITE_COMMAND");
    let command = command.unwrap_or_else(|_| "djpeg {settings} -pnm {in}".into());
    let command = command.replace("{settings}", settings);
    let mut words = command
        .split_whitespace()
        .map(|word| word.replace("{in}", &path.to_string_lossy()));
    let output = Command::new(words.next()?)
        .args(words)
        .output()
        .expect("SUITE_COMMAND has a program");
    pictures::read(&output.stdout)
}
