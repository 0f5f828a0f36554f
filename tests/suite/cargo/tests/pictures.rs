//! Pictures as programs write them.

/// A picture: samples of one kind after the other, up to `most`.
#[derive(Clone)]
pub struct Picture {
    pub width: usize,
    pub height: usize,
    pub depth: usize,
    pub most: usize,
    pub samples: Vec<i32>,
}

/// Reads PAM, PGM, PPM, or WIDTH HEIGHT FORMAT and the pixels. None where it is not whole.
pub fn read(data: &[u8]) -> Option<Picture> {
    let is_pam = data.starts_with(b"P7\n");
    let (picture, start, is_high_first) = if is_pam {
        (pam(data)?, find(data, b"ENDHDR\n")?, true)
    } else if data.starts_with(b"P5") || data.starts_with(b"P6") {
        let (words, start) = words(data, 4)?;
        let number = |at: usize| words[at].parse().ok();
        let depth = if words[0] == "P5" { 1 } else { 3 };
        (new(number(1)?, number(2)?, depth, number(3)?), start, true)
    } else {
        let (words, start) = words(data, 3)?;
        let depth = match words[2].as_str() {
            "L8" | "L16" => 1,
            "RGB24" => 3,
            "CMYK32" => 4,
            _ => return None,
        };
        let (width, height) = (words[0].parse().ok()?, words[1].parse().ok()?);
        let is_deep = data.len() - start >= 2 * width * height * depth;
        (
            new(width, height, depth, if is_deep { 65535 } else { 255 }),
            start,
            false,
        )
    };
    filled(picture, &data[start..], is_high_first)
}

fn new(width: usize, height: usize, depth: usize, most: usize) -> Picture {
    Picture {
        width,
        height,
        depth,
        most,
        samples: Vec::new(),
    }
}

/// Where the bytes after a text begin.
fn find(data: &[u8], text: &[u8]) -> Option<usize> {
    let at = data.windows(text.len()).position(|window| window == text)?;
    Some(at + text.len())
}

fn pam(data: &[u8]) -> Option<Picture> {
    let head = std::str::from_utf8(&data[..find(data, b"ENDHDR\n")?]).ok()?;
    let field = |name: &str| -> Option<usize> {
        head.lines()
            .find_map(|line| line.strip_prefix(name))
            .and_then(|rest| rest.trim().parse().ok())
    };
    Some(new(
        field("WIDTH")?,
        field("HEIGHT")?,
        field("DEPTH")?,
        field("MAXVAL")?,
    ))
}

/// The first words of a head, each with one byte after it, and where the bytes after them begin.
fn words(data: &[u8], count: usize) -> Option<(Vec<String>, usize)> {
    let (mut found, mut start) = (Vec::new(), 0);
    while found.len() < count {
        let length = data[start..].iter().position(u8::is_ascii_whitespace)?;
        let word = std::str::from_utf8(&data[start..start + length]).ok()?;
        if !word.is_empty() {
            found.push(word.to_string());
        }
        start += length + 1;
    }
    Some((found, start))
}

fn filled(mut picture: Picture, data: &[u8], is_high_first: bool) -> Option<Picture> {
    let count = picture.width * picture.height * picture.depth;
    let size = if picture.most > 255 { 2 } else { 1 };
    if count == 0 || data.len() < size * count {
        return None;
    }
    let value = |pair: &[u8]| match (pair.len(), is_high_first) {
        (1, _) => i32::from(pair[0]),
        (_, true) => i32::from(u16::from_be_bytes([pair[0], pair[1]])),
        (_, false) => i32::from(u16::from_le_bytes([pair[0], pair[1]])),
    };
    picture.samples = data[..size * count].chunks(size).map(value).collect();
    Some(picture)
}

impl Picture {
    /// A grey picture as red, green and blue, or the other way where nothing is lost.
    pub fn with_depth(&self, depth: usize) -> Option<Picture> {
        let mut found = Picture {
            depth,
            ..self.clone()
        };
        match (self.depth, depth) {
            (a, b) if a == b => {}
            (1, 3) => found.samples = self.samples.iter().flat_map(|it| [*it; 3]).collect(),
            (3, 1)
                if self
                    .samples
                    .chunks(3)
                    .all(|it| it[0] == it[1] && it[1] == it[2]) =>
            {
                found.samples = self.samples.iter().copied().step_by(3).collect();
            }
            _ => return None,
        }
        Some(found)
    }

    /// What cyan, magenta, yellow and black are in red, green and blue, and `more`.
    pub fn as_inks(&self, more: i32) -> Picture {
        let pixel = |it: &[i32]| [0, 1, 2].map(|at| (255 - it[at]) * (255 - it[3]) / 255 + more);
        let samples = self.samples.chunks(4).flat_map(pixel).collect();
        Picture {
            depth: 3,
            samples,
            ..self.clone()
        }
    }

    pub fn has_size_of(&self, other: &Picture) -> bool {
        (self.width, self.height) == (other.width, other.height)
    }
}
