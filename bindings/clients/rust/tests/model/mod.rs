//! The formulas of the module `zaxbriar::layout`, over pictures as they are stored.

use zaxbriar::layout::*;
use zaxbriar::{Decoder, Error, PixelFormat};

/// What decoders are set to: a scale, say.
type Settings<'a> = &'a dyn Fn(&mut Decoder<&[u8]>);

/// A picture as it is stored: its samples, and what these are.
struct Stored {
    samples: Vec<u32>,
    components: usize,
    precision: u8,
    row: usize,
}

impl Stored {
    fn decode(jpeg: &[u8], settings: Settings<'_>) -> Result<Stored, Error> {
        let mut decoder = decoder_of(jpeg, settings);
        let bytes = decoder.decode()?;
        let info = decoder.info().unwrap();
        let precision = decoder.precision().unwrap();
        let samples = match precision {
            0..=8 => bytes.iter().map(|&byte| byte.into()).collect(),
            _ => bytes.chunks(2).map(of_two_bytes).collect(),
        };
        let components = match info.pixel_format {
            PixelFormat::L8 | PixelFormat::L16 => 1,
            PixelFormat::RGB24 => 3,
            PixelFormat::CMYK32 => 4,
        };
        Ok(Stored {
            samples,
            components,
            precision,
            row: info.width.into(),
        })
    }

    /// Returns the colour of each pixel, from 0 to `full`.
    fn colours(&self, full: u64) -> Vec<[u32; 3]> {
        let most = (1 << self.precision) - 1;
        let level = |&sample: &u32| full.min((u64::from(sample) * full + most / 2) / most);
        let colour = |pixel: &[u32]| {
            let levels: Vec<u64> = pixel.iter().map(level).collect();
            let light = |ink| ((full - ink) * (full - levels[3]) + full / 2) / full;
            let colour = match levels[..] {
                [grey] => [grey; 3],
                [red, green, blue] => [red, green, blue],
                [cyan, magenta, yellow, _] => [light(cyan), light(magenta), light(yellow)],
                _ => panic!("{} components", self.components),
            };
            colour.map(|level| level as u32)
        };
        self.samples.chunks(self.components).map(colour).collect()
    }

    /// Returns the grey of each pixel.
    fn greys(&self, full: u64) -> Vec<u32> {
        let grey = |[red, green, blue]: [u32; 3]| match self.components {
            1 => red,
            _ => {
                let sum = [(19595, red), (38470, green), (7471, blue)]
                    .iter()
                    .map(|&(factor, level)| factor * u64::from(level))
                    .sum::<u64>();
                ((sum + 32768) / 65536) as u32
            }
        };
        self.colours(full).into_iter().map(grey).collect()
    }

    /// Compares a picture in a layout with these elements: from the top, from the bottom, and in
    /// part.
    fn compare<L: Layout>(
        &self,
        (jpeg, settings): (&[u8], Settings<'_>),
        layout: L,
        elements: &[u32],
    ) {
        let numbers = |picture: Vec<L::Element>| picture.into_iter().map(Into::<u32>::into);
        let from_top = decoder_of(jpeg, settings).decode_as(layout).unwrap();
        assert!(numbers(from_top).eq(elements.iter().copied()), "{layout:?}");

        let mut decoder = decoder_of(jpeg, settings);
        decoder.set_bottom_up(true);
        let from_bottom: Vec<u32> = numbers(decoder.decode_as(layout).unwrap()).collect();
        let row = self.row * L::PIXEL_ELEMENTS;
        let turned = elements.chunks(row).rev();
        assert!(
            from_bottom.chunks(row).eq(turned),
            "{layout:?} from the bottom"
        );

        // (which has a fault where `decode` takes zeros for what is lacking)
        let partial = decoder_of(jpeg, settings)
            .decode_partial_as(layout)
            .unwrap();
        if partial.fault.is_none() {
            assert!(
                numbers(partial.pixels).eq(elements.iter().copied()),
                "{layout:?} in part"
            );
        }
    }
}

fn decoder_of<'a>(jpeg: &'a [u8], settings: Settings<'_>) -> Decoder<&'a [u8]> {
    let mut decoder = Decoder::new(jpeg);
    settings(&mut decoder);
    decoder
}

/// Returns the number of two bytes as a picture has them.
fn of_two_bytes(bytes: &[u8]) -> u32 {
    u16::from_le_bytes([bytes[0], bytes[1]]).into()
}

/// Compares the picture of a stream in each layout with the formulas over its picture as it is
/// stored, or returns why that is refused.
pub fn compare_layouts(jpeg: &[u8], settings: Settings<'_>) -> Result<(), Error> {
    let stored = Stored::decode(jpeg, settings)?;
    let at = (jpeg, settings);
    let colours = stored.colours(255);
    let of = |pixel: fn([u32; 3]) -> [u32; 4], count: usize| -> Vec<u32> {
        let pixels = colours.iter().map(|&colour| pixel(colour));
        pixels.flat_map(|it| it[..count].to_vec()).collect()
    };
    stored.compare(at, Grey, &stored.greys(255));
    stored.compare(at, Rgb, &of(|[r, g, b]| [r, g, b, 0], 3));
    stored.compare(at, Rgba, &of(|[r, g, b]| [r, g, b, 255], 4));
    stored.compare(at, Bgra, &of(|[r, g, b]| [b, g, r, 255], 4));
    stored.compare(at, Bgr, &of(|[r, g, b]| [b, g, r, 0], 3));
    stored.compare(at, Xrgb, &of(|[r, g, b]| [255, r, g, b], 4));
    stored.compare(at, Abgr, &of(|[r, g, b]| [255, b, g, r], 4));
    let packed = |[r, g, b]: [u32; 3]| [r / 8 * 2048 + g / 4 * 32 + b / 8, 0, 0, 0];
    stored.compare(at, Rgb565, &of(packed, 1));
    stored.compare(at, Grey16, &stored.greys(65535));
    stored.compare(at, Rgb16, &stored.colours(65535).concat());
    Ok(())
}
