//! A memory: bytes over a ground of zeros or of noise, so that even a large
//! one can be printed as a few words and made again from them.

use crate::chance::Chance;

/// Bytes at which arithmetic turns.
pub const TURNING: [u8; 8] = [0x00, 0x01, 0x0F, 0x10, 0x7F, 0x80, 0xFE, 0xFF];

/// What lies under the bytes. A seed always gives the same.
#[derive(Clone, Copy, Debug, PartialEq, Eq)]
enum Ground {
    Zeros,
    Noise(u64),
    /// Noise, but half of the eights of bytes, by chance, are turning ones.
    Turning(u64),
}

impl Ground {
    fn bytes(self, length: usize) -> Vec<u8> {
        let mut bytes = vec![0; length];
        match self {
            Ground::Zeros => {}
            Ground::Noise(seed) => Chance::new(seed).fill(&mut bytes),
            Ground::Turning(seed) => fill_turning(&mut Chance::new(seed), &mut bytes),
        }
        bytes
    }

    fn text(self) -> String {
        match self {
            Ground::Zeros => String::new(),
            Ground::Noise(seed) => format!("~{seed:x}"),
            Ground::Turning(seed) => format!("^{seed:x}"),
        }
    }

    /// The length and the ground that the head of an image's text tells of.
    fn parse(head: &str) -> Option<(usize, Ground)> {
        let seed = |digits| u64::from_str_radix(digits, 16).ok();
        let (length, ground) = if let Some((length, digits)) = head.split_once('~') {
            (length, Ground::Noise(seed(digits)?))
        } else if let Some((length, digits)) = head.split_once('^') {
            (length, Ground::Turning(seed(digits)?))
        } else {
            (head, Ground::Zeros)
        };
        Some((length.parse().ok()?, ground))
    }
}

fn fill_turning(chance: &mut Chance, bytes: &mut [u8]) {
    for eight in bytes.chunks_mut(8) {
        if chance.once_in(2) {
            eight.fill_with(|| chance.pick(&TURNING));
        } else {
            chance.fill(eight);
        }
    }
}

#[derive(Clone, Debug, PartialEq, Eq)]
pub struct Image {
    ground: Ground,
    pub bytes: Vec<u8>,
}

impl Image {
    fn over(ground: Ground, length: usize) -> Image {
        Image {
            ground,
            bytes: ground.bytes(length),
        }
    }

    pub fn zeros(length: usize) -> Image {
        Image::over(Ground::Zeros, length)
    }

    /// Noise that this seed always gives.
    pub fn noise(length: usize, seed: u64) -> Image {
        Image::over(Ground::Noise(seed), length)
    }

    /// Noise with many turning bytes, that this seed always gives.
    pub fn turning(length: usize, seed: u64) -> Image {
        Image::over(Ground::Turning(seed), length)
    }

    /// Exactly these bytes.
    pub fn of(bytes: &[u8]) -> Image {
        Image {
            ground: Ground::Zeros,
            bytes: bytes.to_vec(),
        }
    }

    pub fn len(&self) -> usize {
        self.bytes.len()
    }

    /// Puts bytes at a place, as far as they fit.
    pub fn put(&mut self, place: usize, bytes: &[u8]) {
        for (slot, &byte) in self.bytes.iter_mut().skip(place).zip(bytes) {
            *slot = byte;
        }
    }

    /// `LENGTH`, `~SEED` where the ground is noise, `^SEED` where it has turning
    /// bytes too, then `@PLACE:BYTES` for every stretch that differs from it.
    pub fn text(&self) -> String {
        let mut text = self.len().to_string() + &self.ground.text();
        let under = self.ground.bytes(self.len());
        let differs = |place: usize| self.bytes[place] != under[place];
        let mut place = 0;
        while place < self.len() {
            if !differs(place) {
                place += 1;
                continue;
            }
            let end = (place..self.len())
                .find(|&at| !differs(at))
                .unwrap_or(self.len());
            text += &format!("@{place:04X}:{}", hex(&self.bytes[place..end]));
            place = end;
        }
        text
    }

    /// The image that [`Image::text`] tells of.
    pub fn parse(text: &str) -> Option<Image> {
        let mut parts = text.split('@');
        let (length, ground) = Ground::parse(parts.next()?)?;
        let mut image = Image::over(ground, length);
        for part in parts {
            let (place, digits) = part.split_once(':')?;
            image.put(usize::from_str_radix(place, 16).ok()?, &unhex(digits)?);
        }
        Some(image)
    }
}

/// Bytes as hex digits, two each.
pub fn hex(bytes: &[u8]) -> String {
    bytes.iter().map(|byte| format!("{byte:02X}")).collect()
}

/// The bytes that hex digits tell of.
pub fn unhex(digits: &str) -> Option<Vec<u8>> {
    if digits.len() & 1 == 1 || !digits.is_ascii() {
        return None;
    }
    (0..digits.len() / 2)
        .map(|pair| u8::from_str_radix(&digits[2 * pair..2 * pair + 2], 16).ok())
        .collect()
}
