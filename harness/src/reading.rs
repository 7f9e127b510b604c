//! Reads the calls of a run from its bytes, by docs/RUN.md alone, and an item that is handed to the writer. Nothing comes of bytes that are malformed.
use crate::items::{BUSES, Item};
use crate::run::{
    Block, Call, Mod, Path, PathPoint, Point, Present, Rate, Scale, Settings, Shape, Span,
    Transport,
};

/// The most points that a list may count.
const COUNT: u64 = 4096;
/// The greatest length of a buffer.
const LENGTH: u64 = 8192;

pub struct Reader<'a> {
    bytes: &'a [u8],
}

impl<'a> Reader<'a> {
    pub fn new(bytes: &'a [u8]) -> Self {
        Self { bytes }
    }

    pub fn at_end(&self) -> bool {
        self.bytes.is_empty()
    }

    pub fn number(&mut self) -> Option<u64> {
        let size = 1 + self.bytes.iter().position(|b| *b < 128)?;
        let (number, rest) = self.bytes.split_at(size);
        // 64 bits fill ten groups; the last group of a shortest form is not 0, but for the number 0
        if size > 10 || (size > 1 && number[size - 1] == 0) {
            return None;
        }
        let mut value = 0u128;
        for (i, b) in number.iter().enumerate() {
            value += u128::from(b & 127) << (7 * i);
        }
        self.bytes = rest;
        u64::try_from(value).ok()
    }

    fn float(&mut self) -> Option<u32> {
        u32::try_from(self.number()?).ok()
    }

    pub fn at_most(&mut self, limit: u64) -> Option<u64> {
        self.number().filter(|n| *n <= limit)
    }

    fn present<T>(&mut self, read: impl FnOnce(&mut Self) -> Option<T>) -> Option<Present<T>> {
        Some(match self.number()? {
            0 => Present::No,
            1 => Present::Yes(read(self)?),
            code => Present::Unknown(code),
        })
    }

    fn rate(&mut self) -> Option<Rate> {
        Some(match self.number()? {
            0 => Rate::Synced {
                division: self.number()?,
                feel: self.number()?,
            },
            1 => Rate::Hz {
                hz: self.float()?,
                x10: self.number()?,
            },
            code => Rate::Unknown(code),
        })
    }

    fn span(&mut self) -> Option<Span> {
        Some(match self.number()? {
            0 => Span::Off,
            1 => Span::Synced(self.number()?),
            2 => Span::Seconds(self.float()?),
            code => Span::Unknown(code),
        })
    }

    pub fn settings(&mut self) -> Option<Settings> {
        Some(Settings {
            kind: self.number()?,
            mode: self.number()?,
            direction: self.number()?,
            rate: self.rate()?,
            song_lock: self.number()?,
            swing: self.number()?,
            fade_in: self.span()?,
            delay: self.span()?,
            smooth: self.present(Self::float)?,
            phase: self.float()?,
            phase_snap: self.number()?,
            grid_x: u16::try_from(self.number()?).ok()?,
        })
    }

    /// Settings and seed.
    pub fn make(&mut self) -> Option<(Settings, u64)> {
        Some((self.settings()?, self.number()?))
    }

    fn modulation(&mut self) -> Option<Present<Mod>> {
        self.present(|r| {
            Some(Mod {
                bus: u8::try_from(r.number()?).ok()?,
                depth: r.float()?,
            })
        })
    }

    fn list<T>(
        &mut self,
        count: u64,
        mut read: impl FnMut(&mut Self) -> Option<T>,
    ) -> Option<Vec<T>> {
        (0..count).map(|_| read(self)).collect()
    }

    fn point(&mut self) -> Option<Point> {
        Some(Point {
            x: self.float()?,
            y: self.float()?,
            curve: self.float()?,
            step: self.number()?,
            mods: [self.modulation()?, self.modulation()?],
        })
    }

    fn shape(&mut self) -> Option<Shape> {
        let count = self.at_most(COUNT)?;
        Some(Shape {
            points: self.list(count, Self::point)?,
            loopback: self.present(Self::number)?,
        })
    }

    fn path_point(&mut self) -> Option<PathPoint> {
        Some(PathPoint {
            x: self.float()?,
            y: self.float()?,
            bend: self.float()?,
            mods: [self.modulation()?, self.modulation()?],
        })
    }

    fn path(&mut self) -> Option<Path> {
        let count = self.at_most(COUNT)?;
        Some(Path {
            closed: self.number()?,
            points: self.list(count, Self::path_point)?,
        })
    }

    pub fn transport(&mut self) -> Option<Transport> {
        Some(Transport {
            sample_rate: self.number()?,
            tempo: self.number()?,
            beats_per_bar: self.number()?,
            playing: self.number()?,
            beats: self.number()?,
            seconds: self.number()?,
            swing: self.float()?,
            scale: self.scale()?,
        })
    }

    fn scale(&mut self) -> Option<Scale> {
        Some(match self.number()? {
            0 => Scale::Percent(self.float()?),
            1 => Scale::Rate(self.float()?),
            code => Scale::Unknown(code),
        })
    }

    fn item(&mut self) -> Option<Item> {
        let (settings, shape, path) = (self.settings()?, self.shape()?, self.path()?);
        let mut buses = [0; BUSES];
        for bus in &mut buses {
            *bus = self.float()?;
        }
        Some(Item {
            settings,
            shape,
            path,
            buses,
            seed: self.number()?,
            tempo: self.number()?,
            beats_per_bar: self.number()?,
            swing: self.float()?,
            scale: self.scale()?,
        })
    }

    fn block(&mut self) -> Option<Block> {
        Some(Block {
            transport: self.transport()?,
            frames: self.number()?,
            restart: self.present(Self::number)?,
            x_len: self.at_most(LENGTH)?,
            y_len: self.at_most(LENGTH)?,
        })
    }

    pub fn call(&mut self) -> Option<Call> {
        let tag = self.number()?;
        self.tagged(tag)
    }

    /// The call behind its tag.
    pub fn tagged(&mut self, tag: u64) -> Option<Call> {
        Some(match tag {
            0 => Call::Settings(self.settings()?),
            1 => Call::Shape(self.shape()?),
            2 => Call::Path(self.path()?),
            3 => Call::Bus {
                bus: self.number()?,
                value: self.float()?,
            },
            4 => Call::Phase(self.transport()?),
            5 => Call::Block(self.block()?),
            6 => Call::ShapeAt {
                shape: self.shape()?,
                x: self.float()?,
            },
            7 => Call::PathAt {
                path: self.path()?,
                t: self.float()?,
            },
            8 => Call::Legs(self.path()?),
            _ => return None,
        })
    }
}

/// The item that bytes hand to the writer.
pub fn handed(bytes: &[u8]) -> Option<Item> {
    let mut reader = Reader::new(bytes);
    let item = reader.item()?;
    reader.at_end().then_some(item)
}
