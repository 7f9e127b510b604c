//! A sitting and its sheet (document 02, W-207), written from 02's words alone: an item's record, then events. The item is read by items.rs, the questions are those of
//! questions.rs, and the player is that of the Rust source (player.rs).
use crate::items::{self, Item, Read, front_number};
use crate::lfo::Transport;
use crate::player::{Player, transport_of};
use crate::questions::{self, item_transport};
use crate::run::{self, Block, Call, Present, bytes_of, transport_bits};
use crate::sitting_figures::Figures;
use crate::tally::bits32;
use std::fmt::Write;

/// The first line of the sheet of every accepted item.
const HEADER: &str = "frame x y\n";
/// The values of each buffer that a block is played into.
const ROOM: u64 = 4096;
/// The number of an event that is none of the four, of one that is not there, and of bytes after the end.
pub const UNKNOWN: u64 = 17;
pub const MISSING: u64 = 18;
pub const LEFT: u64 = 14;

#[derive(Clone, Copy, Debug, PartialEq)]
pub enum Event {
    /// Plays a block of so many frames.
    Block(u64),
    /// Asks for a restart at this frame of the next block.
    Restart(u64),
    Bus {
        bus: u64,
        value: u32,
    },
    End,
}

impl Event {
    /// Its own number, then its fields.
    pub fn numbers(self) -> Vec<u64> {
        match self {
            Self::Block(frames) => vec![0, frames],
            Self::Restart(frame) => vec![1, frame],
            Self::Bus { bus, value } => vec![2, bus, value.into()],
            Self::End => vec![3],
        }
    }

    pub fn bytes(self) -> Vec<u8> {
        bytes_of(&self.numbers())
    }
}

/// How many bits each number of an event may have, its own first.
pub const BITS: [u32; 3] = [64, 64, 32];

// ---- reading

/// The events behind an item.
pub struct Events<'a> {
    bytes: &'a [u8],
}

impl<'a> Events<'a> {
    pub fn new(bytes: &'a [u8]) -> Self {
        Self { bytes }
    }

    pub fn left(&self) -> usize {
        self.bytes.len()
    }

    fn number(&mut self, bits: u32) -> Result<u64, u64> {
        let (n, size) = front_number(self.bytes, bits).map_err(items::Cause::number)?;
        self.bytes = &self.bytes[size..];
        Ok(n)
    }

    /// The next event, or the number of what is wrong with it.
    pub fn next(&mut self) -> Result<Event, u64> {
        if self.bytes.is_empty() {
            return Err(MISSING);
        }
        Ok(match self.number(64)? {
            0 => Event::Block(self.number(64)?),
            1 => Event::Restart(self.number(64)?),
            2 => Event::Bus {
                bus: self.number(64)?,
                value: self.number(32)? as u32,
            },
            3 if self.bytes.is_empty() => Event::End,
            3 => return Err(LEFT),
            _ => return Err(UNKNOWN),
        })
    }
}

// ---- playing

/// How a sitting ends.
#[derive(Clone, Copy, Debug, PartialEq)]
pub enum Ending {
    /// The item is refused with this number.
    Refused(u64),
    /// The event of this index fails with this number.
    Failed(u64, u64),
    Ended,
}

/// What is printed.
pub struct Sheet {
    pub text: String,
    pub ending: Ending,
    /// Whether `max` was put the zeros −0 and 0.
    pub zeros: bool,
}

struct Playing<'a> {
    player: Player,
    transport: Transport,
    /// The frame of the restart that waits for the next block.
    waiting: Present<u64>,
    frames: u64,
    sheet: Sheet,
    x: Vec<f32>,
    y: Vec<f32>,
    figures: &'a mut Figures,
}

// The item's player: made, then shape, path and buses set by calls.
fn player_of(item: &Item) -> Player {
    let mut player = Player::new(&item.settings, item.seed, 0.0);
    player.page.set_shape(&item.shape);
    player.page.set_path(&item.path);
    for (bus, value) in (0..).zip(item.buses) {
        player.set_bus(bus, value);
    }
    player
}

// It plays from beat 0 and second 0.
fn transport_at_start(item: &Item) -> Transport {
    transport_of(&run::Transport {
        playing: 1,
        ..item_transport(item)
    })
}

impl<'a> Playing<'a> {
    fn new(item: &Item, figures: &'a mut Figures) -> Self {
        Self {
            player: player_of(item),
            transport: transport_at_start(item),
            waiting: Present::No,
            frames: 0,
            sheet: Sheet {
                text: HEADER.to_string(),
                ending: Ending::Ended,
                zeros: false,
            },
            x: vec![0.0; ROOM as usize],
            y: vec![0.0; ROOM as usize],
            figures,
        }
    }

    // The number of the first question that a call fails, else 0.
    fn answer(&self, call: Call) -> u64 {
        questions::answer(&call, self.frames)
    }

    fn bus(&mut self, bus: u64, value: u32) -> u64 {
        let answer = self.answer(Call::Bus { bus, value });
        if answer == 0 {
            self.player.set_bus(bus, value);
        }
        answer
    }

    fn block(&mut self, frames: u64) -> u64 {
        let block = Block {
            transport: transport_bits(&self.transport),
            frames,
            restart: self.waiting,
            x_len: ROOM,
            y_len: ROOM,
        };
        let answer = self.answer(Call::Block(block));
        if answer == 0 {
            let (_, heard) = self.player.block(&block, &mut self.x, &mut self.y);
            let settings = &self.player.page.lfo.settings;
            self.figures.block(&block, settings, &heard);
            self.sheet.zeros |= heard.zeros;
            self.waiting = Present::No;
            self.transport.advance(frames as usize);
            self.lines(frames as usize);
        }
        answer
    }

    fn lines(&mut self, frames: usize) {
        for (x, y) in self.x.iter().zip(&self.y).take(frames) {
            let (i, x, y) = (self.frames, bits32(*x), bits32(*y));
            writeln!(self.sheet.text, "{i} {x:08x} {y:08x}").expect("a line");
            self.figures.line(x, y);
            self.frames += 1;
        }
    }

    // The number with which an event fails, else 0.
    fn event(&mut self, event: Event) -> u64 {
        self.figures.event(event, self.waiting);
        match event {
            Event::Block(frames) => return self.block(frames),
            Event::Restart(frame) => self.waiting = Present::Yes(frame),
            Event::Bus { bus, value } => return self.bus(bus, value),
            Event::End => {}
        }
        0
    }

    // The events up to the end, or the index and the number of the one that fails.
    fn events(&mut self, mut events: Events) -> Ending {
        for index in 0.. {
            let event = events.next();
            let number = match event {
                Ok(event) => self.event(event),
                Err(number) => number,
            };
            if number > 0 {
                return Ending::Failed(index, number);
            }
            if event == Ok(Event::End) {
                break;
            }
        }
        Ending::Ended
    }
}

/// The sheet of a sitting.
pub fn sheet(bytes: &[u8], figures: &mut Figures) -> Sheet {
    let (read, end) = items::read_front(bytes);
    figures.item(&read);
    let Read::Item(item) = read else {
        let number = read.answer();
        return Sheet {
            text: format!("{number}\n"),
            ending: Ending::Refused(number),
            zeros: false,
        };
    };
    let mut playing = Playing::new(&item, figures);
    let ending = playing.events(Events::new(&bytes[end..]));
    let mut sheet = playing.sheet;
    if let Ending::Failed(index, number) = ending {
        writeln!(sheet.text, "{index} {number}").expect("a line");
    }
    playing.figures.ended(ending, &playing.player.page);
    Sheet { ending, ..sheet }
}
