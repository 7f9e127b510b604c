//! A run of an ensemble as docs/RUN.md has it, section "Ensembles": making one, then calls; as values, as numbers and bytes, and read back from
//! these.
use crate::reading::Reader;
use crate::run::{self, Numbers, Settings, Transport, bytes_of};

/// The greatest length of a buffer.
pub const LENGTH: u64 = 65_600;

#[derive(Clone, Copy, Debug, PartialEq)]
pub struct Block {
    pub transport: Transport,
    pub frames: u64,
    pub x_len: u64,
    pub y_len: u64,
}

#[derive(Clone, Debug, PartialEq)]
pub enum Call {
    Settings {
        settings: Settings,
        shared: u64,
    },
    /// A shape, a path or a bus, as a player has it.
    Edit(run::Call),
    Phase {
        voice: u64,
        transport: Transport,
    },
    Block(Block),
    /// A restart asked for.
    Trigger {
        voice: u64,
        frame: u64,
    },
}

impl Call {
    pub fn tag(&self) -> usize {
        match self {
            Self::Settings { .. } => 0,
            Self::Edit(edit) => edit.tag(),
            Self::Phase { .. } => 4,
            Self::Block(_) => 5,
            Self::Trigger { .. } => 9,
        }
    }
}

/// What an ensemble is made of.
#[derive(Clone, Copy, Debug, PartialEq)]
pub struct Make {
    pub settings: Settings,
    pub shared: u64,
    pub count: u64,
    pub seed: u64,
}

#[derive(Clone, Debug, PartialEq)]
pub struct Run {
    pub make: Make,
    pub calls: Vec<Call>,
}

// ---- as numbers and bytes

fn put_call(n: &mut Numbers, call: &Call) {
    if let Call::Edit(edit) = call {
        n.call(edit);
        return;
    }
    n.put(call.tag() as u64);
    match call {
        Call::Settings { settings, shared } => {
            n.settings(settings);
            n.put(*shared);
        }
        Call::Edit(_) => {}
        Call::Phase { voice, transport } => {
            n.put(*voice);
            n.transport(transport);
        }
        Call::Block(b) => {
            n.transport(&b.transport);
            n.all([b.frames, b.x_len, b.y_len]);
        }
        Call::Trigger { voice, frame } => n.all([*voice, *frame]),
    }
}

impl Run {
    /// One number a field.
    pub fn numbers(&self) -> Vec<u64> {
        let (mut n, make) = (Numbers::default(), &self.make);
        n.settings(&make.settings);
        n.all([make.shared, make.count, make.seed]);
        for call in &self.calls {
            put_call(&mut n, call);
        }
        n.0
    }

    pub fn bytes(&self) -> Vec<u8> {
        bytes_of(&self.numbers())
    }
}

// ---- read back

pub fn read_make(r: &mut Reader) -> Option<Make> {
    Some(Make {
        settings: r.settings()?,
        shared: r.number()?,
        count: r.number()?,
        seed: r.number()?,
    })
}

fn read_block(r: &mut Reader) -> Option<Block> {
    Some(Block {
        transport: r.transport()?,
        frames: r.number()?,
        x_len: r.at_most(LENGTH)?,
        y_len: r.at_most(LENGTH)?,
    })
}

pub fn read_call(r: &mut Reader) -> Option<Call> {
    Some(match r.number()? {
        0 => Call::Settings {
            settings: r.settings()?,
            shared: r.number()?,
        },
        tag @ 1..=3 => Call::Edit(r.tagged(tag)?),
        4 => Call::Phase {
            voice: r.number()?,
            transport: r.transport()?,
        },
        5 => Call::Block(read_block(r)?),
        9 => Call::Trigger {
            voice: r.number()?,
            frame: r.number()?,
        },
        _ => return None,
    })
}

/// The run that bytes are, unless they are malformed.
pub fn read(bytes: &[u8]) -> Option<Run> {
    let mut reader = Reader::new(bytes);
    let make = read_make(&mut reader)?;
    let mut calls = vec![];
    while !reader.at_end() {
        calls.push(read_call(&mut reader)?);
    }
    Some(Run { make, calls })
}
