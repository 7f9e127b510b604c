//! What `lfo_ensemble_run` is to give: the bytes of a run read by RUN.md (ensemble_run.rs), the questions (ensemble_questions.rs) and the ensemble
//! by the Rust source (ensemble_player.rs).
use crate::ensemble_figures::Figures;
use crate::ensemble_player::Ensemble;
use crate::ensemble_questions::{MAKING, failed, make_failed};
use crate::ensemble_run::{Block, Call, Make, read_call, read_make};
use crate::figures::Ending;
use crate::reading::Reader;
use crate::reference::{Entry, MALFORMED, Played, finished};
use crate::run::{self, put_number};
use crate::tally::bits32;

struct Playing<'a> {
    ensemble: Ensemble,
    count: u64,
    frames: u64,
    played: Played,
    figures: &'a mut Figures,
}

impl Playing<'_> {
    fn put(&mut self, n: u64) {
        put_number(&mut self.played.out, n);
    }

    fn float(&mut self, x: f32) {
        self.put(bits32(x));
    }

    /// Makes a call; `smooth` is the setting that gave its coefficient, 0 where that is not known.
    fn call(&mut self, call: &Call, smooth: f32) {
        let failed = failed(call, self.count, self.frames);
        let answer = failed.first().copied().unwrap_or(0);
        self.figures.call(call, &failed, &self.ensemble);
        self.put(answer);
        match call {
            Call::Block(b) => self.block(b, answer),
            _ if answer == 0 => self.accepted(call, smooth),
            _ => {}
        }
        let x_len = match call {
            Call::Block(b) => b.x_len,
            _ => 0,
        };
        self.played.entries.push(Entry {
            tag: call.tag(),
            answer,
            end: self.played.out.len(),
            x_len,
        });
    }

    fn accepted(&mut self, call: &Call, smooth: f32) {
        let e = &mut self.ensemble;
        match call {
            Call::Settings { settings, shared } => e.set_settings(settings, *shared == 1, smooth),
            Call::Edit(run::Call::Shape(s)) => e.page.set_shape(s),
            Call::Edit(run::Call::Path(p)) => e.page.set_path(p),
            Call::Edit(run::Call::Bus { bus, value }) => e.set_bus(*bus, *value),
            Call::Edit(_) | Call::Block(_) => {}
            Call::Phase { voice, transport } => {
                let phase = e.phase(*voice, transport);
                self.float(phase);
            }
            Call::Trigger { voice, frame } => e.trigger(*voice, *frame),
        }
    }

    fn block(&mut self, b: &Block, answer: u64) {
        let mut x = vec![7.0; b.x_len as usize];
        let mut y = vec![7.0; b.y_len as usize];
        if answer == 0 {
            let heard = self.ensemble.block(b, &mut x, &mut y);
            let s = self.ensemble.page.lfo.settings;
            let ends: Vec<bool> = heard.voices.iter().map(|h| finished(&s, h)).collect();
            for end in &ends {
                self.put((*end).into());
            }
            self.frames += b.frames;
            self.played.zeros |= heard.voices.iter().any(|h| h.zeros);
            let all = b.frames as usize * ends.len();
            let values = [&x[..all], &y[..all]];
            self.figures
                .played(&self.ensemble, b, heard.inc, &ends, values);
        }
        for value in x.into_iter().chain(y) {
            self.float(value);
        }
    }
}

/// Making an ensemble: what came out, where that is refused.
fn make<'a>(make: &Make, smooth: f32, figures: &'a mut Figures) -> Result<Playing<'a>, Played> {
    let failed = make_failed(make);
    let answer = failed.first().copied().unwrap_or(0);
    figures.make(make, &failed);
    let entry = Entry {
        tag: MAKING,
        answer,
        end: 1,
        x_len: 0,
    };
    let played = Played {
        out: vec![answer as u8],
        entries: vec![entry],
        ending: Ending::Refused,
        zeros: false,
    };
    if answer > 0 {
        return Err(played);
    }
    Ok(Playing {
        ensemble: Ensemble::new(make, smooth),
        count: make.count,
        frames: 0,
        played,
        figures,
    })
}

fn ended(mut played: Played, ending: Ending, figures: &mut Figures) -> Played {
    if ending == Ending::Malformed {
        put_number(&mut played.out, MALFORMED);
    }
    figures.endings[ending as usize] += 1;
    played.ending = ending;
    played
}

/// Plays the bytes of a run. `smooths` has for making and for each call the setting that gave its coefficient.
pub fn play(bytes: &[u8], smooths: &[f32], figures: &mut Figures) -> Played {
    let smooth = |i: usize| smooths.get(i).copied().unwrap_or(0.0);
    let mut reader = Reader::new(bytes);
    let Some(made) = read_make(&mut reader) else {
        let nothing = Played {
            out: vec![],
            entries: vec![],
            ending: Ending::Malformed,
            zeros: false,
        };
        return ended(nothing, Ending::Malformed, figures);
    };
    let mut playing = match make(&made, smooth(0), figures) {
        Ok(playing) => playing,
        Err(played) => return ended(played, Ending::Refused, figures),
    };
    let mut ending = Ending::AtEnd;
    while !reader.at_end() {
        let Some(call) = read_call(&mut reader) else {
            ending = Ending::Malformed;
            break;
        };
        let i = playing.played.entries.len();
        playing.call(&call, smooth(i));
    }
    let Playing {
        ensemble, played, ..
    } = playing;
    figures.ended(&ensemble);
    ended(played, ending, figures)
}
