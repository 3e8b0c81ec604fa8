//! A history: steps that both sides take, compared after each.

use crate::before::Before;
use crate::counts::Counts;
use crate::sides::*;
use crate::text;

#[derive(Clone)]
pub enum Call {
    Fresh,
    Request { sender: u32, message: Vec<u8> },
    EventMessage { count: u32, record: u32, watch: u32 },
}

/// Bytes written into a buffer before a call.
#[derive(Clone)]
pub struct Poke {
    pub buffer: usize,
    pub at: usize,
    pub bytes: Vec<u8>,
}

#[derive(Clone)]
pub struct Step {
    pub pokes: Vec<Poke>,
    /// Whether altered tables that turn out to be sound stay as they are.
    pub keep: bool,
    /// A buffer lent with another size.
    pub resized: Option<(usize, usize)>,
    pub call: Call,
}

impl Step {
    pub fn of(call: Call) -> Step {
        Step { pokes: vec![], keep: false, resized: None, call }
    }
}

pub struct Play {
    pub model: Memory,
    pub archive: Memory,
}

impl Play {
    /// Both sides with fresh tables.
    pub fn new(counts: &mut Counts) -> Result<Play, String> {
        let mut play = Play { model: Memory::new(), archive: Memory::new() };
        play.step(&Step::of(Call::Fresh), counts)?;
        Ok(play)
    }

    pub fn step(&mut self, step: &Step, counts: &mut Counts) -> Result<(), String> {
        let saved = (!step.pokes.is_empty()).then(|| self.model.clone());
        for side in [&mut self.model, &mut self.archive] {
            side.sizes = right_sizes();
            if let Some((buffer, size)) = step.resized {
                side.sizes[buffer] = size;
            }
            for poke in &step.pokes {
                side.poke(poke.buffer, poke.at, &poke.bytes);
            }
        }
        let before = Before::of(step, &self.model);
        let answers = self.call(&step.call)?;
        counts.call(&step.call, &answers, &before, &mut self.model);
        let sound = match answers {
            Answers::Request(results) => results.number != 2 && step.resized.is_none(),
            _ => false,
        };
        if let Answers::Request(results) = answers {
            self.messages(results.event_count, counts)?;
        }
        if let Some(saved) = saved.filter(|_| !(step.keep && sound)) {
            for table in 0..TABLES {
                self.model.areas[table].copy_from_slice(&saved.areas[table]);
                self.archive.areas[table].copy_from_slice(&saved.areas[table]);
            }
        }
        Ok(())
    }

    fn call(&mut self, call: &Call) -> Result<Answers, String> {
        let [model, archive] = [(&mut self.model, Side::Model), (&mut self.archive, Side::Archive)].map(|(memory, side)| match call {
            Call::Fresh => memory.fresh(side),
            Call::Request { sender, message } => memory.request(side, *sender, message),
            Call::EventMessage { count, record, watch } => memory.event_message(side, *count, *record, *watch),
        });
        if model != archive {
            return Err(format!("model:   {model:?}\narchive: {archive:?}{}", text::replies(&self.model, &self.archive, &model, &archive)));
        }
        match text::difference(&self.model, &self.archive) {
            Some(difference) => Err(format!("both answer {model:?}\n{difference}")),
            None => Ok(model),
        }
    }

    /// The event message of every record for every watch, and one past each end.
    fn messages(&mut self, count: u32, counts: &mut Counts) -> Result<(), String> {
        if count == 0 {
            return Ok(());
        }
        let ends = [(count, 0), (0, 16), (u32::MAX, u32::MAX)];
        let all = (0..count).flat_map(|record| (0..16).map(move |watch| (record, watch)));
        for (record, watch) in all.chain(ends) {
            let [model, archive] = [(&mut self.model, Side::Model), (&mut self.archive, Side::Archive)]
                .map(|(memory, side)| memory.event_message(side, count, record, watch));
            let same = self.model.areas[MESSAGE_BUFFER] == self.archive.areas[MESSAGE_BUFFER];
            if model != archive || !same {
                let difference = text::difference(&self.model, &self.archive).unwrap_or_default();
                return Err(format!(
                    "event message of record {record} of {count} for watch {watch}\nmodel:   {model:?}\narchive: {archive:?}\n{difference}"
                ));
            }
            counts.message(&model);
        }
        match text::difference(&self.model, &self.archive) {
            Some(difference) => Err(format!("after the event messages\n{difference}")),
            None => Ok(()),
        }
    }
}

/// Plays a whole history; the index of the step where the sides part, and how.
pub fn replay(steps: &[Step]) -> Option<(usize, String)> {
    let mut unused = Counts::default();
    let mut play = match Play::new(&mut unused) {
        Ok(play) => play,
        Err(how) => return Some((0, how)),
    };
    steps.iter().enumerate().find_map(|(index, step)| play.step(step, &mut unused).err().map(|how| (index, how)))
}

/// A shorter history that still fails: steps are left out in ever smaller runs, then what is special about each.
pub fn shrink(mut steps: Vec<Step>) -> Vec<Step> {
    let Some((last, _)) = replay(&steps) else { return steps };
    steps.truncate(last + 1);
    let mut run = steps.len().div_ceil(2).max(1);
    loop {
        let mut at = 0;
        let mut shorter = false;
        while at < steps.len() {
            let mut fewer = steps.clone();
            fewer.drain(at..(at + run).min(steps.len()));
            match replay(&fewer) {
                Some((last, _)) => {
                    fewer.truncate(last + 1);
                    steps = fewer;
                    shorter = true;
                }
                None => at += run,
            }
        }
        if run == 1 && !shorter {
            break;
        }
        run = (run / 2).max(1);
    }
    for index in 0..steps.len() {
        for poke in (0..steps[index].pokes.len()).rev() {
            let mut plainer = steps.clone();
            plainer[index].pokes.remove(poke);
            if replay(&plainer).is_some() {
                steps = plainer;
            }
        }
    }
    steps
}
