//! Draws lists and makes them as they are drawn.

use std::panic::{AssertUnwindSafe, catch_unwind};

use calls::bytes::{decode, encode};
use calls::draw::Theme;
use calls::{Call, Draw, Gateway, Seen, Start};
use protocol::Inbound;

use crate::coverage::{Coverage, Reasons};
use crate::near::{self, Near};
use crate::play::{Play, Step};
use crate::sides::Counts;

/// Calls of a list, planned ones aside: of a theme, and near a limit.
const THEMED: usize = 150;
const LIMITED: usize = 400;

/// Starts beside a list.
const STARTS: usize = 2;

/// What is counted over lists.
#[derive(Default)]
pub struct Tally {
    pub lists: u64,
    pub first: Counts,
    pub second: Counts,
    pub restarts: u64,
    pub items: u64,
    pub cut: u64,
    pub finished: u64,
    pub coverage: Coverage,
}

impl Tally {
    pub fn add(&mut self, other: Tally) {
        self.lists += other.lists;
        self.first.add(&other.first);
        self.second.add(&other.second);
        self.restarts += other.restarts;
        self.items += other.items;
        self.cut += other.cut;
        self.finished += other.finished;
        self.coverage.add(other.coverage);
    }
}

/// A list that shows a difference.
pub struct Difference {
    pub start: Start,
    pub steps: Vec<Step>,
    pub what: String,
}

struct List<'a> {
    draw: Draw,
    /// Draws starts beside the list.
    other: Draw,
    near: Option<Near>,
    steps: Vec<Step>,
    tally: &'a mut Tally,
}

impl List<'_> {
    fn step(&mut self, play: &mut Play, step: Step) -> Result<Option<Seen>, String> {
        self.steps.push(step);
        play.step(&self.steps[self.steps.len() - 1])
    }

    /// The next call.
    fn call(&mut self, play: &Play) -> Call {
        let (draw, model) = (&mut self.draw, &play.sides.model);
        loop {
            if let (Some(near), true) = (self.near, draw.planned.is_empty())
                && draw.chance(50)
                && let Some(call) = near::call(draw, near, model)
                && (!play.ends_restart(&call) || draw.chance(7))
            {
                return call;
            }
            let planned = !draw.planned.is_empty();
            let call = draw.call(model, model);
            let releases = self.near.is_some_and(|near| near::releases(near, &call)) || play.ends_restart(&call);
            if planned || !releases || draw.chance(7) {
                return call;
            }
        }
    }

    fn make(&mut self, play: &mut Play, call: &Call) -> Result<(), String> {
        let places = play.sides.places(call);
        let reasons = Reasons::of(&play.sides.model, call);
        if places > 0 && self.draw.chance(9) {
            let room = if self.draw.chance(50) { places - 1 } else { self.draw.below(places as u64) as usize };
            let seen = self.step(play, Step::Make(call.clone(), room))?.expect("a call");
            self.tally.coverage.call(call, &seen, &reasons);
        }
        let room = places + if self.draw.chance(50) { self.draw.below(5) as usize } else { 0 };
        let seen = self.step(play, Step::Make(call.clone(), room))?.expect("a call");
        self.tally.coverage.call(call, &seen, &reasons);
        self.tally.coverage.state(&play.sides.model);
        if !seen.is_refusal() {
            self.draw.plan_after(call, &play.sides.model);
        }
        if matches!((call, &seen), (Call::Checkpoint, Seen::Sees(..))) && self.draw.chance(60) {
            self.restart(play)?;
        }
        Ok(())
    }

    /// A restart from a checkpoint, after damaged bytes.
    fn restart(&mut self, play: &mut Play) -> Result<(), String> {
        let bytes = play.sides.model.checkpoint().expect("a checkpoint");
        let (limit, timing) = (play.sides.model.limit, self.draw.timing());
        let saved = decode(&bytes).expect("a checkpoint");
        let mut damaged = self.draw.damage(&saved).1;
        if self.draw.chance(50) {
            damaged = encode(&saved);
            let at = self.draw.below(damaged.len() as u64) as usize;
            damaged[at] ^= 1 << self.draw.below(8);
        }
        let start = Start::Restore(self.draw.any_fee(), limit, play.accounts(), timing, damaged);
        if let Some(Seen::Code(code)) = self.step(play, Step::Begin(start.clone()))? {
            self.tally.coverage.start(&start, code);
        }
        self.step(play, Step::Restart(timing))?;
        // A command for events to come.
        let member = play.sides.model.sessions.iter().find(|(_, session)| session.is_open());
        if let Some((&session, _)) = member {
            let command = Call::Receive(session, Inbound::MassCancel, self.draw.time());
            self.draw.planned.push_back(command);
        }
        Ok(())
    }

    /// A start beside the list.
    fn begin(&mut self, play: &mut Play) -> Result<(), String> {
        let draw = &mut self.other;
        draw.theme = Theme::of(draw.below(5) as usize, None);
        let near = draw.pick(&near::ALL);
        let start = if draw.chance(12) { near::start(draw, near) } else { draw.start(&mut None) };
        if let Some(Seen::Code(code)) = self.step(play, Step::Begin(start.clone()))? {
            self.tally.coverage.start(&start, code);
        }
        Ok(())
    }

    fn run(&mut self, play: &mut Play) -> Result<(), String> {
        let most = if self.near.is_some() { LIMITED } else { THEMED };
        let mut left = most;
        for _ in 0..STARTS {
            self.begin(play)?;
        }
        while left > 0 || !self.draw.planned.is_empty() {
            if self.draw.planned.is_empty() {
                left = left.saturating_sub(1);
                match self.draw.below(200) {
                    0..4 => self.draw.plan_checkpoint(&play.sides.model),
                    4 => drop(self.step(play, Step::Finish)?),
                    5 => drop(self.step(play, Step::Drain)?),
                    _ => {}
                }
            }
            let call = self.call(play);
            self.make(play, &call)?;
        }
        self.step(play, Step::Drain)?;
        self.step(play, Step::Finish)?;
        Ok(())
    }
}

/// What the list of that number dwells on: a theme, or a limit.
fn kind(seed: u64) -> (Theme, Option<Near>) {
    let at = (seed % 64) as usize;
    match at {
        0..16 => (Theme::Market, Some(near::ALL[at.min(12)])),
        _ => (Theme::of(at, None), None),
    }
}

/// Draws and makes the list of that number, and gives how many calls it made.
pub fn make(seed: u64, tally: &mut Tally) -> Result<u64, Box<Difference>> {
    let before = tally.first.calls;
    let mut draw = Draw::new(seed.wrapping_mul(0x9E37_79B9_7F4A_7C15));
    let (theme, near) = kind(seed);
    draw.theme = theme;
    draw.many = true;
    draw.freely = draw.chance(15);
    let start = match near {
        Some(near) => near::start(&mut draw, near),
        None => draw.start(&mut None),
    };
    let mut other = Draw::new(!seed);
    other.many = true;
    let mut list = List { draw, other, near, steps: Vec::new(), tally };
    let run = || -> Result<(), String> {
        let mut play = match Play::start(&start)? {
            Ok(play) => play,
            Err(code) => {
                list.tally.coverage.start(&start, code);
                return Ok(());
            }
        };
        list.tally.coverage.start(&start, 0);
        list.tally.coverage.state(&play.sides.model);
        list.run(&mut play)?;
        let (first, second) = play.counts();
        list.tally.first.add(&first);
        list.tally.second.add(&second);
        list.tally.restarts += play.restarts;
        list.tally.items += play.items;
        list.tally.cut += play.cut;
        list.tally.finished += play.finished;
        Ok(())
    };
    let done = catch_unwind(AssertUnwindSafe(run)).unwrap_or(Err("a panic".to_owned()));
    let steps = std::mem::take(&mut list.steps);
    tally.lists += 1;
    done.map(|()| tally.first.calls - before).map_err(|what| Box::new(Difference { start, steps, what }))
}
