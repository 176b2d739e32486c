//! `fuzz CALLS [SEED]` calls every entry point of the library with valid, random and damaged numbers, rows, bytes and lengths, until there were
//! so many calls. What has to come is the model's: 11 for what is malformed, and no byte of the state or of a lent list changed by a refusal.

mod damage;
mod entry;

use std::collections::BTreeMap;
use std::process::ExitCode;
use std::time::Instant;

use calls::bytes::decode;
use calls::draw::Theme;
use calls::words::{self, Words};
use calls::{Call, Draw, Gateway, Model, Seen, Start, rows};
use edge::STATE;
use edge::entered::{BLANK, bytes};
use gateway::exchange::Timing;
use scale::near::{self, Near};
use scale::spread::spread;

use entry::{ENTRIES, Given, place};

/// Calls of a list: as many as a state lives.
const CALLS: usize = 2000;

/// Bytes before and behind a state and an output, which nobody may write.
const MARGIN: usize = 64;

#[derive(Default)]
struct Tally {
    lists: u64,
    calls: u64,
    /// By entry point and code, how often; 0 is an accepted call.
    codes: BTreeMap<(String, u64), u64>,
    /// Calls with a state of a wrong length, and damaged ones.
    lengths: u64,
    damaged: u64,
}

impl Tally {
    fn meets(&mut self, name: String, code: u64) {
        self.calls += 1;
        *self.codes.entry((name, code)).or_default() += 1;
    }

    fn add(&mut self, other: Tally) {
        self.lists += other.lists;
        self.calls += other.calls;
        self.lengths += other.lengths;
        self.damaged += other.damaged;
        for (key, times) in other.codes {
            *self.codes.entry(key).or_default() += times;
        }
    }
}

/// A state somewhere in more bytes, a copy of all of them, and the model of what it holds.
struct Held {
    all: Vec<u8>,
    copy: Vec<u8>,
    copied: bool,
    at: usize,
    model: Model,
}

/// Lent bytes that are no gateway's yet.
fn lent(draw: &mut Draw) -> (Vec<u8>, usize) {
    (vec![draw.bits() as u8; STATE + 2 * MARGIN], MARGIN - draw.below(16) as usize)
}

/// A start as it is lent: fee, limit, last number, timing, accounts, and a listing or bytes.
struct Beginning {
    restores: bool,
    fee: i64,
    limit: u64,
    last: u64,
    timing: Timing,
    accounts: Vec<u8>,
    rest: Vec<u8>,
}

impl Beginning {
    fn of(start: &Start) -> Beginning {
        let accounts = bytes(start.accounts().iter().flat_map(Words::words));
        let (fee, limit) = (start.fee(), u64::from(start.limit()));
        match start {
            Start::SetUp(_, _, last, _, listing, timing) => {
                let rest = bytes(listing.iter().flat_map(words::listed));
                Beginning { restores: false, fee, limit, last: *last, timing: *timing, accounts, rest }
            }
            Start::Restore(_, _, _, timing, saved) => {
                Beginning { restores: true, fee, limit, last: 0, timing: *timing, accounts, rest: saved.clone() }
            }
        }
    }

    fn damage(&mut self, draw: &mut Draw) {
        match draw.below(7) {
            6 => self.fee = damage::number(draw) as i64,
            0 => self.limit = damage::number(draw),
            1 => self.last = damage::number(draw),
            2 => damage::bytes(draw, &mut self.accounts),
            3 => self.timing = Timing { heartbeat: damage::number(draw), idle_timeout: damage::number(draw) },
            _ => damage::bytes(draw, &mut self.rest),
        }
    }

    /// The model that it starts.
    fn model(&self, state: usize) -> Result<Model, u8> {
        let accounts = rows::accounts(&self.accounts).filter(|_| state == STATE).ok_or(11)?;
        let limit = u32::try_from(self.limit).unwrap_or(u32::MAX);
        Model::start(&if self.restores {
            Start::Restore(self.fee, limit, accounts, self.timing, self.rest.clone())
        } else {
            Start::SetUp(self.fee, limit, self.last, accounts, rows::listing(&self.rest).ok_or(11)?, self.timing)
        })
    }

    fn enter(&self, m: &mut [u8]) -> u64 {
        let Timing { heartbeat, idle_timeout } = self.timing;
        if self.restores {
            edge::restore(m, self.fee, self.limit, heartbeat, idle_timeout, &self.accounts, &self.rest)
        } else {
            edge::set_up(m, self.fee, self.limit, self.last, heartbeat, idle_timeout, &self.accounts, &self.rest)
        }
    }

    fn name(&self) -> String {
        if self.restores { "restore" } else { "set_up" }.to_owned()
    }
}

struct Fuzz<'a> {
    draw: Draw,
    /// Draws starts beside the list.
    other: Draw,
    tally: &'a mut Tally,
}

impl Fuzz<'_> {
    /// Makes a start. It gives a gateway, or changes nothing.
    fn begin(&mut self, beginning: &Beginning, len: usize) -> Result<Option<Held>, String> {
        let (mut all, at) = lent(&mut self.draw);
        let copy = all.clone();
        let end = (at + len).min(all.len());
        let wanted = beginning.model(end - at);
        let code = beginning.enter(&mut all[at..end]);
        let expected = wanted.as_ref().err().copied().unwrap_or(0);
        self.tally.meets(beginning.name(), code);
        if code != u64::from(expected) {
            return Err(format!("{} gives {code}, not {expected}", beginning.name()));
        }
        let (before, behind) = (all[..at] == copy[..at], all[end..] == copy[end..]);
        if !before || !behind || code != 0 && all != copy {
            return Err(format!("{} with code {code} writes elsewhere", beginning.name()));
        }
        Ok(wanted.ok().map(|model| Held { copy: all.clone(), all, copied: true, at, model }))
    }

    /// A start that is accepted, near a limit or not.
    fn start(&mut self, theme: Theme, near: Option<Near>) -> Result<Held, String> {
        loop {
            self.draw.theme = theme;
            let start = match near {
                Some(near) => near::start(&mut self.draw, near),
                None => self.draw.start(&mut None),
            };
            if let Some(gateway) = self.begin(&Beginning::of(&start), STATE)? {
                return Ok(gateway);
            }
        }
    }

    /// A start with something wrong, beside the list.
    fn damaged_start(&mut self) -> Result<(), String> {
        let mut beginning = Beginning::of(&self.other.start(&mut None));
        for _ in 0..=self.draw.below(2) {
            beginning.damage(&mut self.draw);
        }
        self.tally.damaged += 1;
        let len = if self.draw.chance(10) { damage::length(&mut self.draw, STATE, STATE + MARGIN) } else { STATE };
        self.begin(&beginning, len).map(drop)
    }

    fn given(&mut self, model: &Model, near: Option<Near>) -> Given {
        let draw = &mut self.draw;
        // What leads to a limit stays whole.
        let whole = near.is_some() && !draw.planned.is_empty();
        let about = near.filter(|_| !whole && draw.chance(40)).and_then(|near| near::call(draw, near, model));
        let call = about.unwrap_or_else(|| draw.call(model, model));
        let mut given = Given::of(&call);
        if whole || draw.chance(35) {
            return given;
        }
        self.tally.damaged += 1;
        match draw.below(10) {
            0 => given.first = damage::number(draw),
            1 => given.second = damage::number(draw),
            2 => {
                // Another entry point with what was meant for this one.
                given.entry = draw.pick(&ENTRIES);
            }
            3 => {
                let rows = if draw.chance(2) { draw.below(1100) as usize } else { 1 };
                let len = rows * draw.pick(&[128, 128, 128, 96, 56, 64, 0]);
                let entry = draw.pick(&ENTRIES);
                given = Given { entry, first: damage::number(draw), second: damage::number(draw), row: vec![0; len] };
                if draw.chance(80) {
                    damage::bytes(draw, &mut given.row);
                }
            }
            _ => {
                for _ in 0..=draw.below(2) {
                    damage::bytes(draw, &mut given.row);
                }
            }
        }
        given
    }

    /// Makes a call on the gateway's state, with an output at any address.
    fn call(&mut self, gateway: &mut Held, given: &Given) -> Result<Seen, String> {
        let draw = &mut self.draw;
        let state = if draw.chance(4) { damage::length(draw, STATE, STATE + MARGIN - 16) } else { STATE };
        self.tally.lengths += u64::from(state != STATE);
        let places = given.call().map_or(0, |call| gateway.model.code(&call).map_or(0, |()| gateway.model.sees(&call).places()));
        let room = match draw.below(6) {
            0 => draw.below(places as u64 + 1) as usize * place(given.entry),
            1 => damage::length(draw, places * place(given.entry), 4096),
            _ => places * place(given.entry) + draw.below(200) as usize,
        };
        let offset = draw.below(16) as usize;
        let mut out = vec![BLANK; offset + room + MARGIN];
        let wanted = given.wanted(&mut gateway.model, state, room);
        if wanted.is_refusal() && !gateway.copied {
            gateway.copy.copy_from_slice(&gateway.all);
        }
        let at = gateway.at;
        let said = given.enter(&mut gateway.all[at..at + state], &mut out[offset..offset + room]);
        self.tally.meets(format!("{:?}", given.entry), said.code);
        said.agrees(&wanted, &out[offset..offset + room])?;
        let blank = |bytes: &[u8]| bytes.iter().all(|&byte| byte == BLANK);
        if !blank(&out[..offset]) || !blank(&out[offset + room..]) {
            return Err("the entry point writes beside its output".to_owned());
        }
        let end = at + STATE;
        let beside = gateway.all[..at] != gateway.copy[..at] || gateway.all[end..] != gateway.copy[end..];
        if beside || wanted.is_refusal() && gateway.all != gateway.copy {
            return Err("the entry point changes what it may not".to_owned());
        }
        gateway.copied = wanted.is_refusal();
        Ok(wanted)
    }

    /// A checkpoint's bytes, whole or damaged, as a part and as a start.
    fn saved(&mut self, saved: &[u8], model: &Model) -> Result<(), String> {
        let mut saved = saved.to_vec();
        if self.draw.chance(80) {
            damage::bytes(&mut self.draw, &mut saved);
        }
        let section = decode(&saved).map_or(saved.len(), |saved| 25 + 20 * saved.wallets.len());
        let given = edge::order_section(&saved);
        self.tally.meets("order_section".to_owned(), 0);
        if given != section {
            return Err(format!("order_section gives {given}, not {section}"));
        }
        let accounts = model.members.values().map(|member| member.account).collect();
        let start = Start::Restore(self.draw.any_fee(), model.limit, accounts, model.timing, saved);
        self.begin(&Beginning::of(&start), STATE).map(drop)
    }

    fn list(&mut self, seed: u64) -> Result<(), String> {
        // One list of eight is near a limit.
        let near = (seed % 8 == 0).then(|| near::ALL[(seed / 8) as usize % near::ALL.len()]);
        let mut gateway = self.start(Theme::of(seed as usize, None), near)?;
        for at in 0..CALLS {
            let given = self.given(&gateway.model, near);
            let seen = self.call(&mut gateway, &given).map_err(|what| format!("call {at}, {given:?}: {what}"))?;
            if let Some(call) = given.call().filter(|_| !seen.is_refusal()) {
                self.draw.plan_after(&call, &gateway.model);
            }
            if at % 20 == 0 {
                self.other.theme = Theme::of(at / 20, None);
                self.damaged_start()?;
            }
            if at % 100 == 99 && self.draw.planned.is_empty() {
                self.draw.plan_checkpoint(&gateway.model);
            }
            if let (Some(Call::Checkpoint), Seen::Sees(calls::Answer::Bytes(saved), _)) = (given.call(), &seen) {
                self.saved(saved, &gateway.model)?;
            }
        }
        Ok(())
    }
}

/// Makes the list of that number, and gives how many calls it made.
fn make(seed: u64, tally: &mut Tally) -> Result<u64, String> {
    let before = tally.calls;
    let drawn = |salt: u64| {
        let mut draw = Draw::new(seed.wrapping_mul(0xD134_2543_DE82_EF95) ^ salt);
        (draw.many, draw.freely) = (true, true);
        draw
    };
    Fuzz { draw: drawn(0), other: drawn(1), tally }.list(seed)?;
    tally.lists += 1;
    Ok(tally.calls - before)
}

fn main() -> ExitCode {
    let numbers: Vec<u64> = std::env::args().skip(1).map(|word| word.parse().expect("a number")).collect();
    let begun = Instant::now();
    match spread(numbers[0], numbers.get(1).copied().unwrap_or(0), make) {
        Ok(all) => {
            let mut tally = Tally::default();
            all.into_iter().for_each(|more| tally.add(more));
            let codes: Vec<String> = tally.codes.iter().map(|((name, code), times)| format!("{name} {code}: {times}")).collect();
            println!("{}", codes.join(", "));
            let Tally { lists, calls, lengths, damaged, .. } = tally;
            println!("{damaged} damaged, {lengths} with a state of a wrong length");
            println!("fuzz: {lists} lists, {calls} calls, no difference, {:.1} s", begun.elapsed().as_secs_f64());
            ExitCode::SUCCESS
        }
        Err((seed, what)) => {
            println!("difference in list {seed}: {what}");
            ExitCode::FAILURE
        }
    }
}
