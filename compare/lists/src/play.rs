//! Lists of calls as a file of words, for the program `player` (compare/README.md has the rows).

use std::collections::BTreeMap;

use calls::names;
use calls::words::{self, LEVEL, ROW, Words, arguments, row};
use calls::{Answer, Call, Mail, Seen, Start};

/// The words of a start, an account or a call.
const CALL: usize = 16;

/// The most bytes that the player lends, and what it fills them with.
const MOST: usize = 24_576;
const BLANK: u8 = 0xA5;

/// Whose call it is: the first gateway's, the second's, or the second's with the two compared after it.
#[derive(Clone, Copy)]
pub enum Whose {
    First,
    Second,
    Both,
}

impl Whose {
    /// A call's number in the file.
    fn number(self, call: u64) -> u64 {
        match self {
            Whose::First => call,
            Whose::Second => 32 + call,
            Whose::Both => 64 + call,
        }
    }
}

/// Calls without rows that follow one another as one row of the file: the last call's row, how many came after the first, and the words
/// (bits) that grow by 1 from call to call.
struct Run {
    row: Vec<u64>,
    times: u64,
    grows: Option<u64>,
}

/// The bytes in words, the last one filled up.
fn packed(bytes: &[u8]) -> Vec<u64> {
    let word = |part: &[u8]| {
        let mut word = [BLANK; 8];
        word[..part.len()].copy_from_slice(part);
        u64::from_le_bytes(word)
    };
    bytes.chunks(8).map(word).collect()
}

/// A file of lists, and what it meets.
#[derive(Default)]
pub struct File {
    words: Vec<u64>,
    run: Option<Run>,
    met: BTreeMap<String, usize>,
}

impl File {
    pub fn meets(&mut self, what: String) {
        *self.met.entry(what).or_default() += 1;
    }

    /// A start of the first gateway or of the second, and the code that refuses it, or 0.
    pub fn start(&mut self, start: &Start, code: u8, second: bool) {
        let none = Vec::new();
        let (number, limit, last, timing, accounts, listing, saved) = match start {
            Start::SetUp(_, limit, last, accounts, listing, timing) => (0, limit, *last, timing, accounts, listing, Vec::new()),
            Start::Restore(_, limit, accounts, timing, bytes) => (20, limit, 0, timing, accounts, &none, bytes.clone()),
        };
        let gateway = if second && code == 0 {
            Whose::Both
        } else if second {
            Whose::Second
        } else {
            Whose::First
        };
        let rows = if number == 0 { listing.len() } else { saved.len() };
        let parts: &[&dyn Words] =
            &[&u64::from(code), &rows, &accounts.len(), limit, &last, &timing.heartbeat, &timing.idle_timeout, &start.fee()];
        self.words.extend(row::<CALL>(&[gateway.number(number), 0], parts));
        for account in accounts {
            self.words.extend(row::<CALL>(&[], &[account]));
        }
        self.words.extend(listing.iter().flat_map(words::listed));
        self.words.extend(packed(&saved));
        self.run = None;
        let name = start.name();
        self.meets(format!("{name} code {code}{}", if second { " of a second gateway" } else { "" }));
    }

    /// A call with `room` places lent, and what it gave.
    pub fn call(&mut self, call: &Call, room: usize, seen: &Seen, gateway: Whose) {
        let ((number, name), mut words) = (call.numbered(), arguments(call));
        let number = gateway.number(number);
        let most = match call {
            Call::Levels(_) => MOST / (8 * LEVEL),
            Call::Checkpoint => MOST,
            _ => MOST / (8 * ROW),
        };
        let (room, places) = (room.min(most), seen.places());
        assert!(places <= most, "more places than the player lends");
        let code = if let Seen::Code(code) = seen { u64::from(*code) } else { 0 };
        let mut rows: Vec<u64> = Vec::new();
        if let Seen::Sees(answer, mails) = seen {
            match answer {
                Answer::Nothing => {}
                Answer::Account(account) => words.extend(account.words()),
                Answer::Wallet(wallet) => words.extend(wallet.map_or(vec![0], |wallet| [vec![1], wallet.words()].concat())),
                Answer::Number(number) => words.push(*number),
                Answer::Levels(levels) => rows.extend(levels.iter().flat_map(words::level)),
                Answer::Commands(commands) => rows.extend(commands.iter().flat_map(words::command)),
                Answer::Bytes(bytes) => rows.extend(packed(bytes)),
            }
            rows.extend(mails.iter().flat_map(words::mail));
        }
        let (count, given): (usize, Vec<u64>) = match call {
            Call::ReplayCommand(_, given) => (1, words::command(given).to_vec()),
            Call::Finish(listing) => (listing.len(), listing.iter().flat_map(words::listed).collect()),
            _ => (places, Vec::new()),
        };
        words.resize(CALL - 4, 0);
        let head = [vec![number, room as u64, code, count as u64], words].concat();
        if count > 0 || !self.extends_run(&head) {
            self.words.extend(head.iter().chain(&given).chain(&rows));
            self.run = (count == 0).then_some(Run { row: head, times: 0, grows: None });
        }
        match gateway {
            Whose::First => self.count(call, name, code, seen),
            _ => self.meets(format!("second gateway: {name}")),
        }
    }

    fn count(&mut self, call: &Call, name: &str, code: u64, seen: &Seen) {
        self.meets(format!("call {name} code {code}"));
        if let Some(given) = names::given(call) {
            self.meets(given);
        }
        let Seen::Sees(answer, mails) = seen else { return };
        for mail in mails {
            self.meets(match mail {
                Mail::Close(_) => "close".to_owned(),
                Mail::Send(_, message) => names::sent(message),
            });
        }
        match answer {
            Answer::Commands(commands) => {
                for command in commands {
                    self.meets(format!("command {}", names::case(command)));
                }
            }
            Answer::Wallet(wallet) => self.meets(format!("wallet {}", if wallet.is_some() { "there" } else { "none" })),
            Answer::Account(account) => self.meets(format!("account {}", if account.is_some() { "there" } else { "none" })),
            Answer::Levels(levels) => self.meets(format!("levels {}", if levels.is_empty() { "none" } else { "some" })),
            _ => {}
        }
    }

    /// Whether the row goes on with the run that ends the file: the last one again, with 1 more in the words that grow.
    fn extends_run(&mut self, row: &[u64]) -> bool {
        let Some(run) = &mut self.run else { return false };
        let grown = |at: usize| row[at] == run.row[at].wrapping_add(1);
        let grows: u64 = (4..CALL - 1).filter(|&at| grown(at)).map(|at| 1 << at).sum();
        let same = (0..CALL).all(|at| grows >> at & 1 == 1 || row[at] == run.row[at]);
        if !same || row[CALL - 1] != 0 || run.grows.is_some_and(|words| words != grows) {
            return false;
        }
        (run.row, run.times, run.grows) = (row.to_vec(), run.times + 1, Some(grows));
        *self.words.last_mut().expect("a row") = run.times << 16 | grows;
        true
    }

    pub fn bytes(&self) -> Vec<u8> {
        self.words.iter().flat_map(|word| word.to_le_bytes()).collect()
    }

    /// How often the file meets each case.
    pub fn coverage(&self) -> String {
        let met: Vec<String> = self.met.iter().map(|(what, times)| format!("{what}: {times}")).collect();
        met.join(", ")
    }
}
