//! Prints random lists of calls with what the Rust's `Exchange` made of them, as a file for the checker:
//! `lists SEED COUNT [THEME]`, with a theme of 0 to 4, or 5 to 8 for lists that come to a limit; without one the first five take turns.
//! `lists --play CALLS SEED COUNT [THEME]` prints a file for the program `player`, with the named calls only (`connect,tick,..`), and
//! `lists --play CALLS --fee FEE SEED COUNT [THEME]` one whose lists have that fee: the model answers, since the Rust knows no fee.

mod antt;
mod play;

use std::io::Write;

use calls::bytes::{decode, encode};
use calls::depth::Resting;
use calls::draw::{Limit, Theme};
use calls::{Call, Draw, Gateway, Model, Published, Seen, Start};
use gateway::accounts::Account;
use gateway::exchange::Checkpoint;
use orderbook::{Event, OrderId};
use protocol::RejectCode;

use antt::Antt;
use play::{File, Whose};

/// A list: its start, its calls with the places lent to each, and what each gave. A start that is refused gives its code.
struct List {
    start: Start,
    calls: Vec<(Call, usize)>,
    seen: Vec<Seen>,
    /// For the player: after how many calls a second gateway is restored, or fed an item of the record.
    second: Vec<(usize, Again)>,
    /// What is worth counting.
    remarks: Vec<String>,
}

/// What a second gateway is given: bytes, with the code that refuses them or 0; an item of the record; or the listing that ends a restart.
enum Again {
    Restore(Start, u8),
    Item(Call),
    Finish(Call),
}

/// Places enough for any call.
const PLENTY: usize = usize::MAX;

/// A second gateway, restored from a checkpoint of the first.
struct Second<G> {
    /// The checkpoint's last number.
    saved: u64,
    model: Model,
    decides: G,
}

impl<G: Gateway> Second<G> {
    fn start(start: &Start) -> Option<Second<G>> {
        let (model, decides) = (Model::start(start).ok()?, G::start(start).ok()?);
        Some(Second { saved: model.last, model, decides })
    }

    /// Makes the call, unless document 01 refuses it.
    fn feed(&mut self, call: &Call) -> bool {
        let passes = self.model.code(call).is_ok() && self.decides.call(call, PLENTY).is_some();
        passes && self.model.call(call, PLENTY).is_some()
    }

    fn agrees(&self, first: &G) -> bool {
        let same = |account: u32| self.decides.wallet(account) == first.wallet(account);
        self.decides.last_seq() == first.last_seq() && (0..self.model.limit).all(same)
    }
}

/// What is worth counting of a call: the table that refuses an event, or the kind of a trade that is accepted.
fn remark(model: &Model, call: &Call) -> Option<String> {
    let Call::Deliver(number, event) = call else { return None };
    if let Some(table) = model.no_room(*number, event) {
        return Some(format!("deliver finds no room for {table}"));
    }
    let Event::Trade { taker, maker, .. } = event else { return None };
    let owner = |id: &OrderId| model.live.get(id).map(|live| live.account);
    let kind = match (owner(taker), owner(maker)) {
        (Some(one), Some(other)) if one == other => "of one account",
        (Some(one), Some(other)) => match usize::from(model.has_wallet(one)) + usize::from(model.has_wallet(other)) {
            0 => "between no wallets",
            1 => "between a wallet and none",
            _ => "between two wallets",
        },
        _ => "of an order no longer live",
    };
    model.code(call).is_ok().then(|| format!("trade {kind}"))
}

/// A checkpoint, with the accounts of its moment.
type Saved = (Vec<Account>, Checkpoint);

/// Draws a list whose answers are the Rust's, or with a fee the model's. A checkpoint taken last is left in `saved`.
fn list(draw: &mut Draw, saved: &mut Option<Saved>) -> List {
    if draw.fee == 0 { list_by::<Published>(draw, saved) } else { list_by::<Model>(draw, saved) }
}

fn list_by<G: Gateway + Resting>(draw: &mut Draw, saved: &mut Option<Saved>) -> List {
    let start = draw.start(saved);
    let mut list = List { start, calls: Vec::new(), seen: Vec::new(), second: Vec::new(), remarks: Vec::new() };
    let mut model = match Model::start(&list.start) {
        Ok(model) => model,
        Err(code) => {
            list.seen.push(Seen::Code(code));
            return list;
        }
    };
    let Ok(mut decides) = G::start(&list.start) else {
        eprintln!("the Rust panics at the start");
        return list;
    };
    let mut second: Option<Second<G>> = None;
    let most = draw.theme.calls(draw.only.is_some());
    for at in 0.. {
        if at == most && !matches!(draw.theme, Theme::Full(_)) && draw.chance(30) {
            draw.plan_checkpoint(&model);
        }
        if at >= most && draw.planned.is_empty() {
            break;
        }
        let call = draw.call(&model, &decides);
        list.remarks.extend(remark(&model, &call));
        let ours = model.code(&call).map_or_else(Seen::Code, |()| model.sees(&call));
        // The Rust has no such limit, and finds no number behind the greatest.
        let full = ours.rejects(RejectCode::Unavailable);
        let seen = if ours.is_refusal() || full { Some(ours) } else { decides.call(&call, PLENTY) };
        let Some(seen) = seen else {
            eprintln!("the Rust panics in {}", antt::call(&call, 99));
            break;
        };
        let places = seen.places();
        if places > 0 && draw.chance(12) {
            list.calls.push((call.clone(), places - 1));
            list.seen.push(Seen::Code(6));
        }
        let refused = seen.is_refusal();
        let many = refused || matches!(draw.theme, Theme::Full(Limit::Feed)) || draw.chance(50);
        list.calls.push((call.clone(), if many { places.max(999) } else { places }));
        if !refused && !full {
            let before = model.last;
            model.call(&call, PLENTY);
            draw.plan_after(&call, &model);
            if let (Some(item), Some(gateway)) = (model.item(&call, before), &mut second) {
                if gateway.feed(&item) {
                    assert!(gateway.agrees(&decides), "the second gateway differs");
                    list.second.push((list.calls.len(), Again::Item(item)));
                } else {
                    // An event of a command from before the checkpoint, which 01 leaves out.
                    assert!(matches!(item, Call::ReplayEvent(number, _) if number <= gateway.saved), "the record is refused");
                    second = None;
                }
            }
        }
        list.seen.push(seen);
        if full && model.last == u64::MAX {
            break;
        }
        if let (Call::Checkpoint, Some(bytes)) = (&call, decides.checkpoint()) {
            let checkpoint = decode(&bytes).expect("a checkpoint");
            let accounts: Vec<Account> = model.members.values().map(|member| member.account).collect();
            if draw.restarts() && !refused {
                let timing = draw.timing();
                // A fee below 0 is judged before the bytes.
                for fee in [draw.fee, -draw.fee] {
                    let (damage, bytes) = draw.damage(&checkpoint);
                    list.remarks.push(format!("damaged {damage}"));
                    let start = Start::Restore(fee, model.limit, accounts.clone(), timing, bytes);
                    let code = Model::start(&start).err().expect("a refusal");
                    list.second.push((list.calls.len(), Again::Restore(start, code)));
                }
                let start = Start::Restore(draw.fee, model.limit, accounts.clone(), timing, encode(&checkpoint));
                second = Second::start(&start);
                assert!(second.as_ref().is_some_and(|second| second.agrees(&decides)), "the checkpoint differs");
                list.second.push((list.calls.len(), Again::Restore(start, 0)));
            }
            *saved = Some((accounts, checkpoint));
        }
    }
    if let Some(mut gateway) = second {
        let finish = draw.finish(&gateway.model);
        if gateway.feed(&finish) {
            list.second.push((list.calls.len(), Again::Finish(finish)));
        }
    }
    list
}

/// The text in lines of at most 150, broken before a `∷`.
fn wrapped(text: &str) -> String {
    let mut lines = String::from("   ");
    let mut width = 3;
    for (at, part) in text.split(" ∷ ").enumerate() {
        let size = part.chars().count() + 3;
        if width + size > 150 {
            lines += "\n   ";
            width = 3;
        }
        lines += if at == 0 { " " } else { " ∷ " };
        lines += part;
        width += size;
    }
    lines
}

/// The file for the checker.
fn print(args: &[u64], draw: &mut Draw) {
    let words: Vec<String> = args.iter().map(u64::to_string).collect();
    print!("{}", include_str!("head.txt").replace("ARGS", &words.join(" ")));
    let (count, mut saved) = (args[1] as usize, None);
    let mut rows = String::new();
    for at in 0..count {
        draw.theme = Theme::of(at, args.get(2));
        let list = list(draw, &mut saved);
        let terms = |items: Vec<String>| wrapped(&[items, vec!["[]".to_owned()]].concat().join(" ∷ "));
        let calls = list.calls.iter().map(|(call, room)| antt::call(call, *room)).collect();
        println!("abbrev start_{at} : Started\nstart_{at} =\n{}\n", wrapped(&list.start.antt()));
        println!("abbrev calls_{at} : List Call\ncalls_{at} =\n{}\n", terms(calls));
        println!("abbrev seen_{at} : List Seen\nseen_{at} =\n{}\n", terms(list.seen.iter().map(Antt::antt).collect()));
        rows += &format!("(run_from start_{at} calls_{at}, seen_{at}) ∷ ");
    }
    print!("{}", include_str!("foot.txt").replace("ROWS", &wrapped(&(rows + "[]"))));
}

/// The file for the player, and what it meets. Where themes take turns, the last two lists come to limits.
fn play(args: &[u64], draw: &mut Draw) {
    let mut file = File::default();
    let count = args[1] as usize;
    let entry = draw.only.as_ref().is_some_and(|only| only.iter().any(|name| name == "receive_from"));
    let mut saved = None;
    for at in 0..count {
        draw.theme = match args.get(2) {
            None if entry && at + 1 == count => Theme::Full(Limit::Commands),
            None if entry && at + 2 == count => Theme::Full(Limit::Feed),
            theme => Theme::of(at, theme),
        };
        let list = list(draw, &mut saved);
        let code = match list.seen.first() {
            Some(Seen::Code(code)) if list.calls.is_empty() => *code,
            _ => 0,
        };
        file.start(&list.start, code, false);
        list.remarks.into_iter().for_each(|remark| file.meets(remark));
        let mut second = list.second.iter().peekable();
        for at in 0..=list.calls.len() {
            while let Some((_, again)) = second.next_if(|(after, _)| *after == at) {
                match again {
                    Again::Restore(start, code) => file.start(start, *code, true),
                    Again::Item(call) => file.call(call, 0, &Seen::quiet(), Whose::Both),
                    Again::Finish(call) => file.call(call, 0, &Seen::quiet(), Whose::Both),
                }
            }
            if let Some(((call, room), seen)) = list.calls.get(at).zip(list.seen.get(at)) {
                file.call(call, *room, seen, Whose::First);
            }
        }
    }
    std::io::stdout().write_all(&file.bytes()).expect("a file");
    eprintln!("{}", file.coverage());
}

fn main() {
    let mut words: Vec<String> = std::env::args().skip(1).collect();
    let plays = words.first().is_some_and(|word| word == "--play");
    let only = plays.then(|| words.drain(..2).nth(1).expect("names of calls").split(',').map(str::to_owned).collect());
    let charges = words.first().is_some_and(|word| word == "--fee");
    let fee = if charges { words.drain(..2).nth(1).expect("a fee").parse().expect("a number") } else { 0 };
    let args: Vec<u64> = words.iter().map(|arg| arg.parse().expect("a number")).collect();
    std::panic::set_hook(Box::new(|_| {}));
    let mut draw = Draw::new(args[0]);
    (draw.only, draw.fee) = (only, fee);
    if plays { play(&args, &mut draw) } else { print(&args, &mut draw) }
}
