//! The proved `rowanchess::Exchange`, for calls made of the published types.

use calls::bytes::decode;
use calls::{Answer, Call, Gateway, Listed, Mail, Seen, Start};
use gateway::accounts::{Account, Funds};
use gateway::exchange::{Checkpoint, SavedOrder, SavedWallet, Timing};
use gateway::wallet::Wallet;
use marketdata::Level;
use orderbook::{CancelReason, Command, Event, Phase, RejectReason, Side, TimeInForce};
use protocol::{
    Balance, Inbound, LevelUpdate, LoginError, LogoutReason, NewOrder, OrderKind, Outbound, RejectCode, Report, ReportKind, TradeTick,
};
use rowanchess::{Exchange, Refusal};

/// The same value in the library's type, or back.
pub trait Turn<T> {
    fn turn(self) -> T;
}

macro_rules! numbers {
    ($($number:ty)*) => {
        $(impl Turn<$number> for $number {
            fn turn(self) -> $number {
                self
            }
        })*
    };
}

numbers!(bool u16 u32 u64 i64);

impl<T: Turn<U>, U> Turn<Option<U>> for Option<T> {
    fn turn(self) -> Option<U> {
        self.map(Turn::turn)
    }
}

// Both ways for each type, which has one name in both.
macro_rules! enums {
    ($($module:ident $type:ident: $($case:ident $({ $($field:ident)* })? $(($inner:ident))?),*;)*) => {
        $(enums!(@turn $type, rowanchess::$module::$type: $($case $({ $($field)* })? $(($inner))?),*);)*
    };
    (@turn $ours:ident, $theirs:path: $($case:ident $({ $($field:ident)* })? $(($inner:ident))?),*) => {
        const _: () = {
            use $theirs as Theirs;
            impl Turn<Theirs> for $ours {
                fn turn(self) -> Theirs {
                    match self {
                        $($ours::$case $({ $($field),* })? $(($inner))? => Theirs::$case $({ $($field: $field.turn()),* })? $(($inner.turn()))?,)*
                    }
                }
            }
            impl Turn<$ours> for Theirs {
                fn turn(self) -> $ours {
                    match self {
                        $(Theirs::$case $({ $($field),* })? $(($inner))? => $ours::$case $({ $($field: $field.turn()),* })? $(($inner.turn()))?,)*
                    }
                }
            }
        };
    };
}

calls::published_enums!(enums);

macro_rules! structs {
    ($($module:ident $type:ident: $($field:ident)*;)*) => {
        $(structs!(@turn $type, rowanchess::$module::$type: $($field)*);)*
    };
    (@turn $ours:ident, $theirs:path: $($field:ident)*) => {
        const _: () = {
            use $theirs as Theirs;
            impl Turn<Theirs> for $ours {
                fn turn(self) -> Theirs {
                    Theirs { $($field: self.$field.turn()),* }
                }
            }
            impl Turn<$ours> for Theirs {
                fn turn(self) -> $ours {
                    $ours { $($field: self.$field.turn()),* }
                }
            }
        };
    };
}

calls::published_structs!(structs);

impl Turn<rowanchess::orderbook::Listed> for Listed {
    fn turn(self) -> rowanchess::orderbook::Listed {
        use rowanchess::orderbook::Listed as Theirs;
        match self {
            Listed::Order(o) => {
                Theirs::Order { id: o.id, owner: o.owner, side: o.side.turn(), price: o.price, leaves: o.leaves, visible: o.visible }
            }
            Listed::Stop(s) => Theirs::Stop { id: s.id, owner: s.owner, side: s.side.turn(), limit: s.limit, qty: s.qty },
        }
    }
}

impl<T: Turn<U>, U> Turn<Vec<U>> for Vec<T> {
    fn turn(self) -> Vec<U> {
        self.into_iter().map(Turn::turn).collect()
    }
}

fn all<T: Copy + Turn<U>, U>(items: &[T]) -> Vec<U> {
    items.iter().map(|&item| item.turn()).collect()
}

fn mail(mail: rowanchess::exchange::Mail) -> Mail {
    match mail {
        rowanchess::exchange::Mail::Send(session, message) => Mail::Send(session, message.turn()),
        rowanchess::exchange::Mail::Close(session) => Mail::Close(session),
    }
}

pub struct Library(Exchange);

impl Library {
    fn run(&mut self, call: &Call) -> Result<Seen, Refusal> {
        let exchange = &mut self.0;
        let mut mails: Vec<rowanchess::exchange::Mail> = Vec::new();
        let mut answer = Answer::Nothing;
        match call {
            Call::AddAccount(account) => exchange.add_account(account.turn())?,
            Call::Connect(session, now) => exchange.connect(*session, *now)?,
            Call::Collar(percent) => exchange.set_paper_collar(*percent),
            Call::Wallet(account) => answer = Answer::Wallet(self.wallet(*account)),
            Call::LastSeq => answer = Answer::Number(exchange.last_seq()),
            Call::Levels(side) => answer = Answer::Levels(self.levels(*side)),
            Call::Receive(session, message, now) => exchange.receive(*session, message.turn(), *now, &mut mails)?,
            Call::Tick(now) => exchange.tick(*now, &mut mails)?,
            Call::Publish => exchange.publish(&mut mails)?,
            Call::End(session, reason) => exchange.end(*session, reason.turn(), &mut mails)?,
            Call::ShutDown => exchange.shut_down(&mut mails)?,
            Call::Disconnect(session) => exchange.disconnect(*session)?,
            Call::Detach(session) => answer = Answer::Account(exchange.detach(*session)),
            Call::TakeBatch => {
                let mut commands = Vec::new();
                exchange.take_batch(&mut commands)?;
                answer = Answer::Commands(all(&commands));
            }
            Call::Deliver(number, event) => exchange.deliver(*number, event.turn(), &mut mails)?,
            Call::ReplayCommand(number, command) => exchange.replay_command(*number, command.turn())?,
            Call::ReplayEvent(number, event) => exchange.replay_event(*number, event.turn())?,
            Call::Finish(listing) => exchange.finish(&all(listing))?,
            Call::Checkpoint => answer = Answer::Bytes(exchange.checkpoint_bytes()?),
        }
        let reads = matches!(call, Call::Wallet(_) | Call::LastSeq | Call::Levels(_) | Call::Checkpoint);
        assert!(reads || self.0.mail().eq(mails.iter().copied()), "the mail of the last call is another");
        Ok(Seen::Sees(answer, mails.into_iter().map(mail).collect()))
    }

    /// A checkpoint's value, where it is accepted.
    pub fn saved(&self) -> Option<Checkpoint> {
        self.0.checkpoint().ok().turn()
    }
}

/// It lends its own lists, which are long enough, and takes no notice of the room.
impl Gateway for Library {
    fn start(start: &Start) -> Result<Library, u8> {
        let book = rowanchess::orderbook::BookConfig { max_owners: start.limit(), fee: start.fee() };
        let made = match start {
            Start::SetUp(_, _, last, accounts, listing, timing) => {
                Exchange::new(&book, &all(listing), *last, &all(accounts), timing.turn())
            }
            Start::Restore(_, _, accounts, timing, bytes) => {
                let (accounts, timing) = (all(accounts), timing.turn());
                // From the value too, where it has one.
                match decode(bytes).filter(|saved| saved.seq % 2 == 0) {
                    Some(saved) => Exchange::restore(&saved.turn(), &book, &accounts, timing),
                    None => Exchange::restore_bytes(bytes, &book, &accounts, timing),
                }
            }
        };
        made.map(Library).map_err(Refusal::code)
    }

    fn call(&mut self, call: &Call, _: usize) -> Option<Seen> {
        Some(self.run(call).unwrap_or_else(|refusal| Seen::Code(refusal.code())))
    }

    fn wallet(&self, account: u32) -> Option<Wallet> {
        self.0.wallet(account).turn()
    }

    fn last_seq(&self) -> u64 {
        self.0.last_seq()
    }

    fn levels(&self, side: Side) -> Vec<(i64, Level)> {
        let levels = self.0.depth().levels(side.turn()).expect("the list is long enough");
        levels.map(|(price, level)| (price, level.turn())).collect()
    }

    fn checkpoint(&self) -> Option<Vec<u8>> {
        self.0.checkpoint_bytes().ok()
    }
}
