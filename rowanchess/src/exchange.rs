//! The gateway itself, with the names of the published `gateway::exchange`.

use crate::accounts::Account;
use crate::marketdata::{Depth, Level};
use crate::orderbook::{BookConfig, Command, Event, Listed, OrderId, Price, Qty, Side};
use crate::protocol::{Inbound, LogoutReason, Outbound};
use crate::refusal::Refusal;
use crate::rows::{self, Code};
use crate::sys::{self, Reply, State};
use crate::wallet::Wallet;

/// The published `SetupError`, whose numbers document 01 drops.
pub use crate::refusal::Refusal as SetupError;

/// A command's number.
pub type Seq = u64;

/// A connection's handle, chosen by the network layer: below 64.
pub type SessionId = usize;

/// Where the exchange's messages go: the network layer.
pub trait Mailbox {
    /// Sends `message` to `session`.
    fn send(&mut self, session: SessionId, message: Outbound);
    /// Closes `session` once what was sent to it is written. The network layer then calls
    /// [`Exchange::disconnect`].
    fn close(&mut self, session: SessionId);
}

/// Drops what it is sent: for a caller that reads [`Exchange::mail`].
pub struct Nobody;

impl Mailbox for Nobody {
    fn send(&mut self, _: SessionId, _: Outbound) {}
    fn close(&mut self, _: SessionId) {}
}

/// A piece of mail: what a [`Mailbox`] is told.
#[derive(Clone, Copy, Debug, PartialEq, Eq)]
pub enum Mail {
    /// `send` to the session.
    Send(SessionId, Outbound),
    /// `close` the session.
    Close(SessionId),
}

/// Keeps what it is sent.
impl Mailbox for Vec<Mail> {
    fn send(&mut self, session: SessionId, message: Outbound) {
        self.push(Mail::Send(session, message));
    }

    fn close(&mut self, session: SessionId) {
        self.push(Mail::Close(session));
    }
}

/// Timing of sessions, in nanoseconds of whatever clock the caller passes in.
#[derive(Clone, Copy, Debug, PartialEq, Eq)]
pub struct Timing {
    /// A logged-in session that has been sent nothing for this long is sent a heartbeat.
    pub heartbeat: u64,
    /// A session that has sent nothing for this long is logged out.
    pub idle_timeout: u64,
}

impl Default for Timing {
    /// Heartbeats after one second of silence, logout after five.
    fn default() -> Self {
        Timing { heartbeat: 1_000_000_000, idle_timeout: 5_000_000_000 }
    }
}

/// What the exchange knows that the book does not, as of a command's number: the money of paper-trading accounts, and every open order's account
/// and client reference. Saved now and then, it lets a restart rebuild the exchange from the record after it.
#[derive(Clone, Debug, PartialEq, Eq)]
pub struct Checkpoint {
    /// The sequence number of the last command it reflects.
    pub seq: Seq,
    /// Paper-trading accounts' cash and positions, ascending by account; what their orders hold follows from the
    /// orders.
    pub wallets: Vec<SavedWallet>,
    /// The orders and pending stops on the book, ascending by id.
    pub orders: Vec<SavedOrder>,
    /// The market's price, near which paper accounts price their orders, if there was one:
    /// a restart does not lift the collar until the market trades again.
    pub market_price: Option<Price>,
}

/// A paper-trading account's cash and position, in a checkpoint.
#[derive(Clone, Copy, Debug, PartialEq, Eq)]
pub struct SavedWallet {
    /// The account.
    pub account: u32,
    /// Its cash.
    pub cash: i64,
    /// Its position.
    pub position: i64,
}

/// An open order, in a checkpoint.
#[derive(Clone, Copy, Debug, PartialEq, Eq)]
pub struct SavedOrder {
    /// Its id.
    pub id: OrderId,
    /// Its account.
    pub account: u32,
    /// The client's reference for it.
    pub client_ref: u64,
    /// Whether it buys.
    pub buy: bool,
    /// Its limit price, if it has one.
    pub price: Option<Price>,
    /// Its open quantity.
    pub leaves: Qty,
}

/// The orders in a checkpoint's bytes, 37 bytes each: a part of them, empty where they are no checkpoint.
///
/// ```
/// use rowanchess::exchange::order_section;
///
/// // No wallets, one order: number 2.
/// let mut saved = [0; 25 + 37];
/// saved[0] = 2;
/// saved[21] = 1;
/// saved[25] = 2;
/// assert_eq!(order_section(&saved)[0], 2);
/// assert_eq!(order_section(&saved).len(), 37);
/// assert_eq!(order_section(&saved[1..]), []);
/// ```
pub fn order_section(bytes: &[u8]) -> &[u8] {
    &bytes[sys::order_section(bytes)..]
}

/// Bytes of the longest checkpoint: 256 wallets and 1,024 orders.
const LONGEST: usize = 25 + 20 * 256 + 37 * 1_024;

/// Levels of a side, at most.
const LEVELS: usize = 512;

/// Rows lent at first. A batch has at most 256; `deliver` sends at most 64 messages (a phase change, to each session), `tick` and `shut_down` 128.
/// So only a login, a publishing and a subscription ever grow the list, and never past the crate's limit.
const PLACES: usize = 256;

/// The gateway's logic, in front of a matching engine that the caller runs.
///
/// Where a method names no refusals, document 01 has only `OutputTooShort` for its call, which does not come: the list of mail grows.
///
/// In the examples `exchange` has the owner limit 16, no booking fee, and two members, logged in at time 0: an agent, account 1, whose wallet has
/// 1,000 pence and 20 seats, on session 0; and a touring company without a wallet, account 2, on session 1. `order` makes the message of a limit
/// order.
pub struct Exchange {
    state: State,
    /// The lent list, and how many of its rows the last call sent.
    out: Vec<[u8; rows::MAIL]>,
    sent: usize,
}

fn done(code: u64) -> Result<(), Refusal> {
    match code {
        0 => Ok(()),
        code => Err(refusal(code)),
    }
}

#[cold]
fn refusal(code: u64) -> Refusal {
    Refusal::of(code).expect("a refusal's code")
}

impl Exchange {
    fn begun(state: Result<State, u64>) -> Result<Exchange, Refusal> {
        let state = state.map_err(refusal)?;
        Ok(Exchange { state, out: vec![[0; rows::MAIL]; PLACES], sent: 0 })
    }

    /// The state, for a call that sends nothing or has not sent yet.
    fn state(&mut self) -> &mut State {
        self.sent = 0;
        &mut self.state
    }

    /// The rows that `call` writes. Where they are more than places are lent, the call has changed nothing and is made again with twice as many.
    #[inline]
    fn rows(&mut self, mut call: impl FnMut(&mut State, &mut [u8]) -> Reply) -> Result<&[[u8; rows::MAIL]], Refusal> {
        self.sent = 0;
        loop {
            let reply = call(&mut self.state, self.out.as_flattened_mut());
            if reply.code == 0 {
                return Ok(&self.out[..reply.count]);
            }
            let refusal = refusal(reply.code);
            if refusal != Refusal::OutputTooShort {
                return Err(refusal);
            }
            self.out.resize(2 * self.out.len(), [0; rows::MAIL]);
        }
    }

    #[inline]
    fn post(
        &mut self,
        mail: &mut impl Mailbox,
        call: impl FnMut(&mut State, &mut [u8]) -> Reply,
    ) -> Result<(), Refusal> {
        let rows = self.rows(call)?;
        let sent = rows.len();
        for row in rows {
            let session = rows::session_of(row);
            if rows::is_close(row) {
                mail.close(session);
            } else {
                mail.send(session, rows::message_of(row));
            }
        }
        self.sent = sent;
        Ok(())
    }

    /// An exchange for `accounts`, in front of an engine whose recovered book, listed in `listing`, reflects the commands up to `last_seq`.
    /// The orders on the book are attributed to their accounts, without the client references they were placed with.
    ///
    /// Refused: `NegativeFee`, `Full`, `AccountOutOfRange`, `ForeignOrder`, `Inconsistent`, `OutsideType`.
    ///
    /// ```
    #[doc = include_str!("doc/opening.txt")]
    /// let listed = Listed::Order { id: 3, owner: 1, side: Side::Buy, price: 250, leaves: 2, visible: 2 };
    /// let exchange = Exchange::new(&book, &[listed], 3, &accounts, Timing::default())?;
    /// assert_eq!(exchange.wallet(1).unwrap().cash_held, 500);
    /// // The last number is 2: this order was not placed through a gateway.
    /// let refused = Exchange::new(&book, &[listed], 2, &accounts, Timing::default());
    /// assert_eq!(refused.err(), Some(Refusal::ForeignOrder));
    /// # Ok::<(), Refusal>(())
    /// ```
    ///
    /// With a booking fee a buy holds, and a fill takes from the buyer, the price and the fee for each seat:
    ///
    /// ```
    #[doc = include_str!("doc/opening.txt")]
    /// let book = BookConfig { fee: 10, ..book };
    /// let agent = Account { funds: Some(Funds { cash: 2_000, position: 0 }), ..agent };
    /// let offer = Listed::Order { id: 1, owner: 2, side: Side::Sell, price: 240, leaves: 2, visible: 2 };
    /// let mut exchange = Exchange::new(&book, &[offer], 1, &[agent, company], Timing::default())?;
    /// exchange.connect(0, 0)?;
    /// exchange.receive(0, Inbound::Login { version: VERSION, account: 1, token: 7 }, 0, &mut Nobody)?;
    /// exchange.receive(0, order(Side::Buy, 4, 250), 0, &mut Nobody)?;
    /// let wallet = exchange.wallet(1).unwrap();
    /// assert_eq!((wallet.cash, wallet.cash_held), (2_000, 1_040));
    /// let trade = Event::Trade {
    ///     trade_id: 1,
    ///     taker: 2,
    ///     maker: 1,
    ///     taker_side: Side::Buy,
    ///     price: 240,
    ///     qty: 2,
    ///     taker_leaves: 2,
    ///     maker_leaves: 0,
    /// };
    /// exchange.deliver(2, trade, &mut Nobody)?;
    /// let wallet = exchange.wallet(1).unwrap();
    /// assert_eq!((wallet.cash, wallet.cash_held), (1_500, 520));
    /// let refused = Exchange::new(&BookConfig { fee: -1, ..book }, &[], 0, &accounts, Timing::default());
    /// assert_eq!(refused.err(), Some(Refusal::NegativeFee));
    /// # Ok::<(), Refusal>(())
    /// ```
    pub fn new(
        book: &BookConfig,
        listing: &[Listed],
        last_seq: Seq,
        accounts: &[Account],
        timing: Timing,
    ) -> Result<Exchange, Refusal> {
        let timing = [timing.heartbeat, timing.idle_timeout];
        let (accounts, list) = (rows::accounts(accounts), rows::listing(listing));
        Exchange::begun(State::set_up(book.fee, book.max_owners.into(), last_seq, timing, &accounts, &list))
    }

    /// The exchange as `checkpoint` saved it, for `accounts`, in front of a book configured as `book`, with the same fee as before. The commands
    /// and events after it follow through [`replay_command`](Self::replay_command) and [`replay_event`](Self::replay_event), and
    /// [`finish`](Self::finish) ends the recovery.
    ///
    /// Refused: `NegativeFee`, `Malformed`, `Full`, `AccountOutOfRange`, `ForeignOrder`, `OutsideType`.
    ///
    /// ```
    #[doc = include_str!("doc/opening.txt")]
    /// let saved = Checkpoint {
    ///     seq: 3,
    ///     wallets: vec![SavedWallet { account: 1, cash: 700, position: 21 }],
    ///     orders: vec![SavedOrder { id: 2, account: 1, client_ref: 41, buy: true, price: Some(250), leaves: 2 }],
    ///     market_price: None,
    /// };
    /// let again = Exchange::restore(&saved, &book, &accounts, Timing::default())?;
    /// assert_eq!(again.checkpoint()?, saved);
    /// assert_eq!(again.wallet(1).unwrap().cash_held, 500);
    /// // Were the fee 10, the order would hold it too.
    /// let book = BookConfig { fee: 10, ..book };
    /// let again = Exchange::restore(&saved, &book, &accounts, Timing::default())?;
    /// assert_eq!(again.checkpoint()?, saved);
    /// assert_eq!(again.wallet(1).unwrap().cash_held, 520);
    /// # Ok::<(), Refusal>(())
    /// ```
    pub fn restore(
        checkpoint: &Checkpoint,
        book: &BookConfig,
        accounts: &[Account],
        timing: Timing,
    ) -> Result<Exchange, Refusal> {
        Exchange::restore_bytes(&rows::checkpoint(checkpoint), book, accounts, timing)
    }

    /// [`restore`](Self::restore) from the bytes of [`checkpoint_bytes`](Self::checkpoint_bytes).
    ///
    /// ```
    #[doc = include_str!("doc/opening.txt")]
    /// let saved = exchange.checkpoint_bytes()?;
    /// let again = Exchange::restore_bytes(&saved, &book, &accounts, Timing::default())?;
    /// assert_eq!(again.checkpoint_bytes()?, saved);
    /// let cut = Exchange::restore_bytes(&saved[1..], &book, &accounts, Timing::default());
    /// assert_eq!(cut.err(), Some(Refusal::Malformed));
    /// # Ok::<(), Refusal>(())
    /// ```
    pub fn restore_bytes(
        bytes: &[u8],
        book: &BookConfig,
        accounts: &[Account],
        timing: Timing,
    ) -> Result<Exchange, Refusal> {
        let timing = [timing.heartbeat, timing.idle_timeout];
        Exchange::begun(State::restore(book.fee, book.max_owners.into(), timing, &rows::accounts(accounts), bytes))
    }

    /// Keeps paper-trading accounts' limit orders within `percent` of the market's price: the last trade an account without funds took part in.
    /// Paper accounts trade freely before the market's first trade. Refuses nothing.
    ///
    /// ```
    #[doc = include_str!("doc/opening.txt")]
    /// exchange.set_paper_collar(Some(10));
    /// // Nothing has traded yet, so there is no price to keep near.
    /// exchange.receive(0, order(Side::Buy, 1, 900), 0, &mut Nobody)?;
    /// assert_eq!(exchange.mail().count(), 0);
    /// # Ok::<(), Refusal>(())
    /// ```
    pub fn set_paper_collar(&mut self, percent: Option<u32>) {
        self.state().set_paper_collar(percent);
    }

    /// The sequence number of the last command numbered: handed over, or still in the batch. Refuses nothing.
    ///
    /// ```
    #[doc = include_str!("doc/opening.txt")]
    /// exchange.receive(0, order(Side::Buy, 4, 250), 0, &mut Nobody)?;
    /// assert_eq!(exchange.last_seq(), 1);
    /// # Ok::<(), Refusal>(())
    /// ```
    pub fn last_seq(&self) -> Seq {
        self.state.last_seq()
    }

    /// Adds an account while the exchange runs.
    ///
    /// Refused: `AccountOutOfRange`, `AccountExists`, `LiveOrders`.
    ///
    /// ```
    #[doc = include_str!("doc/opening.txt")]
    /// exchange.add_account(Account { id: 3, ..agent })?;
    /// assert_eq!(exchange.add_account(Account { id: 3, ..agent }), Err(Refusal::AccountExists));
    /// assert_eq!(exchange.add_account(Account { id: 16, ..agent }), Err(Refusal::AccountOutOfRange));
    /// # Ok::<(), Refusal>(())
    /// ```
    pub fn add_account(&mut self, account: Account) -> Result<(), Refusal> {
        done(self.state().add_account(&rows::account(&account)))
    }

    /// A paper-trading account's wallet. Refuses nothing.
    ///
    /// ```
    #[doc = include_str!("doc/opening.txt")]
    /// exchange.receive(0, order(Side::Buy, 4, 250), 0, &mut Nobody)?;
    /// let wallet = exchange.wallet(1).unwrap();
    /// assert_eq!((wallet.cash, wallet.cash_held), (1_000, 1_000));
    /// // A company's orders are not checked against money.
    /// assert_eq!(exchange.wallet(2), None);
    /// # Ok::<(), Refusal>(())
    /// ```
    pub fn wallet(&self, account: u32) -> Option<Wallet> {
        let [cash, position, cash_held, position_held] = self.state.wallet(account)?;
        Some(Wallet { cash, position, cash_held, position_held })
    }

    /// The book's depth, as the delivered events left it: `exchange.depth().levels(side)`.
    ///
    /// ```
    #[doc = include_str!("doc/opening.txt")]
    /// exchange.receive(0, order(Side::Buy, 4, 250), 0, &mut Nobody)?;
    /// exchange.deliver(1, Event::Rested { id: 1, side: Side::Buy, price: 250, qty: 4, visible: 4 }, &mut Nobody)?;
    /// let bids: Vec<_> = exchange.depth().levels(Side::Buy)?.collect();
    /// assert_eq!(bids, [(250, Level { qty: 4, orders: 1 })]);
    /// # Ok::<(), Refusal>(())
    /// ```
    pub fn depth(&self) -> Depth<'_> {
        Depth { exchange: self }
    }

    pub(crate) fn levels(&self, side: Side) -> Result<impl Iterator<Item = (Price, Level)> + use<>, Refusal> {
        let mut out = vec![[0; rows::LEVEL]; LEVELS];
        let reply = self.state.levels(side.code(), out.as_flattened_mut());
        done(reply.code)?;
        Ok(out.into_iter().take(reply.count).map(rows::level_of))
    }

    /// The exchange's state, if every command numbered has had all its events delivered.
    ///
    /// Refused: `NotQuiet`.
    ///
    /// ```
    #[doc = include_str!("doc/opening.txt")]
    /// exchange.receive(0, order(Side::Buy, 4, 250), 0, &mut Nobody)?;
    /// assert_eq!(exchange.checkpoint(), Err(Refusal::NotQuiet));
    /// exchange.take_batch(&mut Vec::new())?;
    /// exchange.deliver(1, Event::Rested { id: 1, side: Side::Buy, price: 250, qty: 4, visible: 4 }, &mut Nobody)?;
    /// let saved = exchange.checkpoint()?;
    /// assert_eq!((saved.seq, saved.orders[0].client_ref), (1, 41));
    /// assert_eq!(saved.wallets, [SavedWallet { account: 1, cash: 1_000, position: 20 }]);
    /// # Ok::<(), Refusal>(())
    /// ```
    pub fn checkpoint(&self) -> Result<Checkpoint, Refusal> {
        Ok(rows::checkpoint_of(&self.checkpoint_bytes()?))
    }

    /// The same, as document 01's bytes: at most 43,033.
    ///
    /// ```
    #[doc = include_str!("doc/opening.txt")]
    /// let bytes = exchange.checkpoint_bytes()?;
    /// assert_eq!(bytes.len(), 25 + 20); // one wallet, no orders
    /// # Ok::<(), Refusal>(())
    /// ```
    pub fn checkpoint_bytes(&self) -> Result<Vec<u8>, Refusal> {
        let mut bytes = vec![0; LONGEST];
        let reply = self.state.checkpoint(&mut bytes);
        done(reply.code)?;
        bytes.truncate(reply.count);
        Ok(bytes)
    }

    /// A command after the checkpoint, as recovery replays it: numbered and tracked as if it had just been handed over. Its client reference was
    /// not recorded, and is lost.
    ///
    /// Refused: `Sequence`, `Inconsistent`, `AccountOutOfRange`, `Full`, `OutsideType`.
    ///
    /// ```
    #[doc = include_str!("doc/opening.txt")]
    /// let saved = exchange.checkpoint()?;
    /// let mut again = Exchange::restore(&saved, &book, &accounts, Timing::default())?;
    /// let limit = Command::Limit { id: 1, owner: 1, side: Side::Buy, price: 250, qty: 4, tif: TimeInForce::Gtc, display: None };
    /// again.replay_command(1, limit)?;
    /// assert_eq!(again.wallet(1).unwrap().cash_held, 1_000);
    /// assert_eq!(again.replay_command(1, limit), Err(Refusal::Sequence));
    /// # Ok::<(), Refusal>(())
    /// ```
    pub fn replay_command(&mut self, seq: Seq, command: Command) -> Result<(), Refusal> {
        done(self.state().replay_command(seq, &rows::command(command)))
    }

    /// An event after the checkpoint, as recovery replays it. The depth stays as it is until [`finish`](Self::finish).
    ///
    /// Refused: `Sequence`, `AccountOutOfRange`, `Inconsistent`, `OutsideType`.
    ///
    /// ```
    #[doc = include_str!("doc/opening.txt")]
    /// let saved = exchange.checkpoint()?;
    /// let mut again = Exchange::restore(&saved, &book, &accounts, Timing::default())?;
    /// again.replay_command(1, Command::Market { id: 1, owner: 2, side: Side::Buy, qty: 4 })?;
    /// again.replay_event(1, Event::Cancelled { id: 1, qty: 4, reason: CancelReason::NoLiquidity })?;
    /// again.finish(&[])?;
    /// # Ok::<(), Refusal>(())
    /// ```
    pub fn replay_event(&mut self, seq: Seq, event: Event) -> Result<(), Refusal> {
        done(self.state().replay_event(seq, &rows::event(event)))
    }

    /// Ends a recovery: the depth is taken from the book's `listing`, and the orders the exchange knows must be exactly those in it, with the
    /// same open quantities.
    ///
    /// Refused: `Inconsistent`, `Full`, `OutsideType`.
    ///
    /// ```
    #[doc = include_str!("doc/opening.txt")]
    /// let saved = exchange.checkpoint()?;
    /// let mut again = Exchange::restore(&saved, &book, &accounts, Timing::default())?;
    /// let limit = Command::Limit { id: 1, owner: 1, side: Side::Buy, price: 250, qty: 4, tif: TimeInForce::Gtc, display: None };
    /// again.replay_command(1, limit)?;
    /// assert_eq!(again.finish(&[]), Err(Refusal::Inconsistent));
    /// again.finish(&[Listed::Order { id: 1, owner: 1, side: Side::Buy, price: 250, leaves: 4, visible: 4 }])?;
    /// assert_eq!(again.depth().levels(Side::Buy)?.count(), 1);
    /// # Ok::<(), Refusal>(())
    /// ```
    pub fn finish(&mut self, listing: &[Listed]) -> Result<(), Refusal> {
        done(self.state().finish(&rows::listing(listing)))
    }

    /// A new connection.
    ///
    /// Refused: `Session`.
    ///
    /// ```
    #[doc = include_str!("doc/opening.txt")]
    /// exchange.connect(63, 5)?;
    /// assert_eq!(exchange.connect(63, 5), Err(Refusal::Session));
    /// assert_eq!(exchange.connect(64, 5), Err(Refusal::Session));
    /// # Ok::<(), Refusal>(())
    /// ```
    pub fn connect(&mut self, session: SessionId, now: u64) -> Result<(), Refusal> {
        done(self.state().connect(session, now))
    }

    /// A message from `session`. Order-entry messages wait in the batch until [`take_batch`](Self::take_batch).
    ///
    /// ```
    #[doc = include_str!("doc/opening.txt")]
    /// let mut mail = Vec::new();
    /// exchange.receive(0, order(Side::Buy, 5, 250), 0, &mut mail)?;
    /// let reason = RejectCode::InsufficientFunds;
    /// assert_eq!(mail, [Mail::Send(0, Outbound::Reject { reason, client_ref: 41 })]);
    /// # Ok::<(), Refusal>(())
    /// ```
    pub fn receive(
        &mut self,
        session: SessionId,
        message: Inbound,
        now: u64,
        mail: &mut impl Mailbox,
    ) -> Result<(), Refusal> {
        let row = rows::message(message);
        self.post(mail, |state, out| state.receive(session, &row, now, out))
    }

    /// A connection has closed. A logged-in account's orders are cancelled: a client that is gone cannot manage them.
    ///
    /// Refused: `Full`.
    ///
    /// ```
    #[doc = include_str!("doc/opening.txt")]
    /// exchange.disconnect(0)?;
    /// let mut batch = Vec::new();
    /// exchange.take_batch(&mut batch)?;
    /// assert_eq!(batch, [Command::CancelAll { owner: 1 }]);
    /// # Ok::<(), Refusal>(())
    /// ```
    pub fn disconnect(&mut self, session: SessionId) -> Result<(), Refusal> {
        done(self.state().disconnect(session))
    }

    /// A connection has closed because the gateway is stopping: the account's orders stay on the book, as they would if the gateway crashed.
    /// Returns the account that was logged in. Refuses nothing.
    ///
    /// ```
    #[doc = include_str!("doc/opening.txt")]
    /// assert_eq!(exchange.detach(0), Some(1));
    /// assert_eq!(exchange.detach(0), None);
    /// # Ok::<(), Refusal>(())
    /// ```
    pub fn detach(&mut self, session: SessionId) -> Option<u32> {
        self.state().detach(session)
    }

    /// Hands the batch over, at the end of `into`. The commands are numbered from the last one handed over plus one, and their events must come
    /// back, through [`deliver`](Self::deliver), in sequence order.
    ///
    /// ```
    #[doc = include_str!("doc/opening.txt")]
    /// exchange.receive(0, order(Side::Buy, 4, 250), 0, &mut Nobody)?;
    /// exchange.receive(1, Inbound::Cancel { order_id: 9 }, 0, &mut Nobody)?;
    /// let mut batch = Vec::new();
    /// exchange.take_batch(&mut batch)?;
    /// assert_eq!(batch[0].id(), Some(1));
    /// assert_eq!(batch[1], Command::Cancel { id: 9, owner: 2 });
    /// # Ok::<(), Refusal>(())
    /// ```
    pub fn take_batch(&mut self, into: &mut Vec<Command>) -> Result<(), Refusal> {
        let rows = self.rows(|state, out| state.take_batch(out))?;
        into.extend(rows.iter().map(rows::command_of));
        Ok(())
    }

    /// Sends the subscribed sessions what changed in the market since the last call: the trades, then the levels that changed, as they are now,
    /// all under the sequence number of the last command delivered; and before that to members what their wallets have.
    ///
    /// ```
    #[doc = include_str!("doc/opening.txt")]
    /// exchange.receive(1, Inbound::Subscribe, 0, &mut Nobody)?;
    /// exchange.receive(0, order(Side::Sell, 4, 250), 0, &mut Nobody)?;
    /// exchange.deliver(1, Event::Rested { id: 1, side: Side::Sell, price: 250, qty: 4, visible: 4 }, &mut Nobody)?;
    /// exchange.publish(&mut Nobody)?;
    /// let balance = exchange.wallet(1).unwrap().balance();
    /// let level = LevelUpdate { seq: 1, side: Side::Sell, price: 250, qty: 4, orders: 1 };
    /// let sent = [Mail::Send(0, Outbound::Balance(balance)), Mail::Send(1, Outbound::LevelUpdate(level))];
    /// assert!(exchange.mail().eq(sent));
    /// # Ok::<(), Refusal>(())
    /// ```
    pub fn publish(&mut self, mail: &mut impl Mailbox) -> Result<(), Refusal> {
        self.post(mail, |state, out| state.publish(out))
    }

    /// The engine failed and takes no more commands: every session is logged out, and the gateway should stop.
    ///
    /// ```
    #[doc = include_str!("doc/opening.txt")]
    /// exchange.shut_down(&mut Nobody)?;
    /// let closed = exchange.mail().filter(|mail| matches!(mail, Mail::Close(_)));
    /// assert_eq!(closed.count(), 2);
    /// # Ok::<(), Refusal>(())
    /// ```
    pub fn shut_down(&mut self, mail: &mut impl Mailbox) -> Result<(), Refusal> {
        self.post(mail, |state, out| state.shut_down(out))
    }

    /// Sends heartbeats to quiet sessions and logs out idle ones.
    ///
    /// ```
    #[doc = include_str!("doc/opening.txt")]
    /// exchange.tick(1_000_000_000, &mut Nobody)?;
    /// assert!(exchange.mail().eq([0, 1].map(|session| Mail::Send(session, Outbound::Heartbeat))));
    /// # Ok::<(), Refusal>(())
    /// ```
    pub fn tick(&mut self, now: u64, mail: &mut impl Mailbox) -> Result<(), Refusal> {
        self.post(mail, |state, out| state.tick(now, out))
    }

    /// Ends a session because its connection misbehaved: it sent bytes that do not decode, or does not read what it is sent.
    ///
    /// ```
    #[doc = include_str!("doc/opening.txt")]
    /// let reason = LogoutReason::SlowConsumer;
    /// exchange.end(1, reason, &mut Nobody)?;
    /// assert!(exchange.mail().eq([Mail::Send(1, Outbound::Logout { reason }), Mail::Close(1)]));
    /// # Ok::<(), Refusal>(())
    /// ```
    pub fn end(&mut self, session: SessionId, reason: LogoutReason, mail: &mut impl Mailbox) -> Result<(), Refusal> {
        self.post(mail, |state, out| state.end(session, reason.code() as u8, out))
    }

    /// An event of the book, about the command handed over under `seq`: reports it to the sessions it concerns. Events must come in sequence
    /// order.
    ///
    /// Refused: `Sequence`, `AccountOutOfRange`, `Inconsistent`, `OutsideType`, `Full`.
    ///
    /// ```
    #[doc = include_str!("doc/opening.txt")]
    /// exchange.receive(1, order(Side::Sell, 4, 250), 0, &mut Nobody)?;
    /// exchange.receive(0, order(Side::Buy, 3, 250), 0, &mut Nobody)?;
    /// exchange.take_batch(&mut Vec::new())?;
    /// exchange.deliver(1, Event::Rested { id: 1, side: Side::Sell, price: 250, qty: 4, visible: 4 }, &mut Nobody)?;
    /// let trade = Event::Trade {
    ///     trade_id: 1,
    ///     taker: 2,
    ///     maker: 1,
    ///     taker_side: Side::Buy,
    ///     price: 250,
    ///     qty: 3,
    ///     taker_leaves: 0,
    ///     maker_leaves: 1,
    /// };
    /// exchange.deliver(2, trade, &mut Nobody)?;
    /// assert_eq!(exchange.mail().count(), 2); // a fill for each
    /// let wallet = exchange.wallet(1).unwrap();
    /// assert_eq!((wallet.cash, wallet.position, wallet.cash_held), (250, 23, 0));
    /// assert_eq!(exchange.deliver(2, trade, &mut Nobody), Err(Refusal::Inconsistent)); // one seat is left
    /// assert_eq!(exchange.deliver(3, trade, &mut Nobody), Err(Refusal::Sequence));
    /// # Ok::<(), Refusal>(())
    /// ```
    #[inline]
    pub fn deliver(&mut self, seq: Seq, event: Event, mail: &mut impl Mailbox) -> Result<(), Refusal> {
        let row = rows::event(event);
        self.post(mail, |state, out| state.deliver(seq, &row, out))
    }

    /// What the last call that takes `&mut self` sent, once more: nothing after a refused call and after one that sends nothing. A call that only
    /// reads leaves it as it is.
    ///
    /// ```
    #[doc = include_str!("doc/opening.txt")]
    /// exchange.receive(0, Inbound::Logout, 0, &mut Nobody)?;
    /// for mail in exchange.mail() {
    ///     match mail {
    ///         Mail::Send(session, message) => println!("to {session}: {message:?}"),
    ///         Mail::Close(session) => println!("close {session}"),
    ///     }
    /// }
    /// assert_eq!(exchange.mail().len(), 2);
    /// exchange.connect(2, 0)?;
    /// assert_eq!(exchange.mail().len(), 0);
    /// # Ok::<(), Refusal>(())
    /// ```
    pub fn mail(&self) -> impl ExactSizeIterator<Item = Mail> + '_ {
        self.out[..self.sent].iter().map(rows::mail_of)
    }
}
