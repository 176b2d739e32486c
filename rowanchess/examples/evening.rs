//! An evening at the seat exchange, from the opening to a power cut and the restart. Prices are pence a seat, quantities seats.
//!
//! The host is three things: the gateway, a small engine that matches limit orders by price and time, and a record of all that joined the gateway
//! since its last checkpoint. After the cut the checkpoint's bytes and the record make the same gateway again. Agents pay the house a booking fee
//! for each seat that they buy.

use rowanchess::accounts::{Account, Funds};
use rowanchess::exchange::{Mailbox, SessionId, Timing};
use rowanchess::orderbook::{BookConfig, CancelReason, Command, Event, Listed, RejectReason, Side, TimeInForce};
use rowanchess::protocol::{Inbound, NewOrder, OrderKind, Outbound, VERSION};
use rowanchess::{Exchange, Refusal};

// ---- the engine

#[derive(Clone, Copy)]
struct Resting {
    id: u64,
    owner: u32,
    side: Side,
    price: i64,
    leaves: u64,
}

#[derive(Clone, Copy)]
struct Sale {
    buyer: u32,
    seller: u32,
    price: i64,
    seats: i64,
}

/// Resting orders and the evening's sales, the oldest first.
#[derive(Clone, Default)]
struct Book {
    orders: Vec<Resting>,
    sales: Vec<Sale>,
}

impl Book {
    fn apply(&mut self, command: Command) -> Vec<Event> {
        match command {
            Command::Limit { id, owner, side, price, qty: leaves, .. } => {
                self.limit(Resting { id, owner, side, price, leaves })
            }
            Command::Cancel { id, owner } => match self.orders.iter().position(|o| (o.id, o.owner) == (id, owner)) {
                Some(at) => vec![cancelled(self.orders.remove(at), CancelReason::Requested)],
                None => vec![Event::Rejected { id, reason: RejectReason::UnknownOrder }],
            },
            Command::CancelAll { owner } => {
                let gone = self.orders.extract_if(.., |o| o.owner == owner);
                let mut events: Vec<Event> = gone.map(|o| cancelled(o, CancelReason::MassCancel)).collect();
                events.push(Event::MassCancelled { owner, count: events.len() as u32 });
                events
            }
            _ => unreachable!("this evening has limit orders and cancels only"),
        }
    }

    fn limit(&mut self, mut taker: Resting) -> Vec<Event> {
        let mut events = vec![Event::Accepted { id: taker.id }];
        while taker.leaves > 0 {
            let Some(at) = self.best(&taker) else { break };
            let maker = &mut self.orders[at];
            let qty = taker.leaves.min(maker.leaves);
            taker.leaves -= qty;
            maker.leaves -= qty;
            let (buyer, seller) = match taker.side {
                Side::Buy => (taker.owner, maker.owner),
                Side::Sell => (maker.owner, taker.owner),
            };
            self.sales.push(Sale { buyer, seller, price: maker.price, seats: qty as i64 });
            events.push(Event::Trade {
                trade_id: self.sales.len() as u64,
                taker: taker.id,
                maker: maker.id,
                taker_side: taker.side,
                price: maker.price,
                qty,
                taker_leaves: taker.leaves,
                maker_leaves: maker.leaves,
            });
            self.orders.retain(|o| o.leaves > 0);
        }
        if taker.leaves > 0 {
            let Resting { id, side, price, leaves, .. } = taker;
            events.push(Event::Rested { id, side, price, qty: leaves, visible: leaves });
            self.orders.push(taker);
        }
        events
    }

    /// The order that `taker` trades with next: the best price, then the oldest.
    fn best(&self, taker: &Resting) -> Option<usize> {
        let gain = |o: &Resting| match taker.side {
            Side::Buy => taker.price - o.price,
            Side::Sell => o.price - taker.price,
        };
        let others = self.orders.iter().enumerate().filter(|(_, o)| o.side != taker.side && gain(o) >= 0);
        others.min_by_key(|&(at, o)| (-gain(o), at)).map(|(at, _)| at)
    }

    fn listing(&self) -> Vec<Listed> {
        let listed = |o: &Resting| {
            let Resting { id, owner, side, price, leaves } = *o;
            Listed::Order { id, owner, side, price, leaves, visible: leaves }
        };
        self.orders.iter().map(listed).collect()
    }
}

fn cancelled(order: Resting, reason: CancelReason) -> Event {
    Event::Cancelled { id: order.id, qty: order.leaves, reason }
}

// ---- the members: two touring companies, whose orders are not checked against money, and agents with wallets of pence and seats

const NAMES: [&str; 5] = ["Lantern Players", "Marsh Circus", "Agent Birch", "Agent Hazel", "Agent Rowan"];
const CONFIG: BookConfig = BookConfig { max_owners: 16, fee: 50 };

fn account(member: usize, funds: Option<Funds>) -> Account {
    Account { id: member as u32, token: 1_000 + member as u64, max_open_orders: 8, messages_per_second: 100, funds }
}

/// Session numbers are the members' own. What they are sent is printed.
struct Console;

impl Mailbox for Console {
    fn send(&mut self, session: SessionId, message: Outbound) {
        let text = match message {
            Outbound::Report(r) => format!("order {}: {:?}", r.order_id, r.kind),
            Outbound::Balance(balance) => format!("{balance:?}"),
            Outbound::LevelUpdate(level) => format!("{level:?}"),
            Outbound::TradeTick(trade) => format!("{trade:?}"),
            other => format!("{other:?}"),
        };
        println!("    to {}: {text}", NAMES[session]);
    }

    /// Nobody is thrown out this evening.
    fn close(&mut self, _: SessionId) {}
}

// ---- the host

/// What joined the gateway since the checkpoint.
enum Item {
    Account(Account),
    Command(u64, Command),
    Event(u64, Event),
}

struct Host {
    exchange: Exchange,
    book: Book,
    record: Vec<Item>,
    now: u64,
}

impl Host {
    fn says(&mut self, member: usize, what: &str, message: Inbound) -> Result<(), Refusal> {
        println!("{}: {what}", NAMES[member]);
        self.now += 50_000_000;
        self.exchange.receive(member, message, self.now, &mut Console)
    }

    fn arrives(&mut self, member: usize) -> Result<(), Refusal> {
        self.exchange.connect(member, self.now)?;
        let Account { id, token, .. } = account(member, None);
        self.says(member, "logs in", Inbound::Login { version: VERSION, account: id, token })
    }

    /// A limit order, matched at once.
    fn order(&mut self, member: usize, side: Side, qty: u64, price: i64) -> Result<(), Refusal> {
        let kind = OrderKind::Limit { price, tif: TimeInForce::Gtc, display: None };
        let order = NewOrder { client_ref: 100 + self.exchange.last_seq(), side, qty, kind };
        self.says(member, &format!("{side:?} {qty} at {price}"), Inbound::NewOrder(order))?;
        self.round()
    }

    /// The batch goes to the engine, its events come back, and what changed is published.
    fn round(&mut self) -> Result<(), Refusal> {
        let mut batch = Vec::new();
        self.exchange.take_batch(&mut batch)?;
        let first = self.exchange.last_seq() + 1 - batch.len() as u64;
        for (seq, command) in (first..).zip(batch) {
            self.record.push(Item::Command(seq, command));
            for event in self.book.apply(command) {
                self.exchange.deliver(seq, event, &mut Console)?;
                self.record.push(Item::Event(seq, event));
            }
        }
        self.exchange.publish(&mut Console)
    }
}

/// What the house and the companies took from the agents' wallets, by the sales. A company has no wallet: it pays no fee through the gateway.
fn takings(exchange: &Exchange, sales: &[Sale]) -> (i64, i64) {
    let is_agent = |member| exchange.wallet(member).is_some();
    let (mut house, mut companies) = (0, 0);
    for sale in sales {
        if is_agent(sale.buyer) {
            house += CONFIG.fee * sale.seats;
        } else {
            companies -= sale.price * sale.seats;
        }
        if !is_agent(sale.seller) {
            companies += sale.price * sale.seats;
        }
    }
    (house, companies)
}

/// Prints wallets, what the house took, and depth, and returns what it printed.
fn print(title: &str, exchange: &Exchange, book: &Book) -> Result<String, Refusal> {
    let mut table = format!("  {:<16}{:>8}{:>8}{:>8}{:>8}\n", "wallet", "pence", "held", "seats", "held");
    for (member, name) in (0..).zip(NAMES) {
        if let Some(w) = exchange.wallet(member) {
            table += &format!("  {name:<16}{:>8}{:>8}{:>8}{:>8}\n", w.cash, w.cash_held, w.position, w.position_held);
        }
    }
    table += &format!("  {:<16}{:>8}\n", "the house", takings(exchange, &book.sales).0);
    for (side, name) in [(Side::Buy, "bid"), (Side::Sell, "ask")] {
        for (price, level) in exchange.depth().levels(side)? {
            table += &format!("  {name:<16}{price:>8}{:>8} seats, orders: {}\n", level.qty, level.orders);
        }
    }
    println!("\n{title}\n{table}");
    Ok(table)
}

fn main() -> Result<(), Refusal> {
    let [lantern, marsh, birch, hazel, rowan] = [0, 1, 2, 3, 4];
    let agent = |member, cash, position| account(member, Some(Funds { cash, position }));
    let company = |member| account(member, None);
    let accounts = [company(lantern), company(marsh), agent(birch, 60_000, 0), agent(hazel, 30_000, 10)];

    println!("== The exchange opens, with a booking fee of {} pence a seat ==", CONFIG.fee);
    let exchange = Exchange::new(&CONFIG, &[], 0, &accounts, Timing::default())?;
    let mut host = Host { exchange, book: Book::default(), record: Vec::new(), now: 0 };
    host.exchange.set_paper_collar(Some(20));
    for member in [lantern, marsh, birch, hazel] {
        host.arrives(member)?;
    }
    host.says(hazel, "subscribes", Inbound::Subscribe)?;
    host.order(lantern, Side::Sell, 40, 2_500)?;
    host.order(marsh, Side::Sell, 20, 2_450)?;
    host.order(birch, Side::Buy, 12, 2_450)?;
    host.order(birch, Side::Buy, 2, 4_000)?;
    host.order(hazel, Side::Buy, 12, 2_480)?; // 29,760 pence, and 600 for the house
    host.order(hazel, Side::Sell, 5, 2_600)?;
    host.order(birch, Side::Buy, 10, 2_500)?;
    print("At half past seven:", &host.exchange, &host.book)?;

    let saved = host.exchange.checkpoint_bytes()?;
    let mut book = host.book.clone(); // the engine's own
    host.record.clear();
    println!("== A checkpoint of {} bytes; from here on the host keeps a record ==", saved.len());
    let late = agent(rowan, 20_000, 5);
    host.exchange.add_account(late)?;
    host.record.push(Item::Account(late));
    host.arrives(rowan)?;
    host.order(rowan, Side::Buy, 4, 2_500)?;
    host.says(hazel, "cancels order 4", Inbound::Cancel { order_id: 4 })?;
    host.order(marsh, Side::Sell, 8, 2_550)?;
    host.order(birch, Side::Sell, 6, 2_480)?;
    host.order(rowan, Side::Buy, 3, 2_480)?;
    host.order(hazel, Side::Buy, 5, 2_400)?;
    println!("{} leaves, and its orders are cancelled", NAMES[marsh]);
    host.exchange.disconnect(marsh)?;
    host.round()?;
    let before = print("At nine, before the power cut:", &host.exchange, &host.book)?;
    // What the agents brought is in their wallets still, or went to the house or to the companies.
    let brought: i64 = accounts.iter().chain([&late]).filter_map(|a| a.funds).map(|funds| funds.cash).sum();
    let kept: i64 = (0..CONFIG.max_owners).filter_map(|member| host.exchange.wallet(member)).map(|w| w.cash).sum();
    let (house, companies) = takings(&host.exchange, &host.book.sales);
    assert_eq!(brought, kept + house + companies);

    let Host { record, now, .. } = host;
    println!("== The power is cut; left are {} bytes, and {} items of the record ==", saved.len(), record.len());
    let mut exchange = Exchange::restore_bytes(&saved, &CONFIG, &accounts, Timing::default())?;
    for item in &record {
        match *item {
            Item::Account(account) => exchange.add_account(account)?,
            Item::Command(seq, command) => {
                exchange.replay_command(seq, command)?;
                book.apply(command);
            }
            Item::Event(seq, event) => exchange.replay_event(seq, event)?,
        }
    }
    exchange.finish(&book.listing())?;
    let after = print("After the restart:", &exchange, &book)?;
    assert_eq!(before, after);
    println!("== The tables are equal ==");
    Host { exchange, book, record, now }.arrives(birch)
}
