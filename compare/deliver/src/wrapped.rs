//! The crate `rowanchess`: the proved library behind the published names.

use std::hint::black_box;

use rowanchess::accounts::{Account, Funds};
use rowanchess::exchange::{Exchange, Mailbox, SessionId, Timing};
use rowanchess::orderbook::{BookConfig, Event, TimeInForce};
use rowanchess::protocol::{Inbound, NewOrder, OrderKind, Outbound, VERSION};
use scale::library::Turn;

use crate::column::{Column, FEE, TOKEN, funds};
use crate::draw::{Message, SESSIONS};

/// Each message is made and seen; the entry points alone leave rows.
#[derive(Default)]
struct Mail(usize);

impl Mailbox for Mail {
    fn send(&mut self, session: SessionId, message: Outbound) {
        black_box((session, &message));
        self.0 += 1;
    }

    fn close(&mut self, _: SessionId) {}
}

pub struct Wrapped {
    exchange: Exchange,
    mail: Mail,
    pub refused: usize,
}

/// An event in the crate's own type.
#[derive(Clone, Copy)]
pub struct Made(Event);

impl From<orderbook::Event> for Made {
    fn from(event: orderbook::Event) -> Made {
        Made(event.turn())
    }
}

impl Wrapped {
    pub fn new() -> Wrapped {
        let account = |id: u32| Account {
            id,
            token: TOKEN,
            max_open_orders: 1_024,
            messages_per_second: u32::MAX,
            funds: funds(id as usize).map(|(cash, position)| Funds { cash, position }),
        };
        let accounts: Vec<Account> = (0..SESSIONS as u32).map(account).collect();
        let timing = Timing { heartbeat: u64::MAX, idle_timeout: u64::MAX };
        let exchange = Exchange::new(&BookConfig { max_owners: 256, fee: FEE }, &[], 0, &accounts, timing);
        let mut column = Wrapped { exchange: exchange.expect("accounts in range"), mail: Mail::default(), refused: 0 };
        for session in 0..SESSIONS {
            column.exchange.connect(session, 0).expect("a session");
            let account = session as u32;
            let token = TOKEN;
            column.message(session, Inbound::Login { version: VERSION, account, token }, 0);
            column.message(session, Inbound::Subscribe, 0);
        }
        column.mail.0 = 0;
        column
    }

    fn message(&mut self, session: usize, message: Inbound, now: u64) {
        let done = self.exchange.receive(session, message, now, &mut self.mail);
        self.refused += usize::from(done.is_err());
    }
}

impl Column for Wrapped {
    type Event = Made;

    fn receive(&mut self, session: usize, message: Message, now: u64) {
        match message {
            Message::New { side, price, qty } => {
                let kind = OrderKind::Limit { price, tif: TimeInForce::Gtc, display: None };
                let order = NewOrder { client_ref: now, side: side.turn(), qty, kind };
                self.message(session, Inbound::NewOrder(order), now);
            }
            Message::Cancel { id } => self.message(session, Inbound::Cancel { order_id: id }, now),
        }
    }

    fn take_batch(&mut self) -> usize {
        let mut batch = Vec::new();
        let done = self.exchange.take_batch(&mut batch);
        self.refused += usize::from(done.is_err());
        batch.len()
    }

    fn deliver(&mut self, n: u64, Made(event): &Made) {
        let done = self.exchange.deliver(n, *event, &mut self.mail);
        self.refused += usize::from(done.is_err());
    }

    fn publish(&mut self) -> usize {
        let done = self.exchange.publish(&mut self.mail);
        self.refused += usize::from(done.is_err());
        std::mem::take(&mut self.mail.0)
    }

    fn wallets(&self) -> Vec<[i64; 4]> {
        let wallets = (0..SESSIONS as u32).filter_map(|a| self.exchange.wallet(a));
        wallets.map(|w| [w.cash, w.position, w.cash_held, w.position_held]).collect()
    }
}
