//! The published `Exchange`, unchanged.

use gateway::accounts::{Account, Funds};
use gateway::exchange::{Exchange, Mailbox, SessionId, Timing};
use orderbook::{BookConfig, Event, OrderBook, TimeInForce};
use protocol::{Inbound, NewOrder, OrderKind, Outbound};

use crate::column::{Column, TOKEN, funds};
use crate::draw::{Message, SESSIONS};

#[derive(Default)]
struct Mail(Vec<(SessionId, Outbound)>);

impl Mailbox for Mail {
    fn send(&mut self, session: SessionId, message: Outbound) {
        self.0.push((session, message));
    }

    fn close(&mut self, _: SessionId) {}
}

pub struct Published {
    exchange: Exchange,
    mail: Mail,
}

impl Published {
    pub fn new() -> Published {
        let accounts: Vec<Account> = (0..SESSIONS as u32)
            .map(|id| Account {
                id,
                token: TOKEN,
                max_open_orders: 1_024,
                messages_per_second: u32::MAX,
                funds: funds(id as usize).map(|(cash, position)| Funds { cash, position }),
            })
            .collect();
        let book = OrderBook { config: BookConfig { max_owners: 256 }, orders: Vec::new(), stops: Vec::new() };
        let timing = Timing { heartbeat: u64::MAX, idle_timeout: u64::MAX };
        let exchange = Exchange::new(&book, 0, &accounts, timing).expect("accounts in range");
        let mut column = Published { exchange, mail: Mail::default() };
        for session in 0..SESSIONS {
            column.exchange.connect(session, 0);
            let login = Inbound::Login { version: 1, account: session as u32, token: TOKEN };
            column.exchange.receive(session, login, 0, &mut column.mail);
            column.exchange.receive(session, Inbound::Subscribe, 0, &mut column.mail);
        }
        column.mail.0.clear();
        column
    }
}

impl Column for Published {
    type Event = Event;

    fn receive(&mut self, session: usize, message: Message, now: u64) {
        let message = match message {
            Message::New { side, price, qty } => {
                let kind = OrderKind::Limit { price, tif: TimeInForce::Gtc, display: None };
                Inbound::NewOrder(NewOrder { client_ref: now, side, qty, kind })
            }
            Message::Cancel { id } => Inbound::Cancel { order_id: id },
        };
        self.exchange.receive(session, message, now, &mut self.mail);
    }

    fn take_batch(&mut self) -> usize {
        let mut batch = Vec::new();
        self.exchange.take_batch(&mut batch);
        batch.len()
    }

    fn deliver(&mut self, n: u64, event: &Event) {
        self.exchange.deliver(n, *event, &mut self.mail);
    }

    fn publish(&mut self) -> usize {
        self.exchange.publish(&mut self.mail);
        let sent = self.mail.0.len();
        self.mail.0.clear();
        sent
    }

    fn wallets(&self) -> Vec<[i64; 4]> {
        let wallets = (0..SESSIONS as u32).filter_map(|a| self.exchange.wallet(a));
        wallets.map(|w| [w.cash, w.position, w.cash_held, w.position_held]).collect()
    }
}
