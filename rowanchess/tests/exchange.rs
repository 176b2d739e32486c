//! What the wrapper adds to the library: typed refusals, and a list of mail that grows.

use rowanchess::accounts::{Account, Funds};
use rowanchess::exchange::{Mail, Nobody, Timing};
use rowanchess::orderbook::{BookConfig, Event, Listed, Side, TimeInForce};
use rowanchess::protocol::{Inbound, NewOrder, OrderKind, Outbound, RejectCode, ReportKind, VERSION};
use rowanchess::wallet::Wallet;
use rowanchess::{Exchange, Refusal};

const BOOK: BookConfig = BookConfig { max_owners: 4, fee: 0 };

fn account(id: u32, funds: Option<Funds>) -> Account {
    Account { id, token: 7, max_open_orders: 1_024, messages_per_second: 10_000, funds }
}

fn paper(id: u32) -> Account {
    account(id, Some(Funds { cash: i64::MAX, position: 10 }))
}

fn opened(accounts: &[Account], listing: &[Listed]) -> Result<Exchange, Refusal> {
    Exchange::new(&BOOK, listing, 9, accounts, Timing::default())
}

fn bid(id: u64, owner: u32, price: i64) -> Listed {
    Listed::Order { id, owner, side: Side::Buy, price, leaves: 1, visible: 1 }
}

fn logged_in(exchange: &mut Exchange, session: usize, account: u32) -> Result<(), Refusal> {
    exchange.connect(session, 0)?;
    exchange.receive(session, Inbound::Login { version: VERSION, account, token: 7 }, 0, &mut Nobody)
}

fn order(qty: u64, price: i64) -> Inbound {
    let kind = OrderKind::Limit { price, tif: TimeInForce::Gtc, display: None };
    Inbound::NewOrder(NewOrder { client_ref: 1, side: Side::Buy, qty, kind })
}

/// Each code but 6, which the growing list keeps away, comes as its refusal.
#[test]
fn refusals() -> Result<(), Refusal> {
    let mut exchange = opened(&[paper(0)], &[bid(5, 3, 100)])?;
    assert_eq!(exchange.add_account(paper(4)), Err(Refusal::AccountOutOfRange));
    assert_eq!(opened(&[], &[bid(10, 0, 1)]).err(), Some(Refusal::ForeignOrder));
    assert_eq!(exchange.add_account(paper(0)), Err(Refusal::AccountExists));
    let event = Event::Accepted { id: 9 };
    assert_eq!(exchange.deliver(9, event, &mut Nobody), Err(Refusal::Sequence));
    let wide = BookConfig { max_owners: 257, ..BOOK };
    assert_eq!(Exchange::new(&wide, &[], 0, &[], Timing::default()).err(), Some(Refusal::Full));
    let dear = [bid(1, 0, 1 << 62), bid(2, 0, 1 << 62)];
    assert_eq!(opened(&[paper(0)], &dear).err(), Some(Refusal::OutsideType));
    assert_eq!(opened(&[], &[bid(1, 0, 1), bid(1, 0, 2)]).err(), Some(Refusal::Inconsistent));
    assert_eq!(exchange.connect(64, 0), Err(Refusal::Session));
    logged_in(&mut exchange, 0, 0)?;
    exchange.receive(0, order(1, 1), 0, &mut Nobody)?;
    assert_eq!(exchange.checkpoint(), Err(Refusal::NotQuiet));
    let torn = Exchange::restore_bytes(&[0; 24], &BOOK, &[], Timing::default());
    assert_eq!(torn.err(), Some(Refusal::Malformed));
    assert_eq!(exchange.add_account(paper(3)), Err(Refusal::LiveOrders));
    let paying = BookConfig { fee: -1, ..BOOK };
    assert_eq!(Exchange::new(&paying, &[], 0, &[], Timing::default()).err(), Some(Refusal::NegativeFee));
    Ok(())
}

/// A fee below 0 is refused before an owner limit that is too great, and before bytes that are no checkpoint.
#[test]
fn fee_is_judged_first() {
    for fee in [-1, i64::MIN] {
        let wide = BookConfig { max_owners: 257, fee };
        assert_eq!(Exchange::new(&wide, &[], 0, &[], Timing::default()).err(), Some(Refusal::NegativeFee));
        let torn = Exchange::restore_bytes(&[0; 24], &wide, &[], Timing::default());
        assert_eq!(torn.err(), Some(Refusal::NegativeFee));
    }
}

/// A buyer pays the fee, and a restart with the same fee has the same wallet.
#[test]
fn fee_is_held_and_paid() -> Result<(), Refusal> {
    let book = BookConfig { fee: 10, ..BOOK };
    let accounts = [account(0, Some(Funds { cash: 1_040, position: 0 })), account(1, None)];
    let offer = Listed::Order { id: 9, owner: 1, side: Side::Sell, price: 240, leaves: 2, visible: 2 };
    let mut exchange = Exchange::new(&book, &[offer], 9, &accounts, Timing::default())?;
    logged_in(&mut exchange, 0, 0)?;
    exchange.receive(0, order(4, 251), 0, &mut Nobody)?;
    let reject = Outbound::Reject { reason: RejectCode::InsufficientFunds, client_ref: 1 };
    assert!(exchange.mail().eq([Mail::Send(0, reject)]));
    exchange.receive(0, order(4, 250), 0, &mut Nobody)?;
    let wallet = Wallet { cash: 1_040, position: 0, cash_held: 1_040, position_held: 0 };
    assert_eq!(exchange.wallet(0), Some(wallet));
    exchange.take_batch(&mut Vec::new())?;
    let trade = Event::Trade {
        trade_id: 1,
        taker: 10,
        maker: 9,
        taker_side: Side::Buy,
        price: 240,
        qty: 2,
        taker_leaves: 2,
        maker_leaves: 0,
    };
    exchange.deliver(10, trade, &mut Nobody)?;
    let wallet = Wallet { cash: 540, position: 2, cash_held: 520, position_held: 0 };
    assert_eq!(exchange.wallet(0), Some(wallet));
    let saved = exchange.checkpoint_bytes()?;
    let again = Exchange::restore_bytes(&saved, &book, &accounts, Timing::default())?;
    assert_eq!(again.wallet(0), Some(wallet));
    assert_eq!(again.checkpoint_bytes()?, saved);
    Ok(())
}

/// A refused call has sent nothing and changed nothing.
#[test]
fn refused_changes_nothing() -> Result<(), Refusal> {
    let mut exchange = opened(&[paper(0)], &[])?;
    logged_in(&mut exchange, 0, 0)?;
    assert_eq!(exchange.mail().len(), 2);
    let before = exchange.checkpoint_bytes()?;
    let mut mail = Vec::new();
    assert_eq!(exchange.deliver(10, Event::Accepted { id: 1 }, &mut mail), Err(Refusal::Sequence));
    assert_eq!(mail, []);
    assert_eq!(exchange.mail().len(), 0);
    assert_eq!(exchange.checkpoint_bytes()?, before);
    Ok(())
}

/// A login, a publishing and a subscription that send more than the 256 places lent at first.
#[test]
fn grows() -> Result<(), Refusal> {
    const COUNT: u64 = 512;
    let mut exchange = Exchange::new(&BOOK, &[], 0, &[paper(0), account(1, None)], Timing::default())?;
    logged_in(&mut exchange, 0, 0)?;
    for session in 1..3 {
        exchange.connect(session, 0)?;
    }
    logged_in(&mut exchange, 3, 1)?;
    exchange.receive(3, Inbound::Subscribe, 0, &mut Nobody)?;
    for n in 1..=COUNT {
        exchange.receive(0, order(1, n as i64), 0, &mut Nobody)?;
        exchange.take_batch(&mut Vec::new())?;
        let rested = Event::Rested { id: n, side: Side::Buy, price: n as i64, qty: 1, visible: 1 };
        exchange.deliver(n, rested, &mut Nobody)?;
    }
    let mut mail = Vec::new();
    exchange.publish(&mut mail)?;
    let balances = mail.iter().filter(|m| matches!(m, Mail::Send(0, Outbound::Balance(_))));
    assert_eq!((mail.len(), balances.count()), (2 * COUNT as usize, COUNT as usize));
    assert!(exchange.mail().eq(mail));
    exchange.receive(3, Inbound::Subscribe, 0, &mut Nobody)?;
    assert_eq!(exchange.mail().len(), 1 + COUNT as usize);
    assert_eq!(exchange.detach(0), Some(0));
    logged_in(&mut exchange, 0, 0)?;
    assert_eq!(exchange.mail().len(), 2 + COUNT as usize);
    let Some(Mail::Send(0, Outbound::Report(report))) = exchange.mail().last() else { panic!("a report") };
    assert_eq!(report.order_id, COUNT);
    assert_eq!(report.kind, ReportKind::Rested { side: Side::Buy, price: COUNT as i64, qty: 1, visible: 1 });
    let bids: Vec<_> = exchange.depth().levels(Side::Buy)?.map(|(price, _)| price).collect();
    assert!(bids.into_iter().eq((1..=COUNT as i64).rev()));
    assert_eq!(exchange.checkpoint()?.orders.len(), COUNT as usize);
    Ok(())
}
