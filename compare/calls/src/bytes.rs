//! Document 01's bytes of a checkpoint.

use gateway::exchange::{Checkpoint, SavedOrder, SavedWallet};

pub fn encode(checkpoint: &Checkpoint) -> Vec<u8> {
    let price = |price: Option<i64>| price.unwrap_or(0).to_le_bytes();
    let count = |count: usize| (count as u32).to_le_bytes();
    let mut bytes = checkpoint.seq.to_le_bytes().to_vec();
    bytes.push(u8::from(checkpoint.market_price.is_some()));
    bytes.extend(price(checkpoint.market_price));
    bytes.extend(count(checkpoint.wallets.len()));
    for wallet in &checkpoint.wallets {
        bytes.extend(wallet.account.to_le_bytes());
        bytes.extend(wallet.cash.to_le_bytes());
        bytes.extend(wallet.position.to_le_bytes());
    }
    bytes.extend(count(checkpoint.orders.len()));
    for order in &checkpoint.orders {
        bytes.extend(order.id.to_le_bytes());
        bytes.extend(order.account.to_le_bytes());
        bytes.extend(order.client_ref.to_le_bytes());
        bytes.push(u8::from(order.buy) + 2 * u8::from(order.price.is_some()));
        bytes.extend(price(order.price));
        bytes.extend(order.leaves.to_le_bytes());
    }
    bytes
}

/// What is left of the bytes.
struct Reader<'a>(&'a [u8]);

impl Reader<'_> {
    fn take<const SIZE: usize>(&mut self) -> Option<[u8; SIZE]> {
        let (first, rest) = self.0.split_first_chunk()?;
        self.0 = rest;
        Some(*first)
    }

    fn byte(&mut self) -> Option<u8> {
        self.take().map(|[byte]: [u8; 1]| byte)
    }

    fn short(&mut self) -> Option<u32> {
        self.take().map(u32::from_le_bytes)
    }

    fn word(&mut self) -> Option<u64> {
        self.take().map(u64::from_le_bytes)
    }

    fn signed(&mut self) -> Option<i64> {
        self.take().map(i64::from_le_bytes)
    }

    /// A price that is there by its flag; an absent one is 0.
    fn price(&mut self, there: bool) -> Option<Option<i64>> {
        let price = self.signed()?;
        (there || price == 0).then_some(there.then_some(price))
    }

    fn count(&mut self, most: u32) -> Option<u32> {
        self.short().filter(|&count| count <= most)
    }

    fn wallet(&mut self) -> Option<SavedWallet> {
        Some(SavedWallet { account: self.short()?, cash: self.signed()?, position: self.signed()? })
    }

    fn order(&mut self) -> Option<SavedOrder> {
        let (id, account, client_ref) = (self.word()?, self.short()?, self.word()?);
        let flags = self.byte().filter(|&flags| flags < 4)?;
        let price = self.price(flags & 2 != 0)?;
        Some(SavedOrder { id, account, client_ref, buy: flags & 1 != 0, price, leaves: self.word()? })
    }
}

fn rising<T, K: Ord>(items: &[T], key: impl Fn(&T) -> K) -> bool {
    items.windows(2).all(|pair| key(&pair[0]) < key(&pair[1]))
}

/// The checkpoint that the bytes are; none where document 01 calls them malformed.
pub fn decode(bytes: &[u8]) -> Option<Checkpoint> {
    let mut reader = Reader(bytes);
    let seq = reader.word()?;
    let flag = reader.byte().filter(|&flag| flag < 2)?;
    let market_price = reader.price(flag == 1)?;
    let wallets: Vec<SavedWallet> = (0..reader.count(256)?).map(|_| reader.wallet()).collect::<Option<_>>()?;
    let orders: Vec<SavedOrder> = (0..reader.count(1024)?).map(|_| reader.order()).collect::<Option<_>>()?;
    let ascend = rising(&wallets, |wallet| wallet.account) && rising(&orders, |order| order.id);
    (ascend && reader.0.is_empty()).then_some(Checkpoint { seq, wallets, orders, market_price })
}
