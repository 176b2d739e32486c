//! Stands in for the engine: the names that `Exchange::flush` mentions. Nobody can make one.

use orderbook::{Command, Event};

pub type Seq = u64;

pub mod storage {
    pub trait Storage {}
}

pub enum Error {}

pub trait Output {
    fn on_event(&mut self, seq: Seq, event: Event);
}

pub struct Engine<S: storage::Storage>(S, Error);

impl<S: storage::Storage> Engine<S> {
    pub fn last_seq(&self) -> Seq {
        match self.1 {}
    }

    pub fn submit_batch(&mut self, _: &[Command], _: &mut impl Output) -> Result<(), Error> {
        match self.1 {}
    }
}
