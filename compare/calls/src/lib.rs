//! The calls of document 01 as values, what they give, who can make them (the published Rust, and a model that follows document 01), and
//! lists of them drawn at random.

pub mod bytes;
pub mod call;
mod codes;
pub mod depth;
pub mod draw;
mod model;
pub mod names;
mod published;
pub mod rows;
mod sends;
pub mod state;
mod types;
pub mod words;

pub use call::{Answer, Call, Gateway, Listed, Mail, Seen, Start};
pub use draw::Draw;
pub use published::Published;
pub use state::Model;
