//! Document 01 with requests 01, 02 and 05 of document 02, written from the
//! documents alone. Codes are bytes, sets of sections are `u16` with bit k-1
//! for section k, nothing allocates except the key's text.

pub mod aspects;
pub mod events;
pub mod key;
pub mod keytext;
pub mod line;
pub mod marking;
pub mod question;
pub mod readings;
pub mod records;
pub mod refusal;
pub mod run;
pub mod situation;

pub use aspects::Aspects;
pub use events::Event;
pub use line::{Edition, Line, Plan};
pub use question::{Parts, Question};
pub use readings::Reading;
pub use refusal::{Refusal, Refused};
pub use situation::Situation;
