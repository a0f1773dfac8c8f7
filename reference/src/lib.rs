//! An independent reference of the Mastorange controller, written from the rule book alone.
//!
//! The controller itself allocates nothing: queues are rings of fixed arrays, rows and answers
//! are written into slices that the caller lends. Only the programs around it use `Vec`.

pub mod axis;
pub mod contacts;
pub mod controller;
pub mod drive;
pub mod number;
pub mod queue;
pub mod record;
pub mod refusal;
pub mod request;
pub mod row;
pub mod text;

mod port_m;
mod port_p;
mod setting;

pub mod axes;
pub mod coverage;
pub mod fixed;
pub mod generate;
pub mod random;
pub mod replay;

mod line;
mod print;

pub use axes::axes;
pub use axis::Axis;
pub use controller::{Live, Parked, Port};
pub use drive::{Counting, Drive, Ratio, Reporting};
pub use refusal::{Reason, Refusal};
pub use replay::replay;
pub use row::Row;
