//! The independent model: document 01, and document 02's Asks 1 and 3 to 7, put into code by other methods than the
//! library's.

pub mod execute;
pub mod field;
pub mod group;
pub mod hash;
pub mod linear;
pub mod links;
pub mod parked;
pub mod poly;
pub mod record;
pub mod refusal;
pub mod replay;
pub mod running;
pub mod step_back;
pub mod text;
pub mod word;
pub mod writer;
