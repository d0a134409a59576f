//! The trial of another `mlrun`: streams, the comparison, and the list of what must be reached.

pub mod compare;
pub mod damage;
pub mod descriptions;
pub mod encode;
pub mod generate;
pub mod illegal;
pub mod list;
pub mod random;
pub mod rows;
pub mod special;
pub mod spoil;
pub mod statements;
pub mod worked;
