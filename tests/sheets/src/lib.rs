//! Random sheets, right and damaged, random nogood lists and pairs of places, for tests.

pub mod damage;
pub mod encode;
pub mod groups;
pub mod lists;
pub mod pairs;
pub mod random;
pub mod rng;
pub mod symmetry;
pub mod typed;

pub use damage::damaged;
pub use encode::encode;
pub use groups::{crowd, groups};
pub use lists::{lists, right_lists, Lists};
pub use pairs::{block, neighbours, pairs, right_pairs};
pub use random::{alike_problem, large_problem, problem};
pub use rng::Rng;
pub use typed::typed_in;
