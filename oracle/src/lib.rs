//! The judge as a library: yogi's own code behind the tree form and the refusals of docs/FORMAT.md.

pub mod bits;
pub mod figures;
pub mod finlist;
pub mod generate;
pub mod judge;
pub mod limits;
pub mod line;
pub mod lowering;
pub mod machine;
#[cfg(test)]
mod order_tests;
pub mod orders;
pub mod origin;
pub mod record;
pub mod rng;
pub mod selftest;
#[cfg(test)]
mod tests;
pub mod theorems;
pub mod tree;
pub mod walk;
#[cfg(test)]
mod walk_tests;
pub mod walks;
pub mod yogi;
