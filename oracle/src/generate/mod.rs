//! Inputs, repeatable by their seed.

pub mod broken;
pub mod chains;
pub mod damaged;
pub mod fixed;
pub mod fixed_machines;
pub mod machines;
pub mod outcomes;
pub mod texts;
pub mod trees;

/// Takes from several lists in turn until all have run out.
pub fn in_turn<T>(lists: Vec<Vec<T>>) -> impl Iterator<Item = T> {
    let mut lists: Vec<_> = lists.into_iter().map(Vec::into_iter).collect();
    let mut turn = 0;
    std::iter::from_fn(move || {
        for _ in 0..lists.len() {
            turn = (turn + 1) % lists.len();
            if let Some(item) = lists[turn].next() {
                return Some(item);
            }
        }
        None
    })
}
