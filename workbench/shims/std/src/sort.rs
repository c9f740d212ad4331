//! A stable sort that takes no memory but for a list of places, which may be refused.
use crate::alloc::{AllocError, Global};
use crate::vec::Vec;
use core::cmp::Ordering;

/// Sorts by a comparison. Elements that are alike keep their order.
pub fn sort<T>(
    items: &mut [T],
    mut compare: impl FnMut(&T, &T) -> Ordering,
) -> Result<(), AllocError> {
    let mut places = Vec::with_capacity(Global, items.len())?;
    for at in 0..items.len() {
        places.push(at)?;
    }
    places.sort_unstable_by(|a, b| compare(&items[*a], &items[*b]).then(a.cmp(b)));
    // Along each ring of places, an element goes where it belongs and that one's place is next.
    for start in 0..items.len() {
        let mut at = start;
        while places[at] != start {
            let from = places[at];
            items.swap(at, from);
            places[at] = at;
            at = from;
        }
        places[at] = at;
    }
    Ok(())
}

#[cfg(test)]
mod tests {
    use super::sort;

    #[test]
    fn keeps_the_order_of_what_is_alike() {
        for count in 0..40_u32 {
            let mut items: [(u32, u32); 40] = core::array::from_fn(|at| {
                let at = at as u32;
                ((at * 7 + count) * 13 % 5, at)
            });
            let part = &mut items[..count as usize];
            assert!(sort(part, |a, b| a.0.cmp(&b.0)).is_ok());
            assert!(part.is_sorted());
        }
    }
}
