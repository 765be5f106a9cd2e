//! Moves stored orders over. Order 2, an advance, is withdrawn: it becomes the delta step (6) or the time step (7) that gives its old
//! answer, and 6 if both do. The proved library does it.

/// The library's function: the number of a move; where it is 0, the moved orders stand in the buffer.
pub type Library = fn(&[u8], &[u8], &mut [u8]) -> u32;

/// The library, if this build has it.
#[cfg(feature = "library")]
pub const LIBRARY: Option<Library> = Some(second_kernel::proved_moves::move_over);
#[cfg(not(feature = "library"))]
pub const LIBRARY: Option<Library> = None;

pub const NO_LIBRARY: &str = "this build of `blocks` has no library to move orders with: `make tools` builds one that has it";

/// The moved orders, or the number that refuses.
pub fn moved(library: Library, model: &[u8], orders: &[u8]) -> Result<Vec<u8>, u32> {
    let mut moved = vec![0; orders.len()];
    match library(model, orders, &mut moved) {
        0 => Ok(moved),
        number => Err(number),
    }
}

/// What is told of orders that are refused with 9.
pub fn wrong_length(orders: &[u8]) -> String {
    let wrong = match orders.len() % 4 {
        0 => format!("{} orders, and a list has at most 4096", orders.len() / 4),
        _ => format!("{} bytes are no whole orders of 4 bytes each", orders.len()),
    };
    format!("the kernel refuses these orders with 9: {wrong}")
}

/// How many orders were moved, and to which.
pub fn told(before: &[u8], after: &[u8]) -> String {
    let to = |kind| before.chunks(4).zip(after.chunks(4)).filter(|(b, a)| b[0] == 2 && a[0] == kind).count();
    let (delta, time) = (to(6), to(7));
    let word = if delta + time == 1 { "order" } else { "orders" };
    format!("{} {word} moved, {delta} to delta and {time} to time", delta + time)
}

/// What is told of orders in which a delta step or a time step stands already. With an unused byte set it gives 11 as before.
pub fn warning(orders: &[u8]) -> Option<String> {
    let first = orders.chunks(4).position(|o| matches!(o, [6 | 7, 0, 0, 0]))?;
    let kind = orders[4 * first];
    let end = if orders.chunks(4).any(|o| o[0] == 2) {
        "answers may differ from there on"
    } else {
        "the list has no order 2 and may have been moved already; if not, answers may differ from there on"
    };
    Some(format!("order {first}, counted from 0, is of kind {kind}: it gave 11 before and is played now; {end}"))
}

#[cfg(test)]
mod tests {
    use super::*;

    #[test]
    fn what_is_moved_is_told() {
        let (two, six, seven, read) = ([2, 0, 0, 0], [6, 0, 0, 0], [7, 0, 0, 0], [4, 6, 0, 0]);
        for (before, after, expected) in [
            (vec![], vec![], "0 orders moved, 0 to delta and 0 to time"),
            (vec![two], vec![seven], "1 order moved, 0 to delta and 1 to time"),
            (vec![two, read, two, two], vec![six, read, seven, six], "3 orders moved, 2 to delta and 1 to time"),
            (vec![six, two, seven], vec![six, six, seven], "1 order moved, 1 to delta and 0 to time"),
            (vec![[2, 0, 1, 0]], vec![[6, 0, 1, 0]], "1 order moved, 1 to delta and 0 to time"),
        ] {
            assert_eq!(told(&before.concat(), &after.concat()), expected);
        }
    }

    #[test]
    fn orders_of_now_are_told() {
        let (two, six, seven) = ([2, 0, 0, 0], [6, 0, 0, 0], [7, 0, 0, 0]);
        let differ = "it gave 11 before and is played now; answers may differ from there on";
        let again = "it gave 11 before and is played now; the list has no order 2 and may have been moved already; if not, \
                     answers may differ from there on";
        for (orders, place, expected) in [
            (vec![six], "order 0, counted from 0, is of kind 6", again),
            (vec![[3, 0, 10, 0], seven, six], "order 1, counted from 0, is of kind 7", again),
            (vec![two, [6, 1, 0, 0], two, six], "order 3, counted from 0, is of kind 6", differ),
            (vec![seven, [2, 0, 1, 0]], "order 0, counted from 0, is of kind 7", differ),
        ] {
            assert_eq!(warning(&orders.concat()), Some(format!("{place}: {expected}")), "{orders:?}");
        }
        for orders in
            [vec![], vec![two, [4, 6, 0, 0]], vec![[6, 1, 0, 0], [7, 0, 1, 0], [6, 0, 0, 1]], vec![[5, 0, 6, 0], [8, 0, 0, 0]]]
        {
            assert_eq!(warning(&orders.concat()), None, "{orders:?}");
        }
    }

    #[test]
    fn a_wrong_length_is_told() {
        for (length, expected) in [
            (6, "6 bytes are no whole orders of 4 bytes each"),
            (7, "7 bytes are no whole orders of 4 bytes each"),
            (16_385, "16385 bytes are no whole orders of 4 bytes each"),
            (16_388, "4097 orders, and a list has at most 4096"),
        ] {
            assert_eq!(wrong_length(&vec![2; length]), format!("the kernel refuses these orders with 9: {expected}"));
        }
    }

    #[test]
    fn a_refusal_gives_no_orders() {
        let refuses: Library = |_, _, moved| {
            moved.fill(1);
            9
        };
        assert_eq!(moved(refuses, &[], &[2, 0, 0, 0]), Err(9));
        let sevens: Library = |_, _, moved| {
            moved.fill(7);
            0
        };
        assert_eq!(moved(sevens, &[], &[2, 0, 0, 0]), Ok(vec![7; 4]));
    }
}
