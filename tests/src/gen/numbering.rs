//! The same model with its processes, and so its drivers, in another order.

use crate::model::{Model, ProcessRecord};

/// The model whose process n is process order[n] of the old one.
pub fn renumbered(m: &Model, order: &[usize]) -> Model {
    let mut new = Model {
        processes: vec![],
        statements: vec![],
        ..m.clone()
    };
    for &old in order {
        let ProcessRecord { first, count } = m.processes[old];
        let start = new.statements.len() as u16;
        for s in &m.statements[first as usize..(first + count) as usize] {
            let mut moved = *s;
            if [3, 4].contains(&s.kind) {
                moved.a = s.a - first + start;
            }
            new.statements.push(moved);
        }
        new.processes.push(ProcessRecord {
            first: start,
            count,
        });
    }
    for v in &mut new.variables {
        v.process = place(order, v.process) as u8;
    }
    for d in &mut new.drivers {
        d.process = place(order, d.process) as u8;
    }
    new.drivers.sort_by_key(|d| (d.process, d.signal));
    new
}

/// The new number of a process.
pub fn place(order: &[usize], process: u8) -> usize {
    let found = order.iter().position(|&old| old == process as usize);
    found.expect("each process has a place")
}

#[cfg(test)]
mod tests {
    use super::*;
    use crate::gen;
    use crate::model::{encode, load};
    use crate::rng::Rng;

    #[test]
    fn there_and_back() {
        let mut moved = 0;
        for seed in 0..500 {
            let rng = &mut Rng::new(seed);
            let m = gen::model(rng);
            let mut order: Vec<usize> = (0..m.processes.len()).collect();
            rng.shuffle(&mut order);
            let new = renumbered(&m, &order);
            assert_eq!(load(&encode(&new)).as_ref(), Ok(&new), "seed {seed}");
            let back: Vec<usize> = (0..order.len()).map(|p| place(&order, p as u8)).collect();
            assert_eq!(renumbered(&new, &back), m, "seed {seed}");
            moved += (new != m) as usize;
        }
        assert!(moved > 200, "{moved}");
    }
}
