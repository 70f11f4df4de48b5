//! Linear systems over GF(2) with 128 unknowns, by Gaussian elimination on columns.

/// How many solutions a system has.
#[derive(Clone, Copy, PartialEq, Eq, Debug)]
pub enum Solutions {
    None,
    One(u128),
    Many,
}

/// A vector of the columns' span, and which columns add up to it.
#[derive(Clone, Copy)]
struct Combination {
    sum: u128,
    columns: u128,
}

/// Takes away from `v` every pivot that its bits ask for, from the highest bit down.
fn reduce(pivots: &[Option<Combination>; 128], v: &mut Combination) {
    let mut open = v.sum;
    while open != 0 {
        let place = 127 - open.leading_zeros();
        if let Some(pivot) = pivots[place as usize] {
            v.sum ^= pivot.sum;
            v.columns ^= pivot.columns;
        }
        open = v.sum & !(u128::MAX << place);
    }
}

/// Solves "the sum of the columns k with bit k of y set is `target`" for y.
pub fn solve(columns: &[u128; 128], target: u128) -> Solutions {
    let mut pivots = [None; 128];
    let mut dependent = false;
    for (k, &column) in columns.iter().enumerate() {
        let mut v = Combination { sum: column, columns: 1 << k };
        reduce(&pivots, &mut v);
        match v.sum {
            0 => dependent = true,
            sum => pivots[127 - sum.leading_zeros() as usize] = Some(v),
        }
    }
    let mut v = Combination { sum: target, columns: 0 };
    reduce(&pivots, &mut v);
    match (v.sum, dependent) {
        (0, false) => Solutions::One(v.columns),
        (0, true) => Solutions::Many,
        _ => Solutions::None,
    }
}
