//! What is expected of the two columns that smartcore does not have: how much is kept in each node of a tree that the copy grew, by its
//! definition. The second judge has no part in this.

use crate::call::calls::Fit;
use crate::call::outcome::bits;
use crate::judge::reach;
use copy::harness::Grown;

/// The counts of some rows, their masses, and their targets times their masses, each added up from 0 in the order of the rows.
#[derive(Clone, Copy, Default)]
struct Behind {
    count: u64,
    mass: f64,
    sum: f64,
}

impl Behind {
    fn of(fit: &Fit, tree: usize, rows: impl Iterator<Item = usize>) -> Self {
        rows.fold(Behind::default(), |behind, row| {
            let count = fit.counts[tree * fit.rows + row];
            let weight = fit.weights.get(row).copied().unwrap_or(1.0);
            let mass = f64::from(count) * weight;
            Behind {
                count: behind.count + u64::from(count),
                mass: behind.mass + mass,
                sum: behind.sum + fit.y[row] * mass,
            }
        })
    }

    fn value(&self) -> f64 {
        match self.mass > 0.0 {
            true => self.sum / self.mass,
            false => 0.0,
        }
    }
}

/// The root's mass is that of all rows by number, whatever it keeps.
fn root(fit: &Fit, tree: usize) -> Behind {
    let kept = (0..fit.rows).filter(|row| fit.kept(tree, *row));
    Behind {
        count: Behind::of(fit, tree, kept).count,
        ..Behind::of(fit, tree, 0..fit.rows)
    }
}

/// The kept counts in each node, and its mass: that of a child is added up along the listing of the feature that its parent is split by. The
/// root's must be the root mass that smartcore has, and each the one that its value of the node was divided by.
pub fn columns(fit: &Fit, tree: usize, grown: &Grown) -> [Vec<u64>; 2] {
    let nodes = grown.nodes();
    let mut all = vec![Behind::default(); nodes.len()];
    all[0] = root(fit, tree);
    reach::each_split(fit, tree, &nodes, |number, [on_true, on_false]| {
        let node = &nodes[number];
        for (child, rows) in [(node.true_child, on_true), (node.false_child, on_false)] {
            all[child as usize] = Behind::of(fit, tree, rows.iter().copied());
        }
    });
    assert_eq!(bits(all[0].mass), bits(grown.root_mass()), "the root mass");
    for (node, behind) in nodes.iter().zip(&all) {
        assert_eq!(bits(behind.value()), bits(node.value), "a node's value");
    }
    let counts = all.iter().map(|behind| behind.count).collect();
    let masses = all.iter().map(|behind| bits(behind.mass)).collect();
    [counts, masses]
}
