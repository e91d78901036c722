//! The proved library, used through its exported calls, for the driver to compare with both judges. It is x86-64 code: on x86-64 it is
//! linked, and elsewhere a program that runs in an emulator answers the calls.

#![allow(clippy::too_many_arguments)]

mod either;
mod served;
mod waiting;

use driver::call::outcome::bits;
use driver::judge::library::Library;
use paper::{
    CutAt, Divisor, ForestCall, ForestRooms, Given, ModelAnswer, ModelRooms, Numbers, Refusal,
    Splitter, Table, TreeAnswer, TreeCall, TreeRooms,
};
pub use served::named as served;
use tailboardy_sys::{ForestSettings, TreeSettings};
use waiting::Stack;

pub struct Proved;

/// A call whose arguments include the six columns of a table, or of the rooms for one, in the middle.
macro_rules! over {
    ($call:ident($($before:expr),*; $table:ident; $($after:expr),*)) => {
        either::$call(
            $($before,)*
            $table.value,
            $table.feature,
            $table.threshold,
            $table.score,
            $table.true_child,
            $table.false_child,
            $($after),*
        )
    };
}

impl Library for Proved {
    fn fit_tree(&self, call: &TreeCall, rooms: &mut TreeRooms) -> TreeAnswer {
        let TreeRooms {
            nodes,
            behind,
            work,
        } = rooms;
        let (given, draws) = (&call.given, &call.draws);
        let mut stack = Stack::new(work.waiting.len(), lot(given, draws.words));
        let told = either::fit_tree(
            nodes.value,
            nodes.feature,
            nodes.threshold,
            nodes.score,
            nodes.true_child,
            nodes.false_child,
            behind.count,
            behind.mass,
            work.columns,
            work.scratch,
            work.flags,
            &mut stack.wholes,
            &mut stack.reals,
            given.x,
            given.y,
            given.weights,
            given.counts,
            given.listings,
            draws.words,
            draws.thresholds,
            given.rows,
            given.features,
            tree_settings(call),
        );
        stack.told(work.waiting);
        TreeAnswer {
            refusal: refusal([told.number, told.part, told.place, told.row]),
            numbers: Numbers {
                nodes: told.nodes,
                depth: told.depth,
                root_mass: told.mass,
                searches: told.searches,
                words_used: told.words,
                thresholds_used: told.thresholds,
            },
        }
    }

    fn fit_forest(&self, call: &ForestCall, rooms: &mut ForestRooms) -> Refusal {
        let ForestRooms {
            nodes,
            behind,
            starts,
            reports,
            work,
        } = rooms;
        let (given, draws) = (&call.given, &call.draws);
        let mut stack = Stack::new(work.waiting.len(), lot(given, draws.words));
        let told = either::fit_forest(
            nodes.value,
            nodes.feature,
            nodes.threshold,
            nodes.score,
            nodes.true_child,
            nodes.false_child,
            behind.count,
            behind.mass,
            starts,
            reports.nodes,
            reports.depth,
            reports.root_mass,
            reports.searches,
            reports.words_used,
            reports.thresholds_used,
            work.columns,
            work.scratch,
            work.flags,
            &mut stack.wholes,
            &mut stack.reals,
            given.x,
            given.y,
            given.weights,
            given.counts,
            given.listings,
            draws.words,
            draws.thresholds,
            &places(call.cuts.words),
            &places(call.cuts.thresholds),
            given.rows,
            given.features,
            call.trees,
            forest_settings(call),
        );
        stack.told(work.waiting);
        refusal([told.number, told.part, told.place, told.row])
    }

    fn predictions(
        &self,
        rows: usize,
        features: usize,
        x: &[f64],
        t: &Table,
        out: &mut [f64],
    ) -> u32 {
        over!(predict_tree(rows, features, x; t; out))
    }

    fn forest_means(
        &self,
        [rows, features, trees]: [usize; 3],
        x: &[f64],
        t: &Table,
        starts: &[u32],
        out: &mut [f64],
    ) -> u32 {
        over!(forest_means(rows, features, trees, x, starts; t; out))
    }

    fn out_of_bag_means(
        &self,
        [rows, features, trees]: [usize; 3],
        x: &[f64],
        counts: &[u32],
        t: &Table,
        starts: &[u32],
        out: &mut [f64],
    ) -> u32 {
        over!(out_of_bag_means(rows, features, trees, x, counts, starts; t; out))
    }

    fn tree_importances(&self, features: usize, by: Divisor, t: &Table, out: &mut [f64]) -> u32 {
        let (by_mass, mass) = match by {
            Divisor::TheirSum => (false, 0.0),
            Divisor::RootMass(mass) => (true, mass),
        };
        over!(tree_importances(features, by_mass, mass; t; out))
    }

    fn forest_importances(
        &self,
        features: usize,
        trees: usize,
        t: &Table,
        starts: &[u32],
        out: &mut [f64],
    ) -> u32 {
        over!(forest_importances(features, trees, starts; t; out))
    }

    fn out_of_bag_error(&self, rows: usize, targets: &[f64], means: &[f64]) -> (u32, f64, u32) {
        let told = either::out_of_bag_error(rows, targets, means);
        (told.number, told.error, told.rows)
    }

    fn check_listings(&self, rows: usize, features: usize, x: &[f64], listings: &[u32]) -> Refusal {
        let told = either::check_listings(rows, features, x, listings);
        refusal([told.number, told.part, told.place, told.row])
    }

    fn check_tree(&self, features: usize, t: &Table) -> u32 {
        over!(check_tree(features; t;))
    }

    fn check_forest(&self, features: usize, trees: usize, t: &Table, starts: &[u32]) -> u32 {
        over!(check_forest(features, trees, starts; t;))
    }

    fn read_node(&self, features: usize, t: &Table, number: usize) -> [u64; 8] {
        let told = over!(read_node(features; t; number));
        let [feature, true_child, false_child] =
            [told.feature, told.true_child, told.false_child].map(u64::from);
        let [value, threshold, score] = [told.value, told.threshold, told.score].map(bits);
        let (number, there) = (u64::from(told.number), u64::from(told.there));
        [
            number,
            there,
            value,
            feature,
            threshold,
            score,
            true_child,
            false_child,
        ]
    }

    fn model_size(&self, features: usize, trees: usize, t: &Table, starts: &[u32]) -> (u32, usize) {
        let told = over!(model_size(features, trees, starts; t;));
        (told.number, told.bytes)
    }

    fn write_model(
        &self,
        features: usize,
        trees: usize,
        t: &Table,
        starts: &[u32],
        out: &mut [u8],
    ) -> (u32, usize) {
        let told = over!(write_model(features, trees, starts; t; out));
        (told.number, told.bytes)
    }

    fn read_model(&self, file: &[u8], rooms: &mut ModelRooms) -> ModelAnswer {
        let ModelRooms { nodes, starts } = rooms;
        let told = over!(read_model(; nodes; starts, file));
        ModelAnswer {
            number: told.number,
            place: told.place,
            features: told.features,
            trees: told.trees,
            nodes: told.nodes,
        }
    }
}

fn refusal([number, part, place, row]: [u32; 4]) -> Refusal {
    Refusal {
        number,
        part,
        place,
        row,
    }
}

/// A number that depends on the input: it differs between inputs, and is the same if an input is tried again.
fn lot(given: &Given, words: &[u32]) -> u32 {
    let numbers = given.counts.iter().chain(words);
    numbers.fold(given.features as u32, |sum, number| {
        sum.wrapping_add(*number)
    })
}

fn places(cuts: &[u64]) -> Vec<usize> {
    cuts.iter().map(|cut| *cut as usize).collect()
}

fn tree_settings(call: &TreeCall) -> TreeSettings {
    TreeSettings {
        limited: call.settings.limit.is_some(),
        limit: call.settings.limit.unwrap_or(0),
        leaf: call.settings.least_leaf,
        split: call.settings.least_split,
        tried: call.tried,
        random: call.settings.splitter == Splitter::Random,
        lower: call.settings.cut_at == CutAt::Lower,
    }
}

fn forest_settings(call: &ForestCall) -> ForestSettings {
    ForestSettings {
        limited: call.settings.limit.is_some(),
        limit: call.settings.limit.unwrap_or(0),
        leaf: call.settings.least_leaf,
        split: call.settings.least_split,
        said: call.tried.is_some(),
        tried: call.tried.unwrap_or(0),
        random: call.settings.splitter == Splitter::Random,
        lower: call.settings.cut_at == CutAt::Lower,
    }
}
