//! Makes a call of a library, in rooms filled with nines, and returns what it left.

use crate::call::calls::{Call, File, Fit, Lengths, Read, Reader, Table};
use crate::call::outcome::{FILL, FILL_FLOAT, Outcome, Room, bits};
use crate::judge::library::Library;
use paper::{
    Behind, Columns, CutAt, Cuts, Divisor, Draws, ForestCall, ForestRooms, Given, ModelRooms,
    Refusal, Reports, Settings, Splitter, TreeCall, TreeRooms, Waiting, Work,
};

pub fn run(library: &dyn Library, call: &Call) -> Outcome {
    match call {
        Call::Fit(fit) if fit.forest => run_forest(library, fit),
        Call::Fit(fit) => run_tree(library, fit),
        Call::Read(read) => run_read(library, read),
        Call::File(file) => run_file(library, file),
    }
}

const WAITING: Waiting = Waiting {
    node: FILL as u32,
    start: FILL as u32,
    end: FILL as u32,
    level: FILL as u32,
    sum: FILL_FLOAT,
    mass: FILL_FLOAT,
};

/// Rooms of the given lengths, filled with nines.
struct Owned {
    floats: [Vec<f64>; 4],
    numbers: [Vec<u32>; 4],
    starts: Vec<u32>,
    report_numbers: [Vec<u32>; 5],
    report_mass: Vec<f64>,
    columns: Vec<u32>,
    scratch: Vec<u32>,
    flags: Vec<bool>,
    waiting: Vec<Waiting>,
}

impl Owned {
    fn new(lengths: &Lengths) -> Self {
        let [
            value,
            feature,
            threshold,
            score,
            on_true,
            on_false,
            count,
            behind,
        ] = lengths.nodes;
        let [nodes, depth, mass, searches, words, thresholds] = lengths.reports;
        let [columns, scratch, flags, waiting] = lengths.work;
        let nines = |length: usize| vec![FILL as u32; length];
        Owned {
            floats: [value, threshold, score, behind].map(|length| vec![FILL_FLOAT; length]),
            numbers: [feature, on_true, on_false, count].map(nines),
            starts: nines(lengths.starts),
            report_numbers: [nodes, depth, searches, words, thresholds].map(nines),
            report_mass: vec![FILL_FLOAT; mass],
            columns: nines(columns),
            scratch: nines(scratch),
            flags: vec![true; flags],
            waiting: vec![WAITING; waiting],
        }
    }

    fn lend(&mut self) -> ForestRooms<'_> {
        let [value, threshold, score, mass] = &mut self.floats;
        let [feature, true_child, false_child, count] = &mut self.numbers;
        let [nodes, depth, searches, words_used, thresholds_used] = &mut self.report_numbers;
        ForestRooms {
            nodes: Columns {
                value,
                feature,
                threshold,
                score,
                true_child,
                false_child,
            },
            behind: Behind { count, mass },
            starts: &mut self.starts,
            reports: Reports {
                nodes,
                depth,
                root_mass: &mut self.report_mass,
                searches,
                words_used,
                thresholds_used,
            },
            work: Work {
                columns: &mut self.columns,
                scratch: &mut self.scratch,
                flags: &mut self.flags,
                waiting: &mut self.waiting,
            },
        }
    }

    fn node_rooms(&self) -> Vec<Room> {
        let [value, threshold, score, _] = &self.floats;
        let [feature, true_child, false_child, _] = &self.numbers;
        vec![
            Room::floats(value),
            Room::numbers(feature),
            Room::floats(threshold),
            Room::floats(score),
            Room::numbers(true_child),
            Room::numbers(false_child),
        ]
    }

    fn rooms(&self, forest: bool) -> Vec<Room> {
        let mut rooms = self.node_rooms();
        rooms.push(Room::numbers(&self.numbers[3]));
        rooms.push(Room::floats(&self.floats[3]));
        if forest {
            let [nodes, depth, searches, words, thresholds] = &self.report_numbers;
            rooms.push(Room::numbers(&self.starts));
            rooms.extend([Room::numbers(nodes), Room::numbers(depth)]);
            rooms.push(Room::floats(&self.report_mass));
            rooms.extend([searches, words, thresholds].map(|column| Room::numbers(column)));
        }
        rooms.extend([Room::numbers(&self.columns), Room::numbers(&self.scratch)]);
        rooms.extend([Room::flags(&self.flags), waiting_room(&self.waiting)]);
        rooms
    }
}

/// An entry counts as a whole: 9 if it is untouched, 0 if it is zero, and 1 for anything else.
fn waiting_room(list: &[Waiting]) -> Room {
    let entry = |w: &Waiting| match *w {
        w if w == WAITING => FILL as u32,
        w if w == Waiting::default() => 0,
        _ => 1,
    };
    Room::numbers(&list.iter().map(entry).collect::<Vec<u32>>())
}

fn given(fit: &Fit) -> Given<'_> {
    Given {
        rows: fit.rows,
        features: fit.features,
        x: &fit.x,
        y: &fit.y,
        weights: &fit.weights,
        counts: &fit.counts,
        listings: &fit.listings,
    }
}

fn settings(fit: &Fit) -> Settings {
    Settings {
        limit: fit.limit,
        least_leaf: fit.least_leaf,
        least_split: fit.least_split,
        splitter: match fit.random {
            true => Splitter::Random,
            false => Splitter::Best,
        },
        cut_at: match fit.lower {
            true => CutAt::Lower,
            false => CutAt::Midpoint,
        },
    }
}

fn draws(fit: &Fit) -> Draws<'_> {
    Draws {
        words: &fit.words,
        thresholds: &fit.thresholds,
    }
}

fn told(refusal: Refusal) -> Vec<u64> {
    let Refusal {
        number,
        part,
        place,
        row,
    } = refusal;
    [number, part, place, row].map(u64::from).to_vec()
}

fn run_tree(library: &dyn Library, fit: &Fit) -> Outcome {
    let mut owned = Owned::new(&fit.rooms);
    let call = TreeCall {
        given: given(fit),
        settings: settings(fit),
        tried: fit.tried.expect("one tree is always given a number"),
        draws: draws(fit),
    };
    let ForestRooms {
        nodes,
        behind,
        work,
        ..
    } = owned.lend();
    let mut rooms = TreeRooms {
        nodes,
        behind,
        work,
    };
    let answer = library.fit_tree(&call, &mut rooms);
    let n = answer.numbers;
    let mut told = told(answer.refusal);
    told.extend([u64::from(n.nodes), u64::from(n.depth), bits(n.root_mass)]);
    told.extend([n.searches, n.words_used, n.thresholds_used].map(u64::from));
    Outcome {
        told,
        rooms: owned.rooms(false),
    }
}

fn run_forest(library: &dyn Library, fit: &Fit) -> Outcome {
    let mut owned = Owned::new(&fit.rooms);
    let call = ForestCall {
        given: given(fit),
        trees: fit.trees,
        settings: settings(fit),
        tried: fit.tried,
        draws: draws(fit),
        cuts: Cuts {
            words: &fit.word_starts,
            thresholds: &fit.threshold_starts,
        },
    };
    let refusal = library.fit_forest(&call, &mut owned.lend());
    Outcome {
        told: told(refusal),
        rooms: owned.rooms(true),
    }
}

fn table(table: &Table) -> paper::Table<'_> {
    paper::Table {
        value: &table.value,
        feature: &table.feature,
        threshold: &table.threshold,
        score: &table.score,
        true_child: &table.true_child,
        false_child: &table.false_child,
    }
}

fn run_read(library: &dyn Library, read: &Read) -> Outcome {
    let (rows, features, trees) = (read.rows, read.features, read.trees);
    let (t, starts, shape) = (table(&read.table), &read.starts, [rows, features, trees]);
    let mut out = vec![FILL_FLOAT; read.out];
    let refusal = match read.reader {
        Reader::Predictions => library.predictions(rows, features, &read.x, &t, &mut out),
        Reader::ForestMeans => library.forest_means(shape, &read.x, &t, starts, &mut out),
        Reader::OutOfBagMeans => {
            library.out_of_bag_means(shape, &read.x, &read.counts, &t, starts, &mut out)
        }
        Reader::NormalisedImportances => {
            library.tree_importances(features, Divisor::TheirSum, &t, &mut out)
        }
        Reader::ImportancesByMass => {
            library.tree_importances(features, Divisor::RootMass(read.root_mass), &t, &mut out)
        }
        Reader::ForestImportances => {
            library.forest_importances(features, trees, &t, starts, &mut out)
        }
        Reader::OutOfBagError => {
            let (refusal, error, counted) =
                library.out_of_bag_error(rows, &read.targets, &read.means);
            return told_only(vec![u64::from(refusal), bits(error), u64::from(counted)]);
        }
        Reader::CheckListings => {
            let refusal = library.check_listings(rows, features, &read.x, &read.listings);
            return told_only(told(refusal));
        }
        Reader::CheckTree => return told_only(vec![u64::from(library.check_tree(features, &t))]),
        Reader::CheckForest => {
            let refusal = library.check_forest(features, trees, &t, starts);
            return told_only(vec![u64::from(refusal)]);
        }
        Reader::Node => return told_only(library.read_node(features, &t, read.node).to_vec()),
        Reader::ModelSize => {
            let (refusal, bytes) = library.model_size(features, trees, &t, starts);
            return told_only(vec![u64::from(refusal), bytes as u64]);
        }
        Reader::WriteModel => return run_write(library, read),
    };
    Outcome {
        told: vec![u64::from(refusal)],
        rooms: vec![Room::floats(&out)],
    }
}

fn run_write(library: &dyn Library, read: &Read) -> Outcome {
    let (t, starts) = (table(&read.table), &read.starts);
    let mut out = vec![FILL as u8; read.out];
    let (refusal, bytes) = library.write_model(read.features, read.trees, &t, starts, &mut out);
    Outcome {
        told: vec![u64::from(refusal), bytes as u64],
        rooms: vec![Room::bytes(&out)],
    }
}

fn run_file(library: &dyn Library, file: &File) -> Outcome {
    let [value, feature, threshold, score, on_true, on_false] = file.nodes;
    let mut owned = Owned::new(&Lengths {
        nodes: [value, feature, threshold, score, on_true, on_false, 0, 0],
        starts: file.starts,
        ..Lengths::default()
    });
    let ForestRooms { nodes, starts, .. } = owned.lend();
    let answer = library.read_model(&file.bytes, &mut ModelRooms { nodes, starts });
    let mut told = vec![u64::from(answer.number), answer.place as u64];
    told.extend([answer.features, answer.trees, answer.nodes].map(u64::from));
    let mut rooms = owned.node_rooms();
    rooms.push(Room::numbers(&owned.starts));
    Outcome { told, rooms }
}

fn told_only(told: Vec<u64>) -> Outcome {
    Outcome {
        told,
        rooms: Vec::new(),
    }
}
