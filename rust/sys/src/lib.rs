//! The boundary to the proved library, which `include/tailboardy.h` declares for C: the structs, a list of all calls ([`calls!`]) and,
//! if the library is linked, each call as a function of slices ([`linked`]).
//!
//! This is the only part of the crate `tailboardy` with `unsafe` code. The calls are safe on every input: they accept any numbers, and
//! Rust's slices guarantee what they require of the memory (docs/BOUNDARY.md). What the command needs of the C library is in [`signals`].

#[cfg(feature = "linked")]
pub mod linked;
#[cfg(target_os = "linux")]
pub mod signals;

/// The parameters of one tree. `limit` applies only if `limited` is true; the splitter is the best unless `random` is true. The best
/// splitter cuts at the midpoint of two values, or at the lower of them if `lower` is true; the random splitter ignores `lower`.
#[repr(C)]
#[derive(Debug, Clone, Copy)]
#[allow(missing_docs)]
pub struct TreeSettings {
    pub limited: bool,
    pub limit: u16,
    pub leaf: u32,
    pub split: u32,
    pub tried: u32,
    pub random: bool,
    pub lower: bool,
}

/// The same for the trees of a forest. `tried` applies only if `said` is true; otherwise it is the square root of the number of
/// features, rounded down.
#[repr(C)]
#[derive(Debug, Clone, Copy)]
#[allow(missing_docs)]
pub struct ForestSettings {
    pub limited: bool,
    pub limit: u16,
    pub leaf: u32,
    pub split: u32,
    pub said: bool,
    pub tried: u32,
    pub random: bool,
    pub lower: bool,
}

/// A refusal: its number, or 0 if there is none, and where it is. With 11, 12 and 13 `part` is the feature whose listing is damaged and
/// `place` the place in it; with 12 `row` is the lowest row that is missing from it. With 7 `part` is the tree and `place` the search of
/// the bad draw. All other fields are 0.
#[repr(C)]
#[derive(Debug, Clone, Copy, PartialEq, Eq)]
#[allow(missing_docs)]
pub struct Refusal {
    pub number: u32,
    pub part: u32,
    pub place: u32,
    pub row: u32,
}

/// The four fields of a refusal, and the report on a grown tree.
#[repr(C)]
#[derive(Debug, Clone, Copy)]
#[allow(missing_docs)]
pub struct TreeTold {
    pub number: u32,
    pub part: u32,
    pub place: u32,
    pub row: u32,
    pub nodes: u32,
    pub depth: u32,
    pub mass: f64,
    pub searches: u32,
    pub words: u32,
    pub thresholds: u32,
}

/// 0 or the number of a refusal, and the error with the number of rows that it is over.
#[repr(C)]
#[derive(Debug, Clone, Copy)]
#[allow(missing_docs)]
pub struct ErrorTold {
    pub number: u32,
    pub error: f64,
    pub rows: u32,
}

/// 0 or the number of a refusal, whether the node exists, and its entries; a leaf has only the value.
#[repr(C)]
#[derive(Debug, Clone, Copy)]
#[allow(missing_docs)]
pub struct NodeTold {
    pub number: u32,
    pub there: bool,
    pub value: f64,
    pub feature: u32,
    pub threshold: f64,
    pub score: f64,
    pub true_child: u32,
    pub false_child: u32,
}

/// 0 or the number of a refusal, and the number of bytes of a model's file.
#[repr(C)]
#[derive(Debug, Clone, Copy, PartialEq, Eq)]
#[allow(missing_docs)]
pub struct SizeTold {
    pub number: u32,
    pub bytes: usize,
}

/// 0 or the number of a refusal; if a file is refused for its bytes, the byte at which what is refused begins; and the features, trees
/// and nodes of the model that was read.
#[repr(C)]
#[derive(Debug, Clone, Copy, PartialEq, Eq)]
#[allow(missing_docs)]
pub struct ModelTold {
    pub number: u32,
    pub place: usize,
    pub features: u32,
    pub trees: u32,
    pub nodes: u32,
}

/// Passes the list of calls to a macro. For each call it has the kind in the list of answers (oracle/README.md), the name and the symbol;
/// the parameters passed by value; the slices that are written before the ones that are read, those that are read, and those that
/// are written after them, with the types of their entries; the parameters that follow them; and the result. The structs above must be in scope where it is used.
///
/// The fits have two columns of nodes more than the other calls: `node_count`, the sum of the counts of the rows that a node keeps, and
/// `node_mass`, the mass that its value was divided by, or would have been if it were above 0.
#[macro_export]
macro_rules! calls {
    ($to:ident) => {
        $to! {
            1 fit_tree = tailboardy_fit_tree()
                fills(value: f64, feature: u32, threshold: f64, score: f64, true_child: u32, false_child: u32, node_count: u32, node_mass: f64,
                    order: u32, scratch: u32, flags: bool, wholes: [u32; 6], reals: [f64; 3])
                reads(values: f64, targets: f64, weights: f64, counts: u32, listings: u32, words: u32, thresholds: f64)
                writes() (rows: usize, features: usize, plain: TreeSettings) -> TreeTold;
            2 fit_forest = tailboardy_fit_forest()
                fills(value: f64, feature: u32, threshold: f64, score: f64, true_child: u32, false_child: u32, node_count: u32, node_mass: f64,
                    starts: u32, nodes: u32, depth: u32, mass: f64, searches: u32, wordsused: u32, thresholdsused: u32,
                    order: u32, scratch: u32, flags: bool, wholes: [u32; 6], reals: [f64; 3])
                reads(values: f64, targets: f64, weights: f64, counts: u32, listings: u32, words: u32, thresholds: f64,
                    word_starts: usize, threshold_starts: usize)
                writes() (rows: usize, features: usize, trees: usize, plain: ForestSettings) -> Refusal;
            3 predict_tree = tailboardy_predict_tree(rows: usize, features: usize)
                fills() reads(values: f64, value: f64, feature: u32, threshold: f64, score: f64, true_child: u32, false_child: u32)
                writes(out: f64) () -> u32;
            4 forest_means = tailboardy_forest_means(rows: usize, features: usize, trees: usize)
                fills() reads(values: f64, starts: u32, value: f64, feature: u32, threshold: f64, score: f64, true_child: u32, false_child: u32)
                writes(out: f64) () -> u32;
            5 out_of_bag_means = tailboardy_out_of_bag_means(rows: usize, features: usize, trees: usize)
                fills() reads(values: f64, counts: u32, starts: u32,
                    value: f64, feature: u32, threshold: f64, score: f64, true_child: u32, false_child: u32)
                writes(out: f64) () -> u32;
            6 tree_importances = tailboardy_tree_importances(features: usize, by_mass: bool, mass: f64)
                fills() reads(value: f64, feature: u32, threshold: f64, score: f64, true_child: u32, false_child: u32)
                writes(out: f64) () -> u32;
            8 forest_importances = tailboardy_forest_importances(features: usize, trees: usize)
                fills() reads(starts: u32, value: f64, feature: u32, threshold: f64, score: f64, true_child: u32, false_child: u32)
                writes(out: f64) () -> u32;
            9 out_of_bag_error = tailboardy_out_of_bag_error(rows: usize)
                fills() reads(targets: f64, means: f64)
                writes() () -> ErrorTold;
            10 check_listings = tailboardy_check_listings(rows: usize, features: usize)
                fills() reads(values: f64, listings: u32)
                writes() () -> Refusal;
            11 check_tree = tailboardy_check_tree(features: usize)
                fills() reads(value: f64, feature: u32, threshold: f64, score: f64, true_child: u32, false_child: u32)
                writes() () -> u32;
            12 check_forest = tailboardy_check_forest(features: usize, trees: usize)
                fills() reads(starts: u32, value: f64, feature: u32, threshold: f64, score: f64, true_child: u32, false_child: u32)
                writes() () -> u32;
            13 read_node = tailboardy_read_node(features: usize)
                fills() reads(value: f64, feature: u32, threshold: f64, score: f64, true_child: u32, false_child: u32)
                writes() (k: usize) -> NodeTold;
            14 model_size = tailboardy_model_size(features: usize, trees: usize)
                fills() reads(starts: u32, value: f64, feature: u32, threshold: f64, score: f64, true_child: u32, false_child: u32)
                writes() () -> SizeTold;
            15 write_model = tailboardy_write_model(features: usize, trees: usize)
                fills() reads(starts: u32, value: f64, feature: u32, threshold: f64, score: f64, true_child: u32, false_child: u32)
                writes(file: u8) () -> SizeTold;
            16 read_model = tailboardy_read_model()
                fills(value: f64, feature: u32, threshold: f64, score: f64, true_child: u32, false_child: u32, starts: u32)
                reads(file: u8)
                writes() () -> ModelTold;
        }
    };
}
