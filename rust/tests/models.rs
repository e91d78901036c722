//! Forests as model files: what is written is read back bit for bit, and a file that is no model is refused at the field that is wrong.

mod common;

use common::{Maker, bits, same, small};
use tailboardy::{DecisionTreeRegressor, DenseMatrix, Fault, Kind, RandomForestRegressor};

/// The only NaN in a model file, and two others.
const NAN: u64 = 0x7ff8_0000_0000_0000;
const OTHERS: [u64; 2] = [0x7ff0_0000_0000_0001, 0xfff8_0000_0000_0000];

/// The fields of the small forest's file: how many bytes each takes, and what it is called.
const FIELDS: [(usize, &str); 17] = [
    (3, "the mark"),
    (2, "the version"),
    (2, "the number of features"),
    (2, "the number of trees"),
    (4, "the number of nodes of tree 0"),
    (8, "the value of node 0 of tree 0"),
    (4, "the true child of node 0 of tree 0"),
    (2, "the feature of node 0 of tree 0"),
    (8, "the threshold of node 0 of tree 0"),
    (8, "the score of node 0 of tree 0"),
    (8, "the value of node 1 of tree 0"),
    (4, "the true child of node 1 of tree 0"),
    (8, "the value of node 2 of tree 0"),
    (4, "the true child of node 2 of tree 0"),
    (4, "the number of nodes of tree 1"),
    (8, "the value of node 0 of tree 1"),
    (4, "the true child of node 0 of tree 1"),
];

fn refused(bytes: &[u8]) -> String {
    let refusal = RandomForestRegressor::from_model_bytes(bytes).unwrap_err();
    let Some(Fault::Model(fault)) = refusal.fault() else {
        panic!("{refusal}");
    };
    assert_eq!(fault.breach.cause(), refusal.cause());
    refusal.to_string()
}

/// A file written by the test itself.
fn plainly(forest: &RandomForestRegressor) -> Vec<u8> {
    let mut file = b"RGF\x01\x00".to_vec();
    for size in [forest.n_features(), forest.n_trees()] {
        file.extend((size as u16).to_le_bytes());
    }
    let number = |number: f64| match number.is_nan() {
        true => NAN.to_le_bytes(),
        false => number.to_le_bytes(),
    };
    for tree in forest.trees() {
        file.extend((tree.n_nodes() as u32).to_le_bytes());
        for node in tree.nodes() {
            file.extend(number(node.value));
            match node.kind {
                Kind::Leaf => file.extend([0; 4]),
                Kind::Split(split) => {
                    file.extend((split.true_child as u32).to_le_bytes());
                    file.extend((split.feature as u16).to_le_bytes());
                    file.extend(number(split.threshold));
                    file.extend(number(split.score));
                }
            }
        }
    }
    file
}

#[test]
fn a_forest_is_read_back_as_it_was_written() {
    let mut maker = Maker::new(104);
    let mut forests = 0;
    for _ in 0..400 {
        let (rows, features) = (1 + maker.up_to(12), 1 + maker.up_to(3));
        let (x, y) = match maker.chance(2) {
            true => maker.plain(rows, features),
            false => (maker.matrix(rows, features), maker.numbers(rows)),
        };
        let Ok(forest) = RandomForestRegressor::fit(&x, &y, maker.parameters()) else {
            continue;
        };
        let bytes = forest.model_bytes().unwrap();
        assert_eq!(bytes, plainly(&forest));
        let read = RandomForestRegressor::from_model_bytes(&bytes).unwrap();
        assert!(same(&forest, &read));
        assert_eq!(read.n_features(), features);
        assert_eq!(read.model_bytes().unwrap(), bytes);
        assert!(read.reports().is_empty() && read.samples().is_none() && read.behind().is_none());
        let of = |forest: &RandomForestRegressor| {
            let means = forest.predict(&x).map(|it| it.into_vec());
            let parts = forest.compute_feature_importances();
            (means, parts.map(|it| it.into_vec()))
        };
        assert_eq!(of(&read), of(&forest));
        forests += 1;
    }
    assert!(forests > 200, "{forests}");
}

#[test]
fn a_tree_is_a_forest_of_one() {
    let (x, y) = Maker::new(5).plain(30, 3);
    let tree = DecisionTreeRegressor::fit(&x, &y, Default::default()).unwrap();
    let bytes = tree.model_bytes().unwrap();
    let read = RandomForestRegressor::from_model_bytes(&bytes).unwrap();
    assert_eq!(
        read.starts(),
        [0, u32::try_from(tree.nodes().len()).unwrap()]
    );
    assert_eq!(bits(read.nodes()), bits(tree.nodes()));
    assert_eq!(read.predict(&x).unwrap(), tree.predict(&x).unwrap());
    let mut written = Vec::new();
    tree.write_model(&mut written).unwrap();
    assert_eq!(written, bytes);
}

#[test]
fn nans_become_one_and_leaves_have_only_a_value() {
    let mut nodes = small().nodes().clone();
    let odd = [f64::INFINITY, -0.0].into_iter();
    let odd: Vec<f64> = odd.chain(OTHERS.map(f64::from_bits)).collect();
    (nodes.value, nodes.threshold, nodes.score) = (odd.clone(), odd.clone(), odd);
    (nodes.threshold[0], nodes.score[0]) = (f64::NEG_INFINITY, f64::from_bits(OTHERS[1]));
    nodes.feature[3] = 9;
    let odd = RandomForestRegressor::from_table(2, vec![0, 3, 4], nodes).unwrap();
    let bytes = odd.model_bytes().unwrap();
    assert_eq!(bytes, plainly(&odd));
    let read = RandomForestRegressor::from_model_bytes(&bytes).unwrap();
    let numbers = |list: &[f64]| list.iter().map(|it| it.to_bits()).collect::<Vec<_>>();
    let nodes = read.nodes();
    let (infinite, negative) = (f64::INFINITY.to_bits(), (-0.0_f64).to_bits());
    assert_eq!(numbers(&nodes.value), [infinite, negative, NAN, NAN]);
    let lowest = f64::NEG_INFINITY.to_bits();
    assert_eq!(numbers(&nodes.threshold), [lowest, 0, 0, 0]);
    assert_eq!(numbers(&nodes.score), [NAN, 0, 0, 0]);
    assert_eq!(nodes.feature, [1, 0, 0, 0]);
}

#[test]
fn a_file_that_is_cut_off_is_told_by_the_field() {
    let bytes = small().model_bytes().unwrap();
    let all: usize = FIELDS.iter().map(|(length, _)| length).sum();
    assert_eq!(bytes.len(), all);
    let advice = "the file is cut off: copy it again, or write it again";
    let mut begin = 0;
    for (length, field) in FIELDS {
        for end in begin..begin + length {
            let what = match end {
                0 => "the file is empty".to_owned(),
                end if end == begin => format!("the file ends before {field}"),
                end => format!("the file ends after {end} bytes, in the middle of {field}"),
            };
            assert_eq!(
                refused(&bytes[..end]),
                format!("refusal 14 (file ends early): byte {begin}: {what}; {advice}")
            );
        }
        begin += length;
    }
}

/// Where bytes of that forest's file are replaced, what by, and what is told.
const DAMAGED: &[(usize, &[u8], &str)] = &[
    (
        0,
        b"PK\x03",
        "15 (not such a file): byte 0: the file begins with \"PK\\x03\", not with the mark \"RGF\"",
    ),
    (
        2,
        b"f",
        "15 (not such a file): byte 0: the file begins with \"RGf\", not with the mark \"RGF\"",
    ),
    (
        3,
        &[2],
        "15 (not such a file): byte 3: the version is 2, but only version 1 is read",
    ),
    (
        4,
        &[1],
        "15 (not such a file): byte 3: the version is 257, but only version 1 is read",
    ),
    (
        5,
        &[0],
        "16 (bad field): byte 5: the number of features is 0, but must be 1 to 1024",
    ),
    (
        5,
        &[1, 4],
        "16 (bad field): byte 5: the number of features is 1025, but must be 1 to 1024",
    ),
    (
        7,
        &[0],
        "16 (bad field): byte 7: the number of trees is 0, but must be 1 to 1024",
    ),
    (
        7,
        &[255, 255],
        "16 (bad field): byte 7: the number of trees is 65535, but must be 1 to 1024",
    ),
    (
        9,
        &[0],
        "16 (bad field): byte 9: the number of nodes of tree 0 is 0, but must be 1 to 4294967295",
    ),
    (
        67,
        &[255, 255, 255, 255],
        "16 (bad field): byte 67: the number of nodes of tree 1 is 4294967295, but must be 1 to 4294967292",
    ),
    (
        13,
        &[1, 0, 0, 0, 0, 0, 0xf0, 0x7f],
        "16 (bad field): byte 13: the value of node 0 of tree 0 has the bits 7ff0000000000001, but the only NaN in a model file is 7ff8000000000000",
    ),
    (
        78,
        &[0xff],
        "16 (bad field): byte 71: the value of node 0 of tree 1 has the bits fff8000000000000, but the only NaN in a model file is 7ff8000000000000",
    ),
    (
        21,
        &[2],
        "16 (bad field): byte 21: the true child of node 0 of tree 0 is 2, but must be 1 to 1, or 0 for a leaf",
    ),
    (
        51,
        &[1],
        "16 (bad field): byte 51: the true child of node 1 of tree 0 is 1, but must be 0, because the tree does not have two nodes after this one",
    ),
    (
        25,
        &[2],
        "16 (bad field): byte 25: the feature of node 0 of tree 0 is 2, but must be 0 to 1",
    ),
    (
        33,
        &[0xf8, 0xff],
        "16 (bad field): byte 27: the threshold of node 0 of tree 0 has the bits fff8000000000000, but the only NaN in a model file is 7ff8000000000000",
    ),
    (
        41,
        &[0xf9, 0x7f],
        "16 (bad field): byte 35: the score of node 0 of tree 0 has the bits 7ff9000000000000, but the only NaN in a model file is 7ff8000000000000",
    ),
    (
        7,
        &[1],
        "17 (bytes left over): byte 67: the last node ends here, but 16 bytes are left over",
    ),
];

#[test]
fn a_damaged_field_is_told_with_what_it_holds() {
    let whole = small().model_bytes().unwrap();
    for (at, by, why) in DAMAGED {
        let mut bytes = whole.clone();
        bytes[*at..at + by.len()].copy_from_slice(by);
        let told = refused(&bytes);
        let told = told.rsplit_once("; ").unwrap().0;
        assert_eq!(told, format!("refusal {why}"));
    }
    let mut more = whole;
    more.push(0);
    assert_eq!(
        refused(&more),
        "refusal 17 (bytes left over): byte 83: the last node ends here, but 1 byte is left over; \
         something was added to the file: copy it again, or write it again"
    );
}

/// Any bytes are a model or are refused at a field, and what is a model is written as it was read.
#[test]
fn any_bytes_are_read_or_told() {
    let mut maker = Maker::new(17);
    let whole = small().model_bytes().unwrap();
    let (mut read, mut numbers) = (0, [0; 18]);
    for _ in 0..20_000 {
        let mut bytes = whole.clone();
        for _ in 0..=maker.up_to(2) {
            let at = maker.up_to(bytes.len() - 1);
            bytes[at] = maker.one_of(&[0, 1, 2, 3, 0x7f, 0xf0, 0xf8, 0xff]);
        }
        match maker.up_to(3) {
            0 => bytes.truncate(maker.up_to(bytes.len())),
            1 => bytes.resize(bytes.len() + maker.up_to(12), maker.one_of(&[0, 255])),
            _ => (),
        }
        match RandomForestRegressor::from_model_bytes(&bytes) {
            Ok(forest) => {
                assert_eq!(forest.model_bytes().unwrap(), bytes);
                read += 1;
            }
            Err(refusal) => {
                assert!(
                    matches!(refusal.fault(), Some(Fault::Model(_))),
                    "{bytes:?}"
                );
                numbers[refusal.number() as usize] += 1;
            }
        }
    }
    assert!(read > 1000, "{read}");
    assert!(numbers[14..].iter().all(|it| *it > 500), "{numbers:?}");
    assert_eq!(numbers[..14], [0; 14]);
}

#[test]
fn a_model_of_many_rows_predicts_them_all() {
    let (x, y) = Maker::new(9).plain(200, 2);
    let forest = RandomForestRegressor::fit(&x, &y, Default::default()).unwrap();
    let read = RandomForestRegressor::from_model_bytes(&forest.model_bytes().unwrap()).unwrap();
    let rows = tailboardy::MAX_ROWS + 9;
    let many = Maker::new(3).plain(rows, 2).0;
    assert_eq!(read.predict(&many).unwrap(), forest.predict(&many).unwrap());
    let wide = DenseMatrix::from_2d_array(&[[1.0, 2.0, 3.0]]).unwrap();
    assert_eq!(read.predict(&wide).unwrap_err().number(), 2);
}
