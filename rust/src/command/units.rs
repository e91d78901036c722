//! Units of measurement: which there are, and how their numbers are to each other.

/// Units that measurements of a rig come in. A number with one of these is a measurement, whatever the other cells of its column are; any
/// other word behind a number may belong to a name, as in `2E`.
const UNITS: &[&str] = &[
    "m", "metre", "metres", "meter", "meters", "cm", "mm", "dm", "km", "in", "inch", "inches",
    "ft", "foot", "feet", "yd", "yard", "yards", "'", "''", "\"", "′", "″", "°", "º", "deg",
    "degs", "degree", "degrees", "rad", "%", "kg", "lb", "lbs", "kw", "hz", "khz", "lm", "lux",
];

/// Units of one capital letter: watts, volts, amperes, kelvins. Names end in these as well, so all cells must have the same.
const LETTERS: &[&str] = &["W", "V", "A", "K"];

/// The longest text behind a number that can be a unit.
const LONGEST: usize = 16;

/// Whether a text behind a number can be its unit.
pub fn is_unit(text: &str) -> bool {
    let sign = |it: char| it.is_alphabetic() || "°'\"′″%".contains(it);
    let other = |it: char| sign(it) || " /²³.".contains(it);
    text.starts_with(sign) && text.chars().all(other) && text.chars().count() <= LONGEST
}

/// Whether a unit is one of the list, or begins with one, as in `m left`.
pub fn is_known(unit: &str) -> bool {
    let word = unit.split(' ').next().unwrap_or_default();
    let word = word.trim_end_matches('.');
    let lower = word.to_lowercase();
    // a single letter counts only as it is written: `12M` may be a name
    UNITS.contains(&if word.len() > 1 { &lower } else { word })
}

/// Whether a unit is one of the letters that may belong to a name as well.
pub fn is_letter(unit: &str) -> bool {
    LETTERS.contains(&unit)
}

/// A cell without its unit.
pub fn bare<'a>(cell: &'a str, unit: &str) -> &'a str {
    let cell = cell.trim();
    cell.strip_suffix(unit).map_or(cell, str::trim_end)
}

/// Whether the names of two columns are the same but for a unit at their end.
pub fn differ(name: &str, other: &str) -> bool {
    let plain = |name: &str| without(name).unwrap_or(name).to_lowercase();
    let some = without(name).is_some() || without(other).is_some();
    some && name != other && plain(name) == plain(other)
}

/// A column's name without the unit at its end, if it has one: `trim [m]`, `trim (m)`, `trim_m`.
fn without(name: &str) -> Option<&str> {
    let bracket = |open: char, close: char| {
        let (front, unit) = name.strip_suffix(close)?.rsplit_once(open)?;
        is_unit(unit.trim()).then_some(front)
    };
    let joined = || {
        let (front, unit) = name.rsplit_once(['_', ' '])?;
        is_known(unit).then_some(front)
    };
    let front = bracket('[', ']')
        .or_else(|| bracket('(', ')'))
        .or_else(joined)?;
    let front = front.trim_end_matches(['_', ' ']);
    (!front.is_empty()).then_some(front)
}

/// Two units of the same quantity: how many of the smaller one are one of the greater.
struct Ratio {
    times: f64,
    smaller: &'static str,
    greater: &'static str,
}

const fn ratio(times: f64, smaller: &'static str, greater: &'static str) -> Ratio {
    Ratio {
        times,
        smaller,
        greater,
    }
}

const RATIOS: [Ratio; 11] = [
    ratio(1000.0, "millimetres", "metres"),
    ratio(304.8, "millimetres", "feet"),
    ratio(100.0, "centimetres", "metres"),
    ratio(180.0 / std::f64::consts::PI, "degrees", "radians"),
    ratio(1.0 / 0.0254, "inches", "metres"),
    ratio(30.48, "centimetres", "feet"),
    ratio(25.4, "millimetres", "inches"),
    ratio(12.0, "inches", "feet"),
    ratio(10.0, "millimetres", "centimetres"),
    ratio(1.0 / 0.3048, "feet", "metres"),
    ratio(2.54, "centimetres", "inches"),
];

/// A guess at why values lie outside a range: what they look like, and what the range looks like instead. Once they are converted, two in
/// three must lie inside, and the largest must be nearly as large as that of the range: the same kind of house, measured otherwise. Units
/// that are close to each other must fit more closely, since one house may well be two or three times as large as another.
pub fn guess(values: &[f64], least: f64, greatest: f64) -> Option<(&'static str, &'static str)> {
    let largest = values.iter().fold(0.0, |most: f64, it| most.max(it.abs()));
    let usual = least.abs().max(greatest.abs());
    let larger = RATIOS.iter().map(|it| (it.times, it.smaller, it.greater));
    let smaller = RATIOS
        .iter()
        .map(|it| (1.0 / it.times, it.greater, it.smaller));
    let far = |times: f64| (largest / times / usual).ln().abs();
    let fits = larger.chain(smaller).filter(|(times, ..)| {
        let inside = |value: &&f64| (least..=greatest).contains(&(**value / times));
        let most = 3 * values.iter().filter(inside).count() >= 2 * values.len();
        let close = (0.2..5.0).contains(times);
        most && far(*times) < if close { 1.25_f64 } else { 2.0 }.ln()
    });
    let best = fits.min_by(|(one, ..), (other, ..)| far(*one).total_cmp(&far(*other)));
    best.map(|(_, here, there)| (here, there))
}

#[cfg(test)]
mod tests {
    use super::*;

    #[test]
    fn units_are_known() {
        for unit in ["m", "MM", "Deg", "deg.", "°", "'", "ft", "m left"] {
            assert!(is_unit(unit) && is_known(unit), "{unit}");
        }
        for unit in ["A", "M", "bays", "a", "B2", "LX"] {
            assert!(!is_known(unit), "{unit}");
        }
        assert!(is_letter("W") && !is_letter("E"));
        for unit in ["", "(m)", "-4", " m", "of a house in the north"] {
            assert!(!is_unit(unit), "{unit}");
        }
    }

    #[test]
    fn units_are_taken_off() {
        for (cell, unit) in [(" 4.2 m", "m"), ("4.2m ", "m"), ("4.2", ""), ("4.2 ", "m")] {
            assert_eq!(bare(cell, unit), "4.2");
        }
        assert_eq!(bare("4.2 mm", "m"), "4.2 m");
    }

    #[test]
    fn names_have_units() {
        for (name, is) in [
            ("trim_height [m]", Some("trim_height")),
            ("trim (mm)", Some("trim")),
            ("trim_mm", Some("trim")),
            ("trim ft", Some("trim")),
            ("angle [°]", Some("angle")),
            ("trim", None),
            ("trim_height", None),
            ("[m]", None),
            ("x [1]", None),
        ] {
            assert_eq!(without(name), is, "{name}");
        }
        assert!(differ("trim [m]", "trim [mm]") && differ("Trim (m)", "trim"));
        assert!(!differ("trim", "Trim") && !differ("trim [m]", "trim [m]"));
        assert!(!differ("trim [m]", "pan [m]"));
    }

    #[test]
    fn another_unit_is_guessed() {
        let trims = [5.6, 6.1, 7.0, 7.5, 8.2];
        let times = |factor: f64| trims.map(|it| it * factor);
        for (factor, here, there) in [
            (1000.0, "millimetres", "metres"),
            (100.0, "centimetres", "metres"),
            (1.0 / 1000.0, "metres", "millimetres"),
            (1.0 / 0.3048, "feet", "metres"),
            (0.3048, "metres", "feet"),
            (1.0 / 0.0254, "inches", "metres"),
        ] {
            let guess = guess(&times(factor), 5.2, 8.8);
            assert_eq!(guess, Some((here, there)), "{factor}");
        }
        let angles = [0.11, -0.05, 0.02, 0.0];
        let degrees = angles.map(f64::to_degrees);
        assert_eq!(guess(&degrees, -0.1, 0.12), Some(("degrees", "radians")));
        let offsets = [-11_630.0, -6_000.0, 0.0, 40.0, 5_800.0, 12_100.0];
        assert_eq!(
            guess(&offsets, -12.5, 12.5),
            Some(("millimetres", "metres"))
        );
        assert_eq!(guess(&times(5.0), 5.2, 8.8), None);
        assert_eq!(guess(&[13.0, 14.0, 0.0], -12.0, 12.0), None);
        assert_eq!(guess(&times(1.8), 5.2, 8.8), None);
        assert_eq!(guess(&[], 5.2, 8.8), None);
    }
}
