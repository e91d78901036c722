//! Rows with empty cells, which may be left out.

use crate::csv::Csv;
use crate::fixtures::listed;
use crate::stop::Stop;

/// Leaves out the rows that have empty cells in these columns, if that may be done. Returns a note that begins with what becomes of them
/// and says how many and which they are.
pub fn leave_out<'a>(
    csv: &mut Csv,
    names: impl Iterator<Item = &'a String>,
    what: &str,
) -> Result<Option<String>, Stop> {
    let columns: Vec<usize> = names.filter_map(|it| csv.find(it)).collect();
    let all = csv.rows();
    let left = csv.leave_out(&columns);
    let (count, file) = (left.len(), csv.file());
    let which = listed(left.into_iter());
    if count > 0 && count == all {
        let why = format!("every row has an empty cell: {which}; fill in some");
        return Err(Stop::refused(file, &why));
    }
    let note =
        || format!("{file}: {what} {count} of {all} fixtures, because cells are empty: {which}");
    Ok((count > 0).then(note))
}
