//! The table of filters in the README.
//!
//! Whatever stands between backquotes in one of its rows is a filter. One that begins with a comparison takes the place
//! of the last in the row's first filter: `<= 3` after `a == 1 && b == 2` is `a == 1 && b <= 3`, and after `b` `b <= 3`.

/// The line that opens the table.
const HEAD: &str = "| filter | shows |";

/// The filters of the table in their order, or why there is none.
pub(super) fn filters(text: &str) -> Result<Vec<String>, String> {
    let rows = text.lines().skip_while(|line| *line != HEAD).skip(2).take_while(|line| line.starts_with('|'));
    let filters: Vec<String> = rows.map(of_row).collect::<Result<Vec<_>, _>>()?.concat();
    if filters.is_empty() {
        return Err(format!("no filter below a line {HEAD}"));
    }
    Ok(filters)
}

/// The filters of a row.
fn of_row(row: &str) -> Result<Vec<String>, String> {
    let pieces: Vec<&str> = row.split('`').collect();
    let (true, Some(first)) = (pieces.len() % 2 == 1, pieces.get(1)) else {
        return Err(format!("no filter between backquotes: {row}"));
    };
    Ok(pieces.iter().skip(1).step_by(2).map(|piece| whole(first, piece)).collect())
}

/// A filter as it is to be typed.
fn whole(first: &str, piece: &str) -> String {
    if piece.starts_with(|start: char| start.is_alphabetic()) {
        return piece.to_string();
    }
    let last = first.rsplit("&& ").next().unwrap_or(first);
    let before = &first[..first.len() - last.len()];
    let field = last.split(' ').next().unwrap_or(last);
    format!("{before}{field} {piece}")
}

#[cfg(test)]
mod tests {
    use super::*;

    #[test]
    fn filters_of_a_table() {
        let text = "`no`\n\n| filter | shows |\n|---|---|\n| `a == 1` or `b == 2` | all |\n\
                    | `c` | more; `== 3`: less; `d > 4` |\n| `e == 5 && f == 6` | both; `<= 6`: or before |\n\n\
                    | `no` | more |\n";
        let wanted = ["a == 1", "b == 2", "c", "c == 3", "d > 4", "e == 5 && f == 6", "e == 5 && f <= 6"];
        assert_eq!(filters(text), Ok(wanted.map(String::from).to_vec()));
    }

    #[test]
    fn no_table_and_no_filter() {
        for text in ["", "| filter | shows |\n|---|---|\n", "| filter | shows |\n|---|---|\n| a == 1 | all |\n"] {
            assert!(filters(text).is_err(), "{text}");
        }
        assert!(filters("| filter | shows |\n|---|---|\n| `a == 1 | all |\n").is_err());
    }
}
