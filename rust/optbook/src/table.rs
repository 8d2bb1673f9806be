//! Lines with amounts in columns, as on a bill.

use std::array;

/// A line: what it is about, an amount in each column, and what is said after them.
pub struct Row<const COLUMNS: usize> {
    pub label: String,
    pub amounts: [String; COLUMNS],
    pub note: String,
}

/// The rows, and the sums below a ruled line. Labels and notes stand at the left of their column and amounts
/// at the right, and no line ends with a blank.
pub fn table<const COLUMNS: usize>(rows: &[Row<COLUMNS>], sums: &[Row<COLUMNS>]) -> String {
    let widest = |length: &dyn Fn(&Row<COLUMNS>) -> usize| {
        rows.iter().chain(sums).map(length).max().unwrap_or(0)
    };
    let label_width = widest(&|row| row.label.len());
    let widths: [usize; COLUMNS] =
        array::from_fn(|column| widest(&|row| row.amounts[column].len()));
    let line = |row: &Row<COLUMNS>| {
        let mut line = format!("{:label_width$}", row.label);
        for (amount, width) in row.amounts.iter().zip(widths) {
            line += &format!("  {amount:>width$}");
        }
        line += &format!("  {}", row.note);
        line.trim_end().to_string() + "\n"
    };
    let width = label_width + widths.iter().map(|width| 2 + width).sum::<usize>();
    let [rows, sums] = [rows, sums].map(|rows| rows.iter().map(line).collect::<String>());
    rows + &"-".repeat(width) + "\n" + &sums
}

#[cfg(test)]
mod tests {
    use super::*;

    fn row<const COLUMNS: usize>(
        label: &str,
        amounts: [&str; COLUMNS],
        note: &str,
    ) -> Row<COLUMNS> {
        let amounts = amounts.map(str::to_string);
        Row { label: label.to_string(), amounts, note: note.to_string() }
    }

    /// The first column is as wide as `1234`, the second as `of two`.
    #[test]
    fn each_column_is_as_wide_as_what_is_widest_in_it() {
        let rows = [row("", ["one", "of two"], ""), row("pump", ["1", "-"], "wanted")];
        let sums = [row("all", ["1234", "0"], "  +7"), row("total", ["", ""], "")];
        let due = "        one  of two\n\
                   pump      1       -  wanted\n\
                   -------------------\n\
                   all    1234       0    +7\n\
                   total\n";
        assert_eq!(table(&rows, &sums), due);
    }

    #[test]
    fn a_row_may_be_the_widest_and_a_sum_may() {
        let of = |amount, sum| table(&[row("a", [amount], "")], &[row("b", [sum], "")]);
        assert_eq!(of("10", "9"), "a  10\n-----\nb   9\n");
        assert_eq!(of("9", "10"), "a   9\n-----\nb  10\n");
    }
}
