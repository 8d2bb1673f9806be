//! The fields of a question in a file of cases: lines of a key and what follows it.

use optbook::Order;
use port::Places;

/// A line's first word, and what follows it.
pub fn key_and_value(line: &str) -> (&str, &str) {
    line.split_once(' ').unwrap_or((line, ""))
}

/// The values of lines with these keys, and of no more lines.
pub fn values<'a, const N: usize>(
    keys: [&str; N],
    lines: &[&'a str],
) -> Result<[&'a str; N], String> {
    if lines.len() != N {
        return Err(format!("the lines {} are due, not {} lines", keys.join(", "), lines.len()));
    }
    let mut values = [""; N];
    for ((due, line), value) in keys.iter().zip(lines).zip(&mut values) {
        *value = match key_and_value(line) {
            (key, value) if key == *due => value,
            (key, _) => return Err(format!("`{due}` is due, not `{key}`")),
        };
    }
    Ok(values)
}

/// As many numbers as are due, and no more.
pub fn numbers<T: std::str::FromStr, const N: usize>(text: &str) -> Result<[T; N], String> {
    let numbers: Option<Vec<T>> = text.split(' ').map(|word| word.parse().ok()).collect();
    let numbers = numbers.and_then(|numbers| numbers.try_into().ok());
    numbers.ok_or(format!("{N} numbers are due, not `{text}`"))
}

/// Any number of numbers, also none.
pub fn list<T: std::str::FromStr>(text: &str) -> Result<Vec<T>, String> {
    let words = text.split(' ').filter(|_| !text.is_empty());
    let numbers: Option<Vec<T>> = words.map(|word| word.parse().ok()).collect();
    numbers.ok_or(format!("numbers are due, not `{text}`"))
}

/// The lengths of the five tables.
pub fn places(text: &str) -> Result<Places, String> {
    let [pos, neg, decided, trues, redundant] = numbers(text)?;
    Ok(Places { derived: [pos, neg], records: [decided, trues, redundant] })
}

/// The three words of an order.
pub fn order(text: &str) -> Result<Order, String> {
    let [wanted, unwanted, standard] = numbers(text)?;
    Ok(Order { wanted, unwanted, standard })
}

/// The three words of a site's order, and the lengths of its five tables.
pub fn order_and_places(text: &str) -> Result<(Order, Places), String> {
    let [wanted, unwanted, standard, lengths @ ..]: [u64; 8] = numbers(text)?;
    let [pos, neg, decided, trues, redundant] = lengths.map(|length| length as usize);
    let places = Places { derived: [pos, neg], records: [decided, trues, redundant] };
    Ok((Order { wanted, unwanted, standard }, places))
}

#[cfg(test)]
mod tests {
    use super::*;

    #[test]
    fn each_number_has_its_place() {
        let Places { derived, records } = places("1 2 3 4 5").unwrap();
        assert_eq!((derived, records), ([1, 2], [3, 4, 5]));
        let due = Order { wanted: 6, unwanted: 7, standard: 8 };
        assert_eq!(order("6 7 8"), Ok(due));
        let (order, Places { derived, records }) = order_and_places("6 7 8 1 2 3 4 5").unwrap();
        assert_eq!((order, derived, records), (due, [1, 2], [3, 4, 5]));
    }

    #[test]
    fn a_list_has_any_length() {
        assert_eq!(list("6 7 8"), Ok(vec![6, 7, 8]));
        assert_eq!(list::<u64>(""), Ok(Vec::new()));
        assert_eq!(list::<u64>("6  7"), Err("numbers are due, not `6  7`".to_string()));
    }

    #[test]
    fn what_is_due_is_told() {
        assert_eq!(order("6 7"), Err("3 numbers are due, not `6 7`".to_string()));
        assert_eq!(order("6 7 8 9"), Err("3 numbers are due, not `6 7 8 9`".to_string()));
        assert_eq!(order("6 7 -8"), Err("3 numbers are due, not `6 7 -8`".to_string()));
        assert_eq!(values(["a", "b"], &["a 1", "b 2 3"]), Ok(["1", "2 3"]));
        assert_eq!(values(["a", "b"], &["b 1", "a"]), Err("`a` is due, not `b`".to_string()));
        let lines = Err("the lines a, b are due, not 1 lines".to_string());
        assert_eq!(values(["a", "b"], &["a"]), lines);
    }
}
