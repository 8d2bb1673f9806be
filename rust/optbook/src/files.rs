//! Reading files, `-` being standard input. A mistake is told with the file's name.

use crate::ending::Failure;
use optbook::mistake::{Mistake, Place};
use optbook::sheet::Sheet;
use optbook::Order;
use std::io::{self, Read};
use std::{fs, str};

/// The file's name as it is told.
pub fn name(file: &str) -> &str {
    match file {
        "-" => "standard input",
        _ => file,
    }
}

/// What is told on one line, whatever a file's name is.
pub fn on_one_line(told: impl ToString) -> String {
    told.to_string().replace(char::is_control, "?")
}

pub fn read_bytes(file: &str) -> Result<Vec<u8>, Failure> {
    let mut bytes = Vec::new();
    let read = match file {
        "-" => io::stdin().read_to_end(&mut bytes).map(|_| bytes),
        _ => fs::read(file),
    };
    read.map_err(|error| mistake(file, error))
}

pub fn read_text(file: &str) -> Result<String, Failure> {
    String::from_utf8(read_bytes(file)?).map_err(|error| {
        let whole = &error.as_bytes()[..error.utf8_error().valid_up_to()];
        let line = 1 + whole.iter().filter(|&&byte| byte == b'\n').count();
        let place = Place { file: name(file).to_string(), line };
        Failure::from(Mistake { place, what: "a byte that is no text: expected UTF-8".to_string() })
    })
}

/// The sheet of these texts, read one after the other.
pub fn read_sheet(files: &[String]) -> Result<Sheet, Failure> {
    let mut sheet = Sheet::default();
    for file in files {
        sheet.read(name(file), &read_text(file)?)?;
    }
    Ok(sheet)
}

/// The sheet of a book, which is the first file, and each of the orders after it, read after the book.
pub fn read_orders(files: &[String]) -> Result<(Sheet, Vec<Order>), Failure> {
    let (book, orders) = files.split_at(1);
    let sheet = read_sheet(book)?;
    let of_file = |file: &String| {
        let mut with_order = sheet.clone();
        with_order.read_order(name(file), &read_text(file)?)?;
        Ok(with_order.order())
    };
    let orders = orders.iter().map(of_file).collect::<Result<_, Failure>>()?;
    Ok((sheet, orders))
}

/// So many names: those of a book where one is given, else x1, x2, ...
pub fn read_names(book: Option<&str>, options: usize) -> Result<Vec<String>, Failure> {
    let Some(file) = book else { return Ok(optbook::text::numbered_names(options)) };
    let names = read_sheet(&[file.to_string()])?.names;
    match names.len() == options {
        true => Ok(names),
        false => Err(mistake(file, format!("{} names: expected {options}", names.len()))),
    }
}

/// A mistake in a file as a whole.
pub fn mistake(file: &str, what: impl ToString) -> Failure {
    Failure::Mistake(format!("{}: {}", name(file), what.to_string()))
}

impl From<Mistake> for Failure {
    fn from(mistake: Mistake) -> Failure {
        Failure::Mistake(mistake.to_string())
    }
}
