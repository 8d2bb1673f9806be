//! Looks at the text of the engine whether every change of the tallies goes through a function that is
//! watched: only known functions write a word; a function of the tallies' own file that others can
//! call is watched, and those of the index are called in that file alone. The build script uses this
//! file.

use crate::watched::{Watched, TALLIES, WATCHED};

/// The file of the index.
const INDEX: &str = "rows/index";

/// The functions of the index that change it.
const INDEXING: [&str; 3] = ["put_row", "clear", "enter"];

/// The tables that a function can be lent to change: the rules, the tallies and the records.
const TABLES: [&str; 3] = ["t", "q", "rs"];

/// A function, by file and name, and a table of which it writes a word.
type Writer<'a> = (&'a str, &'a str, &'a str);

/// All functions that write a word.
const WRITERS: [Writer; 6] = [
    (INDEX, "put_row", "q"),
    (INDEX, "clear", "q"),
    ("rows/records", "put", "rs"),
    ("rows/table", "put", "t"),
    (TALLIES, "put", "q"),
    (TALLIES, "shift", "q"),
];

/// A function of the engine: its file, its name, whether others can call it, and its lines.
struct Function<'a> {
    file: &'a str,
    name: &'a str,
    is_public: bool,
    lines: Vec<&'a str>,
}

/// All files of the engine, each with its text as Rust.
pub fn check(files: &[(String, String)]) -> Result<(), String> {
    let functions: Vec<Function> =
        files.iter().flat_map(|(file, text)| functions(file, text)).collect();
    let writing: Vec<Writer> = functions.iter().flat_map(Function::writing).collect();
    if let Some((file, name, table)) = WRITERS.iter().find(|due| !writing.contains(due)) {
        return Err(format!("{file}: no function `{name}` writes a word of `{table}`"));
    }
    if let Some((file, name, table)) = writing.iter().find(|is| !WRITERS.contains(is)) {
        return Err(format!("{file}: `{name}` writes a word of `{table}` and is not known to"));
    }
    for function in &functions {
        let told = |what| format!("{}: `{}` {what}", function.file, function.name);
        function.is_watched().map_err(told)?;
    }
    files.iter().try_for_each(|(file, text)| {
        keeps_no_table(file, text)?;
        leaves_the_index(file, text)
    })
}

/// The lines of a text that are no comments.
fn lines(text: &str) -> impl Iterator<Item = &str> {
    text.lines().map(str::trim).filter(|line| !line.starts_with("//"))
}

/// The functions of a file.
fn functions<'a>(file: &'a str, text: &'a str) -> Vec<Function<'a>> {
    let mut functions: Vec<Function> = Vec::new();
    for line in lines(text) {
        let item = line.strip_prefix("pub ").unwrap_or(line);
        if let Some((name, _)) = item.strip_prefix("fn ").and_then(|rest| rest.split_once('(')) {
            functions.push(Function { file, name, is_public: item != line, lines: Vec::new() });
        }
        if let Some(function) = functions.last_mut() {
            function.lines.push(line);
        }
    }
    functions
}

impl<'a> Function<'a> {
    /// The tables of which it writes a word.
    fn writing(&self) -> Vec<Writer<'a>> {
        let tables = self.lines.iter().filter_map(|line| written(line));
        tables.map(|table| (self.file, self.name, table)).collect()
    }

    /// It is lent tables under their own names only and calls no method of one. If it may change
    /// tallies, and others can call it, it is watched, or is one of the index.
    fn is_watched(&self) -> Result<(), String> {
        let is_strange = |line: &str| {
            lent(line).any(|name| !TABLES.contains(&name))
                || keeps(line)
                || TABLES.iter().any(|t| asks(line, t))
        };
        if let Some(line) = self.lines.iter().find(|line| is_strange(line)) {
            return Err(format!("may change a table in a way that is not known: `{line}`"));
        }
        let may_change = self.lines.iter().flat_map(|line| lent(line)).any(|name| name == "q");
        let is_listed = |due: &Watched| (due.file, due.name) == (self.file, self.name);
        let is_known = match self.file {
            TALLIES => !self.is_public || WATCHED.iter().any(is_listed),
            INDEX => INDEXING.contains(&self.name),
            _ => true,
        };
        match may_change && !is_known {
            true => Err("may change tallies and is not watched".to_string()),
            false => Ok(()),
        }
    }
}

/// The table of which a line writes a word, or may begin to. A method of a part of a table may write.
fn written(line: &str) -> Option<&str> {
    let (table, rest) = line.split_once('[')?;
    let is_name = !table.is_empty() && table.chars().all(is_of_a_name);
    let may_write = rest.contains('=') || !rest.contains(']') || rest.contains("].");
    (is_name && may_write).then_some(table)
}

/// The step of an iterator. It changes where a walk stands; a walk holds tables that it may read alone.
const STEP: &str = "fn next(&mut self) ";

/// The names of what a line lends to be changed; an empty one where it has none.
fn lent(line: &str) -> impl Iterator<Item = &str> {
    let line = line.strip_prefix(STEP).unwrap_or(line);
    line.match_indices("&mut").map(|(at, _)| {
        let before = line[..at].trim_end().trim_end_matches(':');
        before.rsplit(|c| !is_of_a_name(c)).next().unwrap_or_default()
    })
}

/// A line has something that is kept to be changed, under a lifetime.
fn keeps(line: &str) -> bool {
    line.split("&'").skip(1).any(|rest| rest.trim_start_matches(is_of_a_name).starts_with(" mut"))
}

/// A line calls a method of the table.
fn asks(line: &str, table: &str) -> bool {
    line.match_indices(table).any(|(at, _)| {
        line[at + table.len()..].starts_with('.') && !line[..at].ends_with(is_of_a_name)
    })
}

/// No value of a file's types keeps a table to change.
fn keeps_no_table(file: &str, text: &str) -> Result<(), String> {
    match lines(text).find(|line| keeps(line)) {
        Some(line) => Err(format!("{file}: a table is kept to be changed: `{line}`")),
        None => Ok(()),
    }
}

/// A file other than those of the index and of the tallies uses nothing that changes the index.
fn leaves_the_index(file: &str, text: &str) -> Result<(), String> {
    if [INDEX, TALLIES].contains(&file) {
        return Ok(());
    }
    let may_change = |line: &str| {
        line.split("index::").skip(1).any(|rest| {
            let name = rest.split(|c| !is_of_a_name(c)).next().unwrap_or_default();
            name.is_empty() || INDEXING.contains(&name)
        })
    };
    match lines(text).find(|line| may_change(line)) {
        Some(line) => Err(format!("{file}: the index may be changed: `{line}`")),
        None => Ok(()),
    }
}

fn is_of_a_name(c: char) -> bool {
    c.is_ascii_alphanumeric() || c == '_'
}

#[cfg(test)]
mod tests {
    use super::*;

    /// An engine in short: its files, each with its text.
    const ENGINE: [(&str, &str); 5] = [
        (
            INDEX,
            "\
// Puts q[0] = 1.
pub fn row(q: &[u64], j: usize) -> u64
{
    q[131 * j]
}

pub fn put_row(q: &mut [u64], j: usize, x: u64)
{
    q[131 * j] = x;
}

pub fn clear(q: &mut [u64], j: usize)
{
    q[131 * j + 1] = 0;
}
",
        ),
        ("rows/records", "pub fn put(rs: &mut [u64])\n{\n    rs[0] = 1;\n}\n"),
        ("rows/table", "pub fn put(t: &mut [u64])\n{\n    t[0] = 1;\n}\n"),
        (
            TALLIES,
            "\
fn put(
    q: &mut [u64],
    at: usize,
)
{
    q[at] = 1;
    index::put_row(q, 0, 1);
}

fn shift(q: &mut [u64], d: Delta)
{
    q[0] += d.up;
}

pub fn start(t: &[u64], q: &mut [u64])
{
    put(q, 0);
    shift(q, t[0]);
}
",
        ),
        ("search/run", "pub fn run(q: &mut [u64])\n{\n    tallies::start(q);\n}\n"),
    ];

    /// What is said of the engine where a part of a file is another.
    fn changed(file: &str, part: &str, other: &str) -> Result<(), String> {
        let mut files = ENGINE.map(|(file, text)| (file.to_string(), text.to_string()));
        let (_, text) = files.iter_mut().find(|(name, _)| name == file).unwrap();
        assert!(text.contains(part), "no {part}");
        *text = text.replace(part, other);
        check(&files)
    }

    #[test]
    fn an_engine_whose_changes_are_watched_passes() {
        assert_eq!(changed(TALLIES, "", ""), Ok(()));
        assert_eq!(changed(INDEX, "pub fn row(q: &[u64]", "fn other(rs: &mut [u64]"), Ok(()));
        assert_eq!(changed("search/run", "tallies::start(q)", "index::row(q, 0)"), Ok(()));
    }

    #[test]
    fn a_function_that_does_not_write_is_named() {
        for (file, part, other, name, table) in [
            (TALLIES, "fn put(", "fn puts(", "put", "q"),
            (TALLIES, "q[0] += d.up", "let x = q[0]", "shift", "q"),
            (INDEX, "q[131 * j] = x", "row(q, j)", "put_row", "q"),
            (INDEX, "fn put_row(", "fn put_rows(", "put_row", "q"),
            (INDEX, "q[131 * j + 1] = 0", "put_row(q, j, 0)", "clear", "q"),
            ("rows/table", "t[0] = 1;", "", "put", "t"),
        ] {
            let due = format!("{file}: no function `{name}` writes a word of `{table}`");
            assert_eq!(changed(file, part, other).unwrap_err(), due);
        }
    }

    #[test]
    fn another_function_that_writes_is_named() {
        for write in
            ["q[0] += 1;", "q[0] = 1;", "q[0] =", "q[\n        0\n    ] = 1;", "q[0..2].fill(0);"]
        {
            let run = changed("search/run", "tallies::start(q);", write).unwrap_err();
            assert_eq!(run, "search/run: `run` writes a word of `q` and is not known to");
            let start = changed(TALLIES, "put(q, 0);", write).unwrap_err();
            assert_eq!(start, "rows/tallies: `start` writes a word of `q` and is not known to");
        }
        let other = changed("rows/table", "t[0] = 1;", "t[0] = 1;\n    x[0] = 1;").unwrap_err();
        assert_eq!(other, "rows/table: `put` writes a word of `x` and is not known to");
    }

    #[test]
    fn another_way_to_a_word_is_named() {
        for line in
            ["q.fill(0);", "let x = &mut q;", "words::fill(&mut q);", "let x: &'a mut [u64];"]
        {
            let run = changed("search/run", "tallies::start(q);", line).unwrap_err();
            let due = "search/run: `run` may change a table in a way that is not known";
            assert_eq!(run, format!("{due}: `{line}`"));
        }
        let next = "fn next(&mut self) -> Option<u64>\n{\n    None\n}\n\npub fn run(";
        assert_eq!(changed("search/run", "pub fn run(", next), Ok(()));
        let other =
            changed("search/run", "pub fn run(", &next.replace("next", "step")).unwrap_err();
        assert!(other.ends_with(" is not known: `fn step(&mut self) -> Option<u64>`"), "{other}");
        let run = changed("search/run", "q: &mut [u64]", "xq: &mut [u64]").unwrap_err();
        assert!(run.ends_with(" is not known: `pub fn run(xq: &mut [u64])`"), "{run}");
    }

    #[test]
    fn a_table_that_is_kept_to_be_changed_is_named() {
        let own = |field| format!("struct Walk<'a> {{\n    {field},\n}}\n\npub fn run(");
        let kept = |field| changed("search/run", "pub fn run(", &own(field));
        assert_eq!(kept("q: &'a [u64]"), Ok(()));
        let due = "search/run: a table is kept to be changed: `q: &'a mut [u64],`";
        assert_eq!(kept("q: &'a mut [u64]").unwrap_err(), due);
    }

    #[test]
    fn a_change_that_is_not_watched_is_named() {
        let due = |file, name| format!("{file}: `{name}` may change tallies and is not watched");
        let shift = changed(TALLIES, "fn shift(", "pub fn shift(").unwrap_err();
        assert_eq!(shift, due(TALLIES, "shift"));
        for name in ["restart", "sweep"] {
            let start = changed(TALLIES, "fn start(", &format!("fn {name}(")).unwrap_err();
            assert_eq!(start, due(TALLIES, name));
        }
        let row = changed(INDEX, "fn row(q: &[u64]", "fn row(q: &mut [u64]").unwrap_err();
        assert_eq!(row, due(INDEX, "row"));
    }

    #[test]
    fn a_use_of_the_index_from_elsewhere_is_named() {
        for line in ["index::put_row(q, 0, 1);", "use rows::index::clear;", "use rows::index::*;"] {
            let run = changed("search/run", "tallies::start(q);", line).unwrap_err();
            assert_eq!(run, format!("search/run: the index may be changed: `{line}`"));
        }
    }
}
