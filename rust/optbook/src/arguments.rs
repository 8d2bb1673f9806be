//! The command line after the verb: files, flags with a value each, and switches, which have none. Some flags
//! may be repeated.

use crate::ending::Failure;
use std::ops::RangeInclusive;

/// How many files a verb takes, at least and at most.
pub type Files = (usize, usize);

/// As many files as are given.
pub const ANY: usize = usize::MAX;

/// The files, the flags and the switches of a command line.
#[derive(Debug, Default)]
pub struct Arguments {
    pub files: Vec<String>,
    flags: Vec<(String, String)>,
    repeated: Vec<(String, String)>,
    switches: Vec<String>,
}

impl Arguments {
    /// Reads the words of a verb that knows these flags, those that may be repeated and switches, and takes
    /// so many files. What stands after a flag that may be repeated is no file.
    pub fn read(
        words: &[String],
        flags: &[&str],
        repeated: &[&str],
        switches: &[&str],
        files: Files,
    ) -> Result<Arguments, Failure> {
        let mut read = Arguments::default();
        let mut words = words.iter();
        while let Some(word) = words.next() {
            if !word.starts_with('-') || word == "-" {
                read.files.push(word.clone());
            } else if read.value(word).is_some() || read.has(word) {
                return usage(format!("`{word}` is given twice: expected it once"));
            } else if switches.contains(&word.as_str()) {
                read.switches.push(word.clone());
            } else {
                let values = match word.as_str() {
                    flag if flags.contains(&flag) => &mut read.flags,
                    flag if repeated.contains(&flag) => &mut read.repeated,
                    _ => return usage(format!("`{word}` is unknown here")),
                };
                let Some(value) = words.next() else {
                    return usage(format!("nothing stands after `{word}`: expected its value"));
                };
                values.push((word.clone(), value.clone()));
            }
        }
        let (least, most) = files;
        if !(least..=most).contains(&read.files.len()) {
            let expected = match most {
                ANY => format!("{least} at least"),
                _ if least == most => least.to_string(),
                _ => format!("{least} at least and {most} at most"),
            };
            return usage(format!("{} files are given: expected {expected}", read.files.len()));
        }
        if read.stdin_uses() > 1 {
            return usage("`-` stands twice: standard input is read once".to_string());
        }
        Ok(read)
    }

    /// The value of a flag, where it is given.
    pub fn value(&self, flag: &str) -> Option<&str> {
        self.flags.iter().find(|(name, _)| name == flag).map(|(_, value)| value.as_str())
    }

    /// The values of a flag that may be repeated, in the sequence in which they are given.
    pub fn values(&self, flag: &str) -> Vec<&str> {
        let given = self.repeated.iter().filter(|(name, _)| name == flag);
        given.map(|(_, value)| value.as_str()).collect()
    }

    /// The switch is given.
    pub fn has(&self, switch: &str) -> bool {
        self.switches.iter().any(|name| name == switch)
    }

    /// The number of a flag, where it is given.
    pub fn number(&self, flag: &str, range: RangeInclusive<u32>) -> Result<Option<u32>, Failure> {
        let Some(value) = self.value(flag) else { return Ok(None) };
        match value.parse() {
            Ok(number) if range.contains(&number) => Ok(Some(number)),
            _ => {
                let (least, most) = range.into_inner();
                usage(format!("`{flag} {value}`: expected a number from {least} to {most}"))
            }
        }
    }

    fn stdin_uses(&self) -> usize {
        let values = self.flags.iter().map(|(_, value)| value);
        self.files.iter().chain(values).filter(|word| *word == "-").count()
    }
}

fn usage<T>(what: String) -> Result<T, Failure> {
    Err(Failure::Usage(what))
}

#[cfg(test)]
mod tests {
    use super::*;

    fn read(line: &str) -> Result<Arguments, String> {
        let words: Vec<String> = line.split_whitespace().map(str::to_string).collect();
        let flags = ["--allowance", "--names"];
        let read = Arguments::read(&words, &flags, &["--pair"], &["--same-names"], (1, 2));
        read.map_err(|failure| failure.to_string())
    }

    #[test]
    fn files_and_flags_stand_in_any_order() {
        let arguments = read("--allowance 7 book - --names n").unwrap();
        assert_eq!(arguments.files, ["book", "-"]);
        assert_eq!(arguments.value("--names"), Some("n"));
        assert!(matches!(arguments.number("--allowance", 0..=9), Ok(Some(7))));
        assert!(matches!(read("book").unwrap().number("--allowance", 0..=9), Ok(None)));
    }

    #[test]
    fn a_switch_has_no_value() {
        let arguments = read("a --same-names b").unwrap();
        assert_eq!(arguments.files, ["a", "b"]);
        assert!(arguments.has("--same-names"));
        assert!(!read("a b").unwrap().has("--same-names"));
    }

    #[test]
    fn a_flag_that_may_be_repeated_has_each_value_in_sequence() {
        let arguments = read("--pair y a --pair x --names n --pair x").unwrap();
        assert_eq!(arguments.files, ["a"]);
        assert_eq!(arguments.values("--pair"), ["y", "x", "x"]);
        assert_eq!((arguments.value("--pair"), arguments.value("--names")), (None, Some("n")));
        assert!(arguments.values("--names").is_empty());
        assert!(read("a").unwrap().values("--pair").is_empty());
    }

    #[test]
    fn what_stands_after_a_flag_that_may_be_repeated_is_no_file() {
        let arguments = read("--pair - - --pair -").unwrap();
        assert_eq!((arguments.files.len(), arguments.values("--pair")), (1, vec!["-", "-"]));
        assert_eq!(read("a --pair --names").unwrap().values("--pair"), ["--names"]);
    }

    #[test]
    fn each_bad_command_line_is_told() {
        let due = [
            ("", "0 files are given: expected 1 at least and 2 at most"),
            ("a b c", "3 files are given: expected 1 at least and 2 at most"),
            ("a --places 3", "`--places` is unknown here"),
            ("a --allowance", "nothing stands after `--allowance`: expected its value"),
            ("a --pair b --pair", "nothing stands after `--pair`: expected its value"),
            ("a --names b --names c", "`--names` is given twice: expected it once"),
            ("a --pair b --names c --names d", "`--names` is given twice: expected it once"),
            ("a --same-names --same-names", "`--same-names` is given twice: expected it once"),
            ("- -", "`-` stands twice: standard input is read once"),
            ("- --names -", "`-` stands twice: standard input is read once"),
        ];
        for (line, what) in due {
            assert_eq!(read(line).unwrap_err(), what, "{line}");
        }
    }

    #[test]
    fn any_number_of_files_has_a_least() {
        let read = |words: &[String]| Arguments::read(words, &[], &[], &[], (1, ANY));
        let words = vec!["a".to_string(); 20];
        assert_eq!(read(&words).ok().unwrap().files.len(), 20);
        let failure = read(&[]).err().unwrap();
        assert_eq!(failure.to_string(), "0 files are given: expected 1 at least");
    }

    #[test]
    fn a_number_is_in_its_range() {
        for value in ["10", "-1", "many"] {
            let arguments = read(&format!("a --allowance {value}")).unwrap();
            let failure = arguments.number("--allowance", 0..=9).err().unwrap();
            let due = format!("`--allowance {value}`: expected a number from 0 to 9");
            assert_eq!(failure.to_string(), due);
        }
    }
}
