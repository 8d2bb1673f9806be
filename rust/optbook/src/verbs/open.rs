//! `optbook open`: the proved verdicts on every setting of options that are left open, in one call of
//! the library.

use super::check::{limits, LIMITS};
use super::Verb;
use crate::arguments::{Arguments, ANY};
use crate::ending::{status_of, Failure, Printed};
use crate::files::{mistake, read_sheet};
use crate::waiting;
use optbook::engine::{undecided, Checked, Kind, Tried, Undecided, Verdict};
use optbook::outcome::in_words;
use optbook::sheet::Sheet;
use optbook::text::set_text;
use optbook::{option, OPTIONS};

pub const VERB: Verb = Verb {
    name: "open",
    takes: "BOOK ORDER NAMES... [--allowance N] [--places N]",
    does: "says whether an order can be built whatever is chosen for up to 10 options that are open",
    example: "optbook open examples/plant.book examples/plant.order biofilter leachate_tank",
    more: "\
NAMES are the options that the buyer has not decided. Every setting of them is checked, as if those
that are fitted were wanted and the others unwanted: first the one with all of them left out, last the
one with all of them fitted, in ascending order as words. None of them is taken as wanted for being
standard. The first line is

  always       every setting can be built
  sometimes    some settings can be built, but not all
  never        no setting can be built
  stopped ...  a setting stopped without a verdict, and no further one was checked

The second line is the last setting that was checked, and then comes what `optbook check` prints of it.
An open option that BOOK or ORDER wants or does not want is refused (number 20), as are more than 10
(number 19).

--allowance N, --places N  as of `optbook check`, for each setting

A line on standard error tells how long it has taken, after 2 seconds and then now and then.

Exit status: 0 always, 1 never, 2 refused, 3 stopped, 4 sometimes; 64 bad command line, 65 a mistake
in BOOK, ORDER or NAMES.
",
    files: (2, ANY),
    flags: &LIMITS,
    repeated: &[],
    switches: &[],
    run,
};

/// The status where some settings can be built, but not all.
const SOMETIMES: i32 = 4;

fn run(arguments: &Arguments) -> Result<Printed, Failure> {
    let limits = limits(arguments)?;
    let (files, names) = arguments.files.split_at(2);
    let sheet = read_sheet(files)?;
    let open = open_options(&sheet, names).map_err(|what| mistake("NAMES", what))?;
    let (book, order) = (sheet.book(), sheet.order());
    let call = || undecided(&book, order, open, limits);
    let tried = waiting::told(call, |time| {
        eprintln!("optbook: {} settings to try, {} s", settings(open), time.as_secs());
    })?;
    Ok(told(open, &tried, &sheet.names))
}

/// The options with these names, as a set.
fn open_options(sheet: &Sheet, names: &[String]) -> Result<u64, String> {
    let mut open = 0;
    for name in names {
        let option = sheet.find(name)?;
        if open & option != 0 {
            return Err(format!("`{name}` stands twice: expected it once"));
        }
        open |= option;
    }
    Ok(open)
}

/// So many settings have these open options, of which there are no more than the library tries.
fn settings(open: u64) -> u64 {
    1 << open.count_ones()
}

/// The number of a setting of these open options, counted from 1 in ascending order.
fn number(open: u64, setting: u64) -> u64 {
    let options = (0..OPTIONS).map(option).filter(|option| open & option != 0);
    let bits = options.enumerate().filter(|(_, option)| setting & option != 0);
    1 + bits.map(|(bit, _)| 1 << bit).sum::<u64>()
}

/// What is printed: the verdict, and the last setting with what its check ended with; or the refusal.
fn told(open: u64, tried: &Undecided, names: &[String]) -> Printed {
    let (text, status) = match tried {
        Ok(Tried { verdict, setting, last }) => {
            let (verdict, status) = in_words_and_status(*verdict);
            let [fitted, left_out] =
                [*setting, open & !setting].map(|options| set_text(options, names));
            let (number, of) = (number(open, *setting), settings(open));
            let setting = format!("setting {number} of {of}: fitted {fitted}; left out {left_out}");
            (format!("{verdict}\n{setting}\n{}", in_words(last, names)), status)
        }
        Err(number) => (in_words(&Checked::refused(*number), names), status_of(Kind::Refused)),
    };
    Printed { bytes: text.into_bytes(), status }
}

fn in_words_and_status(verdict: Verdict) -> (&'static str, i32) {
    match verdict {
        Verdict::Always => ("always: every setting of the open options can be built", 0),
        Verdict::Sometimes => {
            ("sometimes: some settings of the open options can be built, but not all", SOMETIMES)
        }
        Verdict::Never => {
            ("never: no setting of the open options can be built", status_of(Kind::Cannot))
        }
        Verdict::Stopped => (
            "stopped: a setting of the open options has no verdict, and no further one was tried",
            status_of(Kind::Stopped),
        ),
    }
}

#[cfg(test)]
mod tests {
    use super::*;
    use optbook::engine::{Answer, Record};

    fn tried(verdict: Verdict, setting: u64, kind: Kind, number: u32) -> Undecided {
        let records = vec![Record { decided: 1, fitted: 1, struck: 2 }];
        let answer = Answer { kind, number, branchings: 2, derived: 0, records: 1 };
        let last = Checked { answer, derived: Vec::new(), records };
        Ok(Tried { verdict, setting, last })
    }

    /// Of the options a, b and c, of which a and c are open.
    fn text_and_status(tried: &Undecided) -> (String, i32) {
        let Printed { bytes, status } = told(5, tried, &["a", "b", "c"].map(str::to_string));
        (String::from_utf8(bytes).unwrap(), status)
    }

    #[test]
    fn the_verdict_stands_before_the_last_setting_and_its_outcome() {
        let due = "sometimes: some settings of the open options can be built, but not all\n\
                   setting 4 of 4: fitted a c; left out (none)\n\
                   can be built: some choice of options keeps every rule and wish\n\
                   branchings 2, derived rules 0, records 1\n\
                   record: fitted a; left out (none); struck b\n";
        let sometimes = tried(Verdict::Sometimes, 5, Kind::Can, 0);
        assert_eq!(text_and_status(&sometimes), (due.to_string(), 4));
    }

    #[test]
    fn a_stop_is_told_with_its_setting() {
        let (text, status) = text_and_status(&tried(Verdict::Stopped, 4, Kind::Stopped, 10));
        let due = "stopped: a setting of the open options has no verdict, and no further one was \
                   tried\n\
                   setting 3 of 4: fitted c; left out a\n\
                   stopped without a verdict, number 10: another branching is due and the allowance \
                   is spent\n";
        assert!(text.starts_with(due), "{text}");
        assert_eq!(status, 3);
    }

    #[test]
    fn each_verdict_has_its_word_and_its_status() {
        let of = |verdict, kind| {
            let (text, status) = text_and_status(&tried(verdict, 5, kind, 0));
            (text.split(':').next().unwrap().to_string(), status)
        };
        assert_eq!(of(Verdict::Always, Kind::Can), ("always".to_string(), 0));
        assert_eq!(of(Verdict::Never, Kind::Cannot), ("never".to_string(), 1));
    }

    #[test]
    fn a_refusal_is_told_as_a_check_tells_it() {
        let due = "refused, number 20: an open option is also wanted or unwanted\n\
                   branchings 0, derived rules 0, records 0\n";
        assert_eq!(text_and_status(&Err(20)), (due.to_string(), 2));
    }

    #[test]
    fn settings_are_counted_in_ascending_order() {
        let numbers = [0, 2, 8, 10, 1 << 63, 1 << 63 | 10].map(|s| number(1 << 63 | 10, s));
        assert_eq!(numbers, [1, 2, 3, 4, 5, 8]);
        assert_eq!([number(0, 0), settings(0), settings(0x3ff)], [1, 1, 1024]);
    }

    #[test]
    fn names_are_those_of_the_book_each_once() {
        let sheet = Sheet::of("b", "options: a b c\n").unwrap();
        let of = |names: &[&str]| {
            let names: Vec<String> = names.iter().map(ToString::to_string).collect();
            open_options(&sheet, &names)
        };
        assert_eq!([of(&[]), of(&["c", "a"])], [Ok(0), Ok(5)]);
        assert_eq!(of(&["a", "b", "a"]), Err("`a` stands twice: expected it once".to_string()));
        let unknown = "no option is named `d`: expected a name of an `options:` line";
        assert_eq!(of(&["d"]), Err(unknown.to_string()));
    }
}
