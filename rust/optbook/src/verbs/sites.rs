//! `optbook sites`: the proved verdicts on the orders of several sites, which share one allowance.

use super::check::{limits, LIMITS};
use super::Verb;
use crate::arguments::{Arguments, ANY};
use crate::ending::{status_of, Failure, Printed};
use crate::files::{name, on_one_line, read_orders};
use optbook::engine::{sites, Checked, Kind, Served, Sites};
use optbook::outcome::in_words;

pub const VERB: Verb = Verb {
    name: "sites",
    takes: "BOOK ORDERS... [--allowance N] [--places N]",
    does: "checks the orders of 1 to 8 sites against one book, with one allowance for all of them",
    example: "optbook sites examples/plant.book examples/plant.order examples/plant_cannot.order \
              --allowance 10",
    more: "\
Each of ORDERS is one site's order, and is read after BOOK, as by `optbook check BOOK ORDER`: standard
options and wishes that stand in BOOK hold for every site. Options and rules stand in BOOK alone.

The allowance is divided by the number of sites, in whole branchings, and what remains goes to the
first. The sites are served in turn, each with its part and all that those before it left unused; a
refused site uses nothing. For each site a line has the file's name, and how many branchings it used of
those that it might, and then comes what `optbook check` prints. The last line has what was used in
all. With no order, or more than 8, all is refused (number 21).

--allowance N  the branchings of all sites together (1000000 if not given)
--places N     as of `optbook check`, for each site

Exit status: 0 all orders can be built, else the highest of the sites: 1 cannot, 2 refused, 3 stopped;
64 bad command line, 65 a mistake in BOOK or ORDERS.
",
    files: (1, ANY),
    flags: &LIMITS,
    repeated: &[],
    switches: &[],
    run,
};

fn run(arguments: &Arguments) -> Result<Printed, Failure> {
    let limits = limits(arguments)?;
    let (sheet, orders) = read_orders(&arguments.files)?;
    let sites = sites(&sheet.book(), &orders, limits)?;
    Ok(told(&arguments.files[1..], limits.allowance, &sites, &sheet.names))
}

/// What is printed of sites: each site's outcome under the name of its file and what it used, and then
/// what was used in all; or the refusal of all of them. The status is the highest.
fn told(files: &[String], whole: u32, sites: &Sites, names: &[String]) -> Printed {
    let (mut text, mut kinds) = (String::new(), Vec::new());
    match sites {
        Ok(served) => {
            let mut in_all = 0;
            for (file, Served { allowance, checked }) in files.iter().zip(served) {
                let (file, used) = (on_one_line(name(file)), checked.answer.branchings);
                text += &format!("site: {file}, used {used} of {allowance} branchings\n");
                text += &in_words(checked, names);
                in_all += used;
                kinds.push(checked.answer.kind);
            }
            text += &format!("all sites: used {in_all} of {whole} branchings\n");
        }
        Err(number) => {
            text += &in_words(&Checked::refused(*number), names);
            kinds.push(Kind::Refused);
        }
    }
    let status = kinds.into_iter().map(status_of).max().unwrap_or(0);
    Printed { bytes: text.into_bytes(), status }
}

#[cfg(test)]
mod tests {
    use super::*;
    use optbook::engine::{Answer, Record};

    fn served(allowance: u32, kind: Kind, number: u32, branchings: u32) -> Served {
        let records = vec![Record { decided: 1, fitted: 1, struck: 2 }];
        let answer = Answer { kind, number, branchings, derived: 0, records: 1 };
        Served { allowance, checked: Checked { answer, derived: Vec::new(), records } }
    }

    fn text_and_status(files: &[&str], whole: u32, sites: &Sites) -> (String, i32) {
        let [files, names] =
            [files, &["a", "b"]].map(|words| words.iter().map(ToString::to_string));
        let (files, names): (Vec<String>, Vec<String>) = (files.collect(), names.collect());
        let Printed { bytes, status } = told(&files, whole, sites, &names);
        (String::from_utf8(bytes).unwrap(), status)
    }

    #[test]
    fn each_site_is_told_with_what_it_used_and_then_all_together() {
        let sites = Ok(vec![served(4, Kind::Stopped, 10, 4), served(3, Kind::Can, 0, 2)]);
        let due = "site: an?order, used 4 of 4 branchings\n\
                   stopped without a verdict, number 10: another branching is due and the allowance \
                   is spent\n\
                   branchings 4, derived rules 0, records 1\n\
                   record: fitted a; left out (none); struck b\n\
                   site: standard input, used 2 of 3 branchings\n\
                   can be built: some choice of options keeps every rule and wish\n\
                   branchings 2, derived rules 0, records 1\n\
                   record: fitted a; left out (none); struck b\n\
                   all sites: used 6 of 7 branchings\n";
        assert_eq!(text_and_status(&["an\norder", "-"], 7, &sites), (due.to_string(), 3));
    }

    #[test]
    fn the_status_is_the_highest() {
        let status = |kinds: &[Kind]| {
            let sites = Ok(kinds.iter().map(|&kind| served(1, kind, 0, 0)).collect());
            text_and_status(&vec!["o"; kinds.len()], 9, &sites).1
        };
        assert_eq!(status(&[Kind::Can, Kind::Can]), 0);
        assert_eq!(status(&[Kind::Can, Kind::Cannot, Kind::Can]), 1);
        assert_eq!(status(&[Kind::Refused, Kind::Cannot]), 2);
        assert_eq!(status(&[Kind::Stopped, Kind::Refused, Kind::Can]), 3);
    }

    #[test]
    fn a_refusal_of_all_is_told_once() {
        let due = "refused, number 21: the number of sites is not 1 to 8\n\
                   branchings 0, derived rules 0, records 0\n";
        assert_eq!(text_and_status(&["o"; 9], 5, &Err(21)), (due.to_string(), 2));
        assert_eq!(text_and_status(&[], 5, &Err(21)), (due.to_string(), 2));
    }
}
