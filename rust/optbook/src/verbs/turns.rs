//! `optbook turns`: whether the planner can force a plant where buyer and planner settle the free options
//! in turns, and with which answers. The library says it, and the names are told here.

use super::Verb;
use crate::arguments::Arguments;
use crate::ending::{status_of, Failure, Printed};
use crate::files::read_sheet;
use optbook::engine::{turns, Kind, Response, Settled, Turns};
use optbook::outcome::{refusal, refusal_with_free};
use optbook::text::set_names;
use optbook::{free, Order};

pub const VERB: Verb = Verb {
    name: "turns",
    takes: "BOOK [ORDER]",
    does: "says whether the planner can force a plant where buyer and planner settle options in turns",
    example: "optbook turns examples/plant.book examples/plant_turns.order",
    more: "\
The free options are those that are neither wanted nor unwanted; a standard option is wanted, unless the
order is without it. They are settled in the sequence of the book's `options:` lines, the first by the
buyer, the second by the planner, and so on in turn: each is fitted or left out. The first line is

  can be forced     the planner can answer so that every rule and wish is kept, whatever the buyer says
  cannot be forced  the buyer can choose so that one is not, whatever the planner answers

Then come the turns, each with its option, and for each of the buyer's two first choices the planner's
answer with which it can still be forced: to leave out, where both answers serve, or that there is none.
For the third turn add to ORDER, as `want:` or `without:`, what was settled in the first two, and ask
again: the next free option is the buyer's.

What can be forced can be built. What cannot be forced may be buildable all the same: `optbook check` says
so. More than 12 free options are refused (number 16).

Exit status: 0 can be forced, 1 cannot, 2 refused; 64 bad command line, 65 a mistake in BOOK or ORDER.
",
    files: (1, 2),
    flags: &[],
    repeated: &[],
    switches: &[],
    run,
};

fn run(arguments: &Arguments) -> Result<Printed, Failure> {
    let sheet = read_sheet(&arguments.files)?;
    let settled = turns(&sheet.book(), sheet.order())?;
    Ok(told(&settled, sheet.order(), &sheet.names))
}

/// What is printed: the verdict, the turns and the planner's answers; or the refusal, with the free options.
fn told(settled: &Settled, order: Order, names: &[String]) -> Printed {
    let free = free(order, names.len());
    let (lines, kind) = match settled {
        Ok(turns) => {
            let kind = if turns.forced { Kind::Can } else { Kind::Cannot };
            (in_words(*turns, &set_names(free, names)), kind)
        }
        Err(16) => (vec![refusal_with_free(16, free, names)], Kind::Refused),
        Err(number) => (vec![refusal(*number)], Kind::Refused),
    };
    Printed { bytes: (lines.join("\n") + "\n").into_bytes(), status: status_of(kind) }
}

/// What the planner can force, over free options with these names, in lines.
fn in_words(turns: Turns, free: &[&str]) -> Vec<String> {
    let mut lines = vec![verdict(turns.forced, free.len()).to_string()];
    for (index, name) in free.iter().enumerate() {
        let who = if index % 2 == 0 { "buyer" } else { "planner" };
        lines.push(format!("turn {}, {who}: {name}", index + 1));
    }
    match free {
        [] => (),
        [_] => lines.push("the planner has no turn: no second option is free".to_string()),
        [first, second, ..] => {
            let choices = [("leaves out", turns.to_out), ("fits", turns.to_fitted)];
            lines.extend(choices.map(|(choice, answer)| {
                format!("if the buyer {choice} {first}: {}", answer_text(answer, second))
            }));
        }
    }
    lines
}

fn verdict(forced: bool, free: usize) -> &'static str {
    match (forced, free) {
        (true, 0) => {
            "can be forced: no option is free, and the one choice that is left keeps every rule and \
             wish"
        }
        (false, 0) => {
            "cannot be forced: no option is free, and the one choice that is left does not keep \
             every rule and wish"
        }
        (true, 1) => "can be forced: whatever the buyer says, every rule and wish is kept",
        (true, _) => {
            "can be forced: whatever the buyer says, the planner can answer so that every rule and \
             wish is kept"
        }
        (false, 1) => "cannot be forced: the buyer can choose so that a rule or wish is not kept",
        (false, _) => {
            "cannot be forced: the buyer can choose so that a rule or wish is not kept, whatever the \
             planner answers"
        }
    }
}

/// The planner's answer on the option with this name.
fn answer_text(answer: Option<Response>, name: &str) -> String {
    match answer {
        Some(Response::Out) => format!("the planner leaves out {name}"),
        Some(Response::Fitted) => format!("the planner fits {name}"),
        None => "no answer of the planner's forces it".to_string(),
    }
}

#[cfg(test)]
mod tests {
    use super::*;
    use optbook::text::numbered_names;

    const OUT: Option<Response> = Some(Response::Out);
    const FITTED: Option<Response> = Some(Response::Fitted);

    /// Of options x1, x2, ..., and an order of these words.
    fn text_and_status(settled: Settled, options: usize, words: [u64; 3]) -> (String, i32) {
        let [wanted, unwanted, standard] = words;
        let order = Order { wanted, unwanted, standard };
        let Printed { bytes, status } = told(&settled, order, &numbered_names(options));
        (String::from_utf8(bytes).unwrap(), status)
    }

    fn settled(forced: bool, to_out: Option<Response>, to_fitted: Option<Response>) -> Settled {
        Ok(Turns { forced, to_out, to_fitted })
    }

    #[test]
    fn the_turns_and_the_answers_are_told_by_names() {
        let due = "can be forced: whatever the buyer says, the planner can answer so that every \
                   rule and wish is kept\n\
                   turn 1, buyer: x1\n\
                   turn 2, planner: x2\n\
                   turn 3, buyer: x3\n\
                   if the buyer leaves out x1: the planner fits x2\n\
                   if the buyer fits x1: the planner leaves out x2\n";
        let forced = settled(true, FITTED, OUT);
        assert_eq!(text_and_status(forced, 3, [0; 3]), (due.to_string(), 0));
    }

    /// x2 is wanted, x3 is standard, and x4 is standard and unwanted.
    #[test]
    fn what_the_order_settles_has_no_turn() {
        let due = "cannot be forced: the buyer can choose so that a rule or wish is not kept, \
                   whatever the planner answers\n\
                   turn 1, buyer: x1\n\
                   turn 2, planner: x5\n\
                   if the buyer leaves out x1: no answer of the planner's forces it\n\
                   if the buyer fits x1: the planner fits x5\n";
        let open = settled(false, None, FITTED);
        assert_eq!(text_and_status(open, 5, [2, 8, 12]), (due.to_string(), 1));
    }

    #[test]
    fn with_one_free_option_the_planner_has_no_turn() {
        let turns = "turn 1, buyer: x2\nthe planner has no turn: no second option is free\n";
        let of = |forced| text_and_status(settled(forced, None, None), 2, [1, 0, 0]);
        let kept = "can be forced: whatever the buyer says, every rule and wish is kept\n";
        assert_eq!(of(true), (format!("{kept}{turns}"), 0));
        let broken = "cannot be forced: the buyer can choose so that a rule or wish is not kept\n";
        assert_eq!(of(false), (format!("{broken}{turns}"), 1));
    }

    #[test]
    fn with_no_free_option_the_one_choice_decides() {
        let of = |forced| text_and_status(settled(forced, None, None), 2, [0, 1, 3]);
        let one = "forced: no option is free, and the one choice that is left";
        assert_eq!(of(true), (format!("can be {one} keeps every rule and wish\n"), 0));
        let due = format!("cannot be {one} does not keep every rule and wish\n");
        assert_eq!(of(false), (due, 1));
    }

    #[test]
    fn a_refusal_is_told_with_the_free_options() {
        let due = "refused, number 16: more than 12 options are free: 13\n\
                   free: x1 x3 x4 x5 x6 x7 x8 x9 x10 x11 x12 x13 x15\n";
        let words = [1 << 1, 1 << 13, 0];
        assert_eq!(text_and_status(Err(16), 15, words), (due.to_string(), 2));
        let due = "refused, number 12: a standard option is above the book's last\n";
        assert_eq!(text_and_status(Err(12), 15, [0; 3]), (due.to_string(), 2));
    }
}
