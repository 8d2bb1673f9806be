//! What may come up on a desk, each by a name.

use crate::question::{Answers, Desk};
use port::Call;

/// A call, 0 or its refusal, and what had come of the desk before it and after it.
struct Step<'a> {
    call: Call,
    number: u32,
    before: &'a Answers,
    after: &'a Answers,
}

/// A desk, and what came of it with none of its calls, with the first, and so on.
pub struct Run<'a> {
    options: u32,
    steps: Vec<Step<'a>>,
}

/// A name, and whether it comes up on a desk.
type Sort = (&'static str, fn(&Run) -> bool);

/// All of them, in the order in which they are told.
pub const SORTS: [Sort; 35] = [
    ("no option", |run| run.options == 0),
    ("1 option", |run| run.options == 1),
    ("63 options", |run| run.options == 63),
    ("64 options", |run| run.options == 64),
    ("65 options", |run| run.options == 65),
    ("more options", |run| run.options > 65),
    ("no call", |run| run.steps.is_empty()),
    ("option 0", |run| run.refused_option(|option| option == 0)),
    ("the last option", |run| run.any(|step| step.option() == Some(run.options) && step.is_done())),
    ("option n + 1", |run| run.refused_option(|option| option == run.options.saturating_add(1))),
    ("a later option", |run| run.refused_option(|option| option > run.options.saturating_add(1))),
    ("draft 0", |run| run.any(|step| step.draft() == Some(0) && step.number == 14)),
    ("draft 1 kept", |run| run.any(|step| step.keeps() == Some(1))),
    ("draft 16 kept", |run| run.any(|step| step.keeps() == Some(16))),
    ("draft 17", |run| run.any(|step| step.draft() == Some(17) && step.number == 14)),
    ("a later draft", |run| run.any(|step| step.draft() > Some(17) && step.number == 14)),
    ("a draft never kept", |run| run.any(|step| step.number == 15)),
    ("a draft kept later", |run| {
        run.pair(|step, later| step.number == 15 && later.keeps() == step.draft())
    }),
    ("fitted instead", |run| run.any(|step| step.turns(true))),
    ("left out instead", |run| run.any(|step| step.turns(false))),
    ("set as it stood", |run| {
        run.any(|step| matches!(step.call, Call::Set { .. }) && step.is_done() && step.is_idle())
    }),
    ("cleared", |run| run.any(|step| step.clears() && !step.is_idle())),
    ("cleared where unset", |run| run.any(|step| step.clears() && step.is_idle())),
    ("an empty draft", |run| run.any(|step| step.keeps().is_some() && step.is_empty())),
    ("kept again", |run| {
        run.any(|step| step.keeps().is_some() && step.was_kept() && step.draft_changes())
    }),
    ("all drafts kept", |run| run.any(|step| step.after.drafts.len() == 16)),
    ("returned", |run| run.any(|step| step.returns().is_some() && !step.is_idle())),
    ("returned where it stood", |run| run.any(|step| step.returns().is_some() && step.is_idle())),
    ("returned to an empty order", |run| {
        run.any(|step| step.returns().is_some() && !step.is_idle() && step.is_empty())
    }),
    ("returned to twice", |run| {
        run.pair(|step, later| {
            step.returns().is_some()
                && later.returns() == step.returns()
                && later.before.order != step.after.order
                && later.after.order == step.after.order
        })
    }),
    ("returned to a new order", |run| {
        run.pair(|step, later| {
            step.returns().is_some()
                && later.returns() == step.returns()
                && later.after.order != step.after.order
        })
    }),
    ("a wish after a return", |run| {
        run.pair(|step, later| {
            step.returns().is_some() && step.after.order != (0, 0) && later.wishes()
        })
    }),
    ("kept after a return", |run| {
        run.pair(|step, later| step.returns().is_some() && later.keeps().is_some())
    }),
    ("refused between others", |run| {
        run.steps.windows(3).any(|three| {
            three[0].is_done() && !three[1].is_done() && three[2].is_done() && !three[2].is_idle()
        })
    }),
    ("refused by each number", |run| {
        [7, 14, 15].iter().all(|number| run.any(|step| step.number == *number))
    }),
];

impl Run<'_> {
    /// The desk, with what came of each first part of its calls.
    pub fn new<'a>(desk: &Desk, history: &'a [Answers]) -> Run<'a> {
        let step = |(&call, two): (&Call, &'a [Answers])| {
            let number = *two[1].numbers.last().expect("a call has its number");
            Step { call, number, before: &two[0], after: &two[1] }
        };
        let steps = desk.calls.iter().zip(history.windows(2)).map(step).collect();
        Run { options: desk.options, steps }
    }

    /// Some call is such.
    fn any(&self, is_such: impl Fn(&Step) -> bool) -> bool {
        self.steps.iter().any(is_such)
    }

    /// Some call and a later one are such.
    fn pair(&self, are_such: impl Fn(&Step, &Step) -> bool) -> bool {
        let after = |index: usize| &self.steps[index + 1..];
        let steps = self.steps.iter().enumerate();
        steps.clone().any(|(index, step)| after(index).iter().any(|later| are_such(step, later)))
    }

    /// A wish for such an option is refused.
    fn refused_option(&self, is_such: impl Fn(u32) -> bool) -> bool {
        self.any(|step| step.option().is_some_and(&is_such) && step.number == 7)
    }
}

impl Step<'_> {
    fn is_done(&self) -> bool {
        self.number == 0
    }

    /// The order is what it was.
    fn is_idle(&self) -> bool {
        self.before.order == self.after.order
    }

    /// The order is empty after it.
    fn is_empty(&self) -> bool {
        self.after.order == (0, 0)
    }

    fn option(&self) -> Option<u32> {
        match self.call {
            Call::Set { option, .. } | Call::Clear { option } => Some(option),
            Call::Keep { .. } | Call::Return { .. } => None,
        }
    }

    fn draft(&self) -> Option<u32> {
        match self.call {
            Call::Keep { draft } | Call::Return { draft } => Some(draft),
            Call::Set { .. } | Call::Clear { .. } => None,
        }
    }

    /// The draft that it keeps.
    fn keeps(&self) -> Option<u32> {
        self.draft().filter(|_| self.is_done() && matches!(self.call, Call::Keep { .. }))
    }

    /// The draft that it returns to.
    fn returns(&self) -> Option<u32> {
        self.draft().filter(|_| self.is_done() && matches!(self.call, Call::Return { .. }))
    }

    fn clears(&self) -> bool {
        self.is_done() && matches!(self.call, Call::Clear { .. })
    }

    /// It sets a wish, and the order changes.
    fn wishes(&self) -> bool {
        self.is_done() && matches!(self.call, Call::Set { .. }) && !self.is_idle()
    }

    /// It sets a wish so where there was one for the other.
    fn turns(&self, way: bool) -> bool {
        let sets = matches!(self.call, Call::Set { fitted, .. } if fitted == way);
        let (before, after) = (self.before.order, self.after.order);
        let of = |(wanted, unwanted): (u64, u64)| wanted | unwanted;
        sets && self.is_done() && !self.is_idle() && of(before) == of(after)
    }

    /// Its draft was kept before it.
    fn was_kept(&self) -> bool {
        self.before.drafts.iter().any(|(draft, _)| Some(*draft) == self.draft())
    }

    fn draft_changes(&self) -> bool {
        self.before.drafts != self.after.drafts
    }
}

#[cfg(test)]
mod tests {
    use super::*;
    use crate::question::Question;

    /// The names of what comes up on the desk of these lines, but for the number of its options.
    fn names(lines: &[&str]) -> Vec<&'static str> {
        let Question::Desk(desk) = Question::read(lines).unwrap() else { panic!("no desk") };
        let history: Vec<Answers> =
            (0..=desk.calls.len()).map(|calls| desk.first(calls).port_answers()).collect();
        let run = Run::new(&desk, &history);
        let sorts = SORTS[6..].iter().filter(|(_, is_such)| is_such(&run));
        sorts.map(|(name, _)| *name).collect()
    }

    #[test]
    fn wishes_are_sorted_by_what_they_change() {
        assert_eq!(names(&["desk 3"]), ["no call"]);
        assert_eq!(names(&["desk 3", "set 1 out"]), Vec::<&str>::new());
        assert_eq!(names(&["desk 3", "set 1 out", "set 1 fitted"]), ["fitted instead"]);
        assert_eq!(names(&["desk 3", "set 1 fitted", "set 1 out"]), ["left out instead"]);
        assert_eq!(names(&["desk 3", "set 1 out", "set 1 out"]), ["set as it stood"]);
        assert_eq!(names(&["desk 3", "set 1 out", "clear 1"]), ["cleared"]);
        assert_eq!(names(&["desk 3", "clear 1"]), ["cleared where unset"]);
        assert_eq!(names(&["desk 3", "set 3 out"]), ["the last option"]);
    }

    #[test]
    fn refusals_are_sorted_by_their_numbers() {
        assert_eq!(names(&["desk 3", "clear 0"]), ["option 0"]);
        assert_eq!(names(&["desk 3", "set 4 out"]), ["option n + 1"]);
        assert_eq!(names(&["desk 3", "set 5 out"]), ["a later option"]);
        assert_eq!(names(&["desk 3", "keep 0"]), ["draft 0"]);
        assert_eq!(names(&["desk 3", "return 17"]), ["draft 17"]);
        assert_eq!(names(&["desk 3", "keep 18"]), ["a later draft"]);
        assert_eq!(names(&["desk 3", "return 16"]), ["a draft never kept"]);
        let due = ["draft 16 kept", "a draft never kept", "a draft kept later", "an empty draft"];
        assert_eq!(names(&["desk 3", "return 16", "keep 16"]), due);
        let due = ["a later option", "draft 0", "a draft never kept", "refused by each number"];
        assert_eq!(names(&["desk 3", "clear 7", "keep 0", "return 1"]), due);
        let between = names(&["desk 3", "set 1 out", "clear 4", "set 2 out"]);
        assert_eq!(between, ["option n + 1", "refused between others"]);
    }

    #[test]
    fn drafts_are_sorted_by_what_they_hold() {
        assert_eq!(names(&["desk 3", "keep 2"]), ["an empty draft"]);
        let kept = ["desk 3", "set 1 out", "keep 2"];
        assert_eq!(names(&[&kept[..], &["keep 2"]].concat()), Vec::<&str>::new());
        let again = names(&[&kept[..], &["set 2 out", "keep 2"]].concat());
        assert_eq!(again, ["kept again"]);
        let stood = names(&[&kept[..], &["return 2"]].concat());
        assert_eq!(stood, ["returned where it stood"]);
        let returned = [&kept[..], &["set 2 out", "return 2"]].concat();
        assert_eq!(names(&returned), ["returned"]);
        let twice = names(&[&returned[..], &["set 2 out", "return 2"]].concat());
        assert_eq!(twice, ["returned", "returned to twice", "a wish after a return"]);
        let anew = names(&[&returned[..], &["set 2 out", "keep 2", "return 2"]].concat());
        let due = ["kept again", "returned", "returned where it stood", "returned to a new order"];
        let due = [&due[..], &["a wish after a return", "kept after a return"]].concat();
        assert_eq!(anew, due);
        let empty = names(&["desk 3", "keep 2", "set 1 out", "return 2"]);
        assert_eq!(empty, ["an empty draft", "returned", "returned to an empty order"]);
        let all: Vec<String> = (1..=16).map(|draft| format!("keep {draft}")).collect();
        let all: Vec<&str> = ["desk 3"].into_iter().chain(all.iter().map(String::as_str)).collect();
        let due = ["draft 1 kept", "draft 16 kept", "an empty draft", "all drafts kept"];
        assert_eq!(names(&all), due);
    }
}
