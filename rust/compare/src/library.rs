//! The proved static library as a checker.

use crate::lent::{cheapest, desk, join, morning, open, page, sites, terminal, turns, Lent};
use crate::question::{after_text, answers_text, first_difference, in_turn, joined_text};
use crate::question::{quoted_text, settled_text, state_text, tried_text, Question};
use crate::question::{
    Cheapest, Check, Desk, Join, Morning, Open, Page, Sites, State, Terminal, Turns,
};
use crate::under_test::UnderTest;
use optcheck::{DeskWords, Site};
use port::{Call, Outcome, Places};

/// The library, with this rubbish in the tables that it is lent.
pub struct Library {
    pub rubbish: u64,
}

impl UnderTest for Library {
    fn name(&self) -> String {
        "proved library".to_string()
    }

    /// An order is three words by type, so there is no short one.
    fn takes(&self, question: &Question) -> bool {
        match question {
            Question::Check(check) => check.parts().is_some(),
            Question::Page(page) => page.parts().is_some(),
            Question::Morning(_)
            | Question::Open(_)
            | Question::Sites(_)
            | Question::Terminal(_)
            | Question::Desk(_)
            | Question::State(_)
            | Question::Join(_)
            | Question::Turns(_)
            | Question::Cheapest(_) => true,
        }
    }

    fn printed(&mut self, question: &Question) -> Result<String, String> {
        match question {
            Question::Check(check) => self.check(check),
            Question::Morning(morning) => self.morning(morning),
            Question::Open(open) => self.open(open),
            Question::Sites(sites) => self.sites(sites),
            Question::Terminal(terminal) => self.terminal(terminal),
            Question::Page(page) => self.page(page),
            Question::Desk(desk) => self.desk(desk),
            Question::State(state) => self.state(state),
            Question::Join(join) => self.join(join),
            Question::Turns(turns) => self.turns(turns),
            Question::Cheapest(cheapest) => self.cheapest(cheapest),
        }
    }
}

impl Library {
    fn check(&self, check: &Check) -> Result<String, String> {
        let (order, book) = check.parts().ok_or("an order that is cut short")?;
        let mut lent = Lent::new(&check.places, self.rubbish);
        let word = optcheck::check_word(book, order, check.allowance, lent.tables());
        Ok(lent.outcome(word)?.to_string())
    }

    fn morning(&self, morning: &Morning) -> Result<String, String> {
        let Morning { book, orders, places, allowance } = morning;
        let words: Vec<u64> = orders.iter().flat_map(|order| order.words()).collect();
        let outcomes = morning::lend(places, orders.len(), self.rubbish, |answers, tables| {
            optcheck::morning_words(book, &words, *allowance, answers, tables)
        })?;
        Ok(in_turn(&outcomes))
    }

    fn open(&self, question: &Open) -> Result<String, String> {
        let Open { book, order, open, places, allowance } = question;
        let tried = open::lend(places, *open, self.rubbish, |verdict, setting, tables| {
            optcheck::undecided_words(book, *order, *open, *allowance, verdict, setting, tables)
        })?;
        Ok(tried_text(&tried))
    }

    /// The sites are served in a call each, and then all in one call, which must give the same.
    fn sites(&self, question: &Sites) -> Result<String, String> {
        let (by_calls, together) = (self.by_calls(question)?, self.together(question)?);
        match by_calls == together {
            true => Ok(in_turn(&by_calls)),
            false => {
                let line = first_difference(&in_turn(&together), &in_turn(&by_calls));
                Err(format!("all sites in one call: {line}"))
            }
        }
    }

    fn by_calls(&self, question: &Sites) -> Result<Served, String> {
        let Sites { book, sites, allowance } = question;
        sites::lend(
            &places(question),
            *allowance,
            self.rubbish,
            |[left, part, to_come]| {
                optcheck::terminal_words(sites.len(), *allowance, left, part, to_come)
            },
            |index, [left, to_come], part, tables| {
                let order = sites[index].order;
                optcheck::site_words(book, order, left, part, to_come, tables)
            },
        )
    }

    fn together(&self, question: &Sites) -> Result<Served, String> {
        let Sites { book, sites, allowance } = question;
        sites::lend_to_all(&places(question), self.rubbish, |tables| {
            let with_tables = sites.iter().zip(tables);
            let list = with_tables.map(|(site, tables)| Site { order: site.order, tables });
            optcheck::sites(book, list.collect(), *allowance)
        })
    }

    fn terminal(&self, question: &Terminal) -> Result<String, String> {
        let Terminal { book, left, part, sites, order, places } = question;
        let after =
            terminal::lend(places, [*left, *sites], self.rubbish, |[left, sites], tables| {
                optcheck::site_words(book, *order, left, *part, sites, tables)
            })?;
        Ok(after_text(&after))
    }

    fn page(&self, question: &Page) -> Result<String, String> {
        let (order, book) = question.parts().ok_or("an order that is cut short")?;
        page::lend(self.rubbish, |bytes| {
            optcheck::page_bytes(book, order, question.allowance, bytes)
        })
    }

    fn desk(&self, question: &Desk) -> Result<String, String> {
        let answers = desk::lend(question, self.rubbish, optcheck::desk_fresh_words, call)?;
        Ok(answers_text(&answers))
    }

    fn state(&self, question: &State) -> Result<String, String> {
        let after = desk::lend_once(question, self.rubbish, call)?;
        Ok(state_text(&after))
    }

    fn join(&self, question: &Join) -> Result<String, String> {
        let Join { first, second, pairs, room } = question;
        let joined = join::lend(*room, self.rubbish, |book, length| {
            optcheck::join_bytes(first, second, pairs, book, length)
        })?;
        Ok(joined_text(&joined))
    }

    fn turns(&self, question: &Turns) -> Result<String, String> {
        let Turns { book, order } = question;
        let settled = turns::lend(self.rubbish, |[forced, to_out, to_fitted]| {
            optcheck::turns_words(book, *order, forced, to_out, to_fitted)
        })?;
        Ok(settled_text(&settled))
    }

    fn cheapest(&self, question: &Cheapest) -> Result<String, String> {
        let Cheapest { book, order, prices, rebate } = question;
        let quoted = cheapest::lend(self.rubbish, |can, [total, due, choice]| {
            optcheck::cheapest_words(book, *order, prices, *rebate, can, total, due, choice)
        })?;
        Ok(quoted_text(&quoted))
    }
}

/// A call on a desk.
fn call(desk: &mut DeskWords, call: Call) -> u32 {
    match call {
        Call::Set { option, fitted } => optcheck::desk_set_words(desk, option, fitted),
        Call::Clear { option } => optcheck::desk_clear_words(desk, option),
        Call::Keep { draft } => optcheck::desk_keep_words(desk, draft),
        Call::Return { draft } => optcheck::desk_return_words(desk, draft),
    }
}

/// The outcomes of sites in turn, or the number of the refusal.
type Served = Result<Vec<Outcome>, u32>;

/// The lengths of each site's tables.
fn places(sites: &Sites) -> Vec<Places> {
    sites.sites.iter().map(|site| site.places).collect()
}
