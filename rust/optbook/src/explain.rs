//! Why an order cannot be built: of demands that cannot be kept together, a set from which none can
//! be left out. One demand after the other is left out and the rest is checked again; where the rest
//! still cannot be kept, the demand is gone for good. Fewer demands are easier to keep, so a demand
//! that was once needed stays needed.

use crate::engine::Kind;

/// A demand that stayed, and whether it is known that the rest can be kept without it. It is not
/// known where each check of the rest stopped without a verdict.
#[derive(Clone, Copy, Debug, PartialEq, Eq)]
pub struct Kept<T> {
    pub demand: T,
    pub needed: bool,
}

/// A smallest set of these demands, by leaving out, that cannot be kept, where all of them together
/// cannot. The last is tried first, so that wishes go before rules. A demand whose check stopped is
/// tried again as long as the set becomes smaller. Of a book and an order the demands are those of
/// the completed order (`Sheet::completed_demands`).
pub fn smallest<T: Copy, E>(
    demands: &[T],
    mut check: impl FnMut(&[T]) -> Result<Kind, E>,
) -> Result<Vec<Kept<T>>, E> {
    let mut kept: Vec<Kept<T>> =
        demands.iter().map(|&demand| Kept { demand, needed: false }).collect();
    loop {
        let before = kept.len();
        for index in (0..before).rev() {
            if kept[index].needed {
                continue;
            }
            match check(&all_but(&kept, index))? {
                Kind::Cannot => drop(kept.remove(index)),
                Kind::Can => kept[index].needed = true,
                Kind::Refused | Kind::Stopped => (),
            }
        }
        if kept.len() == before || kept.iter().all(|kept| kept.needed) {
            return Ok(kept);
        }
    }
}

fn all_but<T: Copy>(kept: &[Kept<T>], left_out: usize) -> Vec<T> {
    let others = kept.iter().enumerate().filter(|(index, _)| *index != left_out);
    others.map(|(_, kept)| kept.demand).collect()
}

#[cfg(test)]
mod tests {
    use super::*;
    use crate::mistake::Place;
    use crate::sheet::{order, rules, Demand, Sheet};

    type Never = std::convert::Infallible;

    /// Demands that cannot be kept where they hold all of one of these sets.
    fn clash(sets: &'static [&'static [u32]]) -> impl FnMut(&[u32]) -> Result<Kind, Never> {
        move |demands| {
            let held = |set: &&[u32]| set.iter().all(|demand| demands.contains(demand));
            Ok(if sets.iter().any(held) { Kind::Cannot } else { Kind::Can })
        }
    }

    fn found(kept: Result<Vec<Kept<u32>>, Never>) -> Vec<(u32, bool)> {
        kept.unwrap().iter().map(|kept| (kept.demand, kept.needed)).collect()
    }

    #[test]
    fn what_plays_no_part_goes() {
        let kept = smallest(&[1, 2, 3, 4, 5], clash(&[&[2, 4]]));
        assert_eq!(found(kept), [(2, true), (4, true)]);
    }

    #[test]
    fn of_two_reasons_one_without_the_last_demands_is_given() {
        let kept = smallest(&[1, 2, 3, 4, 5], clash(&[&[2, 5], &[1, 3]]));
        assert_eq!(found(kept), [(1, true), (3, true)]);
    }

    #[test]
    fn nothing_at_all_may_be_the_reason() {
        assert_eq!(found(smallest(&[1, 2], clash(&[&[]]))), []);
    }

    #[test]
    fn a_demand_is_tried_again_where_its_check_stopped() {
        let mut clash = clash(&[&[2, 4]]);
        let stops = |demands: &[u32]| match demands.len() > 3 {
            true => Ok(Kind::Stopped),
            false => clash(demands),
        };
        let kept = smallest(&[1, 2, 3, 4], stops);
        assert_eq!(found(kept), [(2, true), (4, true)]);
    }

    #[test]
    fn where_each_check_stops_all_stay_and_none_is_known_to_be_needed() {
        let kept = smallest(&[1, 2], |_| Ok(Kind::Stopped));
        assert_eq!(found(kept), [(1, false), (2, false)]);
    }

    /// Whether these demands can be kept, by trying all choices.
    fn tried(options: usize, demands: &[&(Demand, Place)]) -> Result<Kind, Never> {
        let demands = || demands.iter().map(|(demand, _)| demand);
        let (rules, order) = (rules(demands()), order(demands()).completed());
        let mut choices = 0..1u64 << options;
        let can = choices.any(|choice| {
            let wishes = order.wanted & !choice == 0 && order.unwanted & choice == 0;
            wishes && rules.iter().all(|rule| rule.is_kept_by(choice))
        });
        Ok(if can { Kind::Can } else { Kind::Cannot })
    }

    /// The lines of a text that stay.
    fn reason(text: &str) -> Vec<usize> {
        let sheet = Sheet::of("text", text).unwrap();
        let check = |demands: &[_]| tried(sheet.names.len(), demands);
        let kept = smallest(&sheet.completed_demands(), check).unwrap();
        assert!(kept.iter().all(|kept| kept.needed));
        kept.iter().map(|kept| kept.demand.1.line).collect()
    }

    #[test]
    fn a_standard_option_is_left_out_like_a_wish() {
        assert_eq!(reason("options: a b c\n!a | !b\nstandard: a\nstandard: b\nc\n"), [2, 3, 4]);
        assert_eq!(reason("options: a b\n!a\nstandard: b\nwant: a\n"), [2, 4]);
    }

    /// Line 2 is no demand: with it and without line 6, lines 2 and 3 would be a reason, but of
    /// another order.
    #[test]
    fn an_unwanted_standard_option_stays_out_where_its_wish_is_left_out() {
        let text = "options: a b\nstandard: a\n!a\nb\n!b\nwithout: a\n";
        assert_eq!(reason(text), [4, 5]);
        assert_eq!(reason("options: a\nstandard: a\na\nwithout: a\n"), [3, 4]);
    }

    #[test]
    fn a_standard_option_that_is_wanted_too_is_named_by_its_wish() {
        assert_eq!(reason("options: a\nstandard: a\n!a\nwant: a\n"), [3, 4]);
    }
}
