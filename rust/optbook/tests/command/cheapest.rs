//! The verb `cheapest`, through the proved library.

use crate::run::{file, optbook, Ended, CAN, PLANT, PRICES};
use optbook::sheet::Sheet;
use optbook::text::{numbered_names, set_text};
use optbook::Order;

const CAN_BE: &str =
    "can be built: no choice of options that keeps every rule and wish costs less than this one\n";
pub const CANNOT_BE: &str = "cannot be built: no choice of options keeps every rule and wish\n";

/// A book with its order in one text, and an empty order beside it.
fn cheapest(text: &str, name: &str, prices: &str) -> Ended {
    cheapest_with(text, name, prices, &[])
}

/// The same, with these words more.
pub fn cheapest_with(text: &str, name: &str, prices: &str, more: &[&str]) -> Ended {
    let [empty, prices] = [("order", ""), ("prices", prices)]
        .map(|(kind, text)| file(&format!("cheapest_{name}.{kind}"), text));
    optbook(&[&["cheapest", "-", &empty, &prices], more].concat(), text.as_bytes())
}

/// What is printed, and the status.
pub fn told(ended: &Ended) -> (&str, i32) {
    assert_eq!(ended.said, "");
    (ended.text(), ended.status)
}

/// The names on the bill of a plant that can be built, and the amounts of its sums: the list total, what the
/// rebate takes off, and the amount due.
fn names_and_sums(ended: &Ended) -> (Vec<&str>, [&str; 3]) {
    let mut lines = ended.text().strip_prefix(CAN_BE).unwrap().lines();
    let options = lines.by_ref().take_while(|line| !line.starts_with('-'));
    let names = options.map(|line| line.split(' ').next().unwrap()).collect();
    let sums: Vec<&str> = lines.map(|line| line.rsplit(' ').next().unwrap()).collect();
    (names, sums.try_into().unwrap())
}

/// The order wants a drum and a screen, and the tank is standard; one choice keeps the rules. 2.5 % of
/// 153050.20 is 3826.255, and 149223.945 is rounded up.
#[test]
fn the_example_of_the_help_is_set_out_as_a_bill() {
    let example = format!("optbook cheapest {PLANT} {CAN} {PRICES}");
    let help = optbook(&["cheapest", "--help"], b"");
    assert!(help.text().contains(&format!("\n  {example}\n")), "{}", help.text());
    let words: Vec<&str> = example.split(' ').skip(1).collect();
    let ended = optbook(&words, b"");
    let due = "drum            68000.00  wanted\n\
               windrows        14500.00\n\
               ring_main        9800.00\n\
               small_blower     4200.00\n\
               biofilter        7300.00\n\
               leachate_tank   11000.00  standard\n\
               roof            21500.00\n\
               screen          16750.20  wanted\n\
               ------------------------\n\
               list total     153050.20\n\
               rebate 2.5%     -3826.25\n\
               amount due     149223.95\n";
    assert_eq!(told(&ended), (format!("{CAN_BE}{due}").as_str(), 0));
}

/// A drum needs air. The two headers cost less than the ring main, but need the large blower and the scrubber;
/// where the large blower is wanted, both ways need the scrubber, and the headers are taken.
#[test]
fn the_cheapest_way_is_taken_and_not_the_cheapest_option() {
    let fitted = |order: &str| {
        let ended = optbook(&["cheapest", PLANT, "-", PRICES], order.as_bytes());
        assert_eq!(ended.status, 0, "{order}");
        let (names, [total, _, _]) = names_and_sums(&ended);
        (names.join(" "), total.to_string())
    };
    let due = |names: &str, total: &str| (names.to_string(), total.to_string());
    let ring_main = "drum ring_main small_blower biofilter leachate_tank";
    assert_eq!(fitted("want: drum\n"), due(ring_main, "100300.00"));
    assert_eq!(fitted("without: windrows\n"), due(ring_main, "100300.00"));
    let headers = "drum windrows twin_header large_blower scrubber leachate_tank";
    let order = include_str!("../../../../examples/plant_turns.order");
    assert_eq!(fitted(order), due(headers, "126250.00"));
    assert_eq!(fitted(""), due("windrows leachate_tank", "25500.00"));
    assert_eq!(fitted("without: leachate_tank\n"), due("windrows roof", "36000.00"));
}

#[test]
fn where_no_plant_meets_the_order_it_is_told_as_a_check_tells_it() {
    let words = [PLANT, "examples/plant_cannot.order"];
    let ended = optbook(&[&["cheapest"], &words[..], &[PRICES]].concat(), b"");
    assert_eq!(told(&ended), (CANNOT_BE, 1));
    let check = optbook(&[&["check"], &words[..]].concat(), b"");
    assert!(check.text().starts_with(CANNOT_BE));
    assert_eq!(check.status, 1);
}

/// The options `price` and `rebate` are priced like others. Of a, b and c, all of one price, a is fitted.
#[test]
fn among_equals_the_first_options_are_fitted_and_no_name_clashes() {
    let book = "options: a b c price rebate\na | b | c\n!rebate | price\nwant: rebate\n";
    let prices = "price: price 2.00\nprice: rebate 1\nprice: c 300\nprice: b 3.00\nprice: a 300\n";
    let ended = cheapest(book, "equals", prices);
    let due = "a            3.00\n\
               price        2.00\n\
               rebate       0.01  wanted\n\
               -----------------\n\
               list total   5.01\n\
               rebate 0.0%  0.00\n\
               amount due   5.01\n";
    assert_eq!(told(&ended), (format!("{CAN_BE}{due}").as_str(), 0));
}

#[test]
fn a_book_without_options_costs_nothing() {
    let ended = cheapest("", "nothing", "rebate: 100%\n");
    let due = "(none)\n\
               -------------------\n\
               list total     0.00\n\
               rebate 100.0%  0.00\n\
               amount due     0.00\n";
    assert_eq!(told(&ended), (format!("{CAN_BE}{due}").as_str(), 0));
    assert_eq!(told(&cheapest("false\n", "false", "")), (CANNOT_BE, 1));
}

/// So many options x1, x2, ..., each for a cent.
fn cents(options: usize) -> String {
    numbered_names(options).iter().map(|name| format!("price: {name} 1\n")).collect()
}

#[test]
fn the_library_refuses_more_than_20_free_options() {
    let names = numbered_names(64);
    let book = format!("options: {}\nx63 | x64\n", names.join(" "));
    let standard = format!("{book}standard: {}\n", names[..42].join(" "));
    let ended = cheapest(&format!("{standard}want: x44\n"), "many", &cents(64));
    let due = format!(
        "refused, number 17: more than 20 options are free: 21\nfree: x43 {}\n",
        names[44..].join(" ")
    );
    assert_eq!(told(&ended), (due.as_str(), 2));
    let over = cents(64).replace("x1 1", "x1 10000001");
    let ended = cheapest(&book, "many_over", &over);
    let due = "refused, number 17: more than 20 options are free: 64\n";
    assert!(ended.text().starts_with(due), "{}", ended.text());
    // x1 to x42 and x44 are fitted, and of the last two x63
    let ended = cheapest(&format!("{standard}want: x44\nwithout: x43\n"), "enough", &cents(64));
    assert_eq!((ended.text().lines().count(), ended.status), (1 + 44 + 4, 0));
    assert!(ended.text().contains("\nx63          0.01\n---"), "{}", ended.text());
    assert!(ended.text().ends_with("\namount due   0.44\n"), "{}", ended.text());
}

#[test]
fn the_library_refuses_a_price_or_a_rebate_outside_its_range() {
    let eighteen =
        "refused, number 18: a price is missing or above 10,000,000 cents, or the rebate \
                    is above 1,000 thousandths\n";
    let of = |name, a, rebate| {
        let prices = format!("price: a {a}\nprice: b 100000.00\nrebate: {rebate}\n");
        cheapest("options: a b\nb\n", name, &prices)
    };
    let due = format!("{eighteen}price: a 100000.01\n");
    assert_eq!(told(&of("over", "10000001", "1000")), (due.as_str(), 2));
    let due = format!("{eighteen}price: a 184467440737095516.15\nrebate: 100.1%\n");
    assert_eq!(told(&of("both_over", "18446744073709551615", "100.1%")), (due.as_str(), 2));
    let ended = of("most", "10000000", "1000");
    assert!(ended.text().starts_with(CAN_BE), "{}", ended.text());
    assert!(ended.text().contains("\nrebate 100.0%  -100000.00\n"), "{}", ended.text());
}

#[test]
fn what_is_said_of_small_books_is_what_trying_all_choices_shows() {
    let mut seen = [0; 3];
    for number in 0..100 {
        let (text, prices, rebate) = small_book(number);
        let sheet = Sheet::of("text", &text).unwrap();
        let (book, Order { wanted, unwanted, .. }) = (sheet.book(), sheet.order().completed());
        let mut kept: Vec<(u64, u64)> = (0..1 << 6)
            .filter(|choice| wanted & !choice == 0 && unwanted & choice == 0)
            .filter(|&choice| book.rules.iter().all(|rule| rule.is_kept_by(choice)))
            .map(|choice| {
                let fitted = (0..6).filter(|index| choice >> index & 1 == 1);
                (fitted.map(|index| prices[index]).sum(), choice)
            })
            .collect();
        kept.sort();
        let priced = sheet.names.iter().zip(prices);
        let lines: String =
            priced.map(|(name, cents)| format!("price: {name} {cents}\n")).collect();
        let ended = cheapest(&text, "small", &format!("{lines}rebate: {rebate}\n"));
        let Some(&(total, choice)) = kept.first() else {
            assert_eq!(told(&ended), (CANNOT_BE, 1), "{text}");
            seen[0] += 1;
            continue;
        };
        let (names, sums) = names_and_sums(&ended);
        assert_eq!(names.join(" "), set_text(choice, &sheet.names), "{text}{lines}");
        // in thousandths, twice, with the half that rounds up
        let due = (2 * total * (1000 - rebate) + 1000) / 2000;
        let cents = |sum: &str| sum.replace(['-', '.'], "").parse::<u64>().unwrap();
        assert_eq!(sums.map(cents), [total, total - due, due], "{text}{lines}");
        let has_equals = kept.get(1).is_some_and(|&(other, _)| other == total);
        seen[1 + usize::from(has_equals)] += 1;
    }
    // none, one cheapest choice, and several
    assert!(seen.iter().all(|&seen| seen >= 5), "{seen:?}");
}

/// A book of six options, of which one is standard and one, maybe the same, wanted or unwanted, and three to
/// eight rules of two or three entries; with prices of 0 to 3 cents or to the highest, and a rebate.
pub fn small_book(number: u64) -> (String, [u64; 6], u64) {
    let mut state = number;
    let mut next = |below: u64| {
        state = state.wrapping_mul(6364136223846793005).wrapping_add(1442695040888963407);
        (state >> 33) % below
    };
    let names = ["a", "b", "c", "d", "e", "f"];
    let mut text = format!("options: {}\nstandard: {}\n", names.join(" "), names[next(6) as usize]);
    let wish = if next(2) == 0 { "want" } else { "without" };
    text += &format!("{wish}: {}\n", names[next(6) as usize]);
    for _ in 0..3 + number % 6 {
        let start = next(6);
        let entries: Vec<String> = (0..2 + next(2))
            .map(|i| {
                let sign = if next(2) == 0 { "" } else { "!" };
                format!("{sign}{}", names[((start + i) % 6) as usize])
            })
            .collect();
        text += &format!("{}\n", entries.join(" | "));
    }
    let below = [10_000_001, 4, 4][number as usize % 3];
    (text, [(); 6].map(|()| next(below)), next(1001))
}
