//! The flag `--what-if` of the verb `cheapest`, through the proved library.

use crate::cheapest::{cheapest_with, small_book, told, CANNOT_BE};
use crate::run::{file, optbook, Ended, PLANT, PRICES};
use optbook::text::numbered_names;

const CAN_EACH: &str =
    "can be built: at the prices of each column, no choice of options that keeps \
                        every rule and wish costs less than the one in it\n";
const EIGHTEEN: &str = "refused, number 18: a price is missing or above 10,000,000 cents, or the \
                        rebate is above 1,000 thousandths\n";

/// The plant of `examples/plant_turns.order`, where an option has another price. It has a drum, windrows, the
/// large blower, the scrubber and the tank, for 119000.00, and for air the two headers, for 7250.00, or the ring
/// main, for 9800.00. 2.5 % is taken off, which of 126250.00 is 3156.25.
fn plant(what_if: &str) -> Ended {
    let order = "examples/plant_turns.order";
    optbook(&["cheapest", PLANT, order, PRICES, "--what-if", what_if], b"")
}

/// One of a, b and c, for so many cents and at a rebate, where an option has another price.
fn one_of(name: &str, cents: [u64; 3], rebate: &str, what_if: &str) -> Ended {
    let [a, b, c] = cents;
    let prices = format!("price: a {a}\nprice: b {b}\nprice: c {c}\nrebate: {rebate}\n");
    let words = ["--what-if", what_if];
    cheapest_with("options: a b c\na | b | c\n", &format!("what_if_{name}"), &prices, &words)
}

/// What stands above the ruled line, and the sums below it, word by word.
type Words<'a> = [Vec<Vec<&'a str>>; 2];

/// The words of a table, which stands below so many lines.
fn words(ended: &Ended, above: usize) -> Words<'_> {
    let mut lines = ended.text().lines().skip(above).map(|line| line.split_whitespace().collect());
    let rows =
        lines.by_ref().take_while(|words: &Vec<&str>| !words[0].starts_with("---")).collect();
    [rows, lines.collect()]
}

/// The words of both columns, below the verdict, the question and the head.
fn both(ended: &Ended) -> Words<'_> {
    assert!(ended.text().starts_with(CAN_EACH), "{}", ended.text());
    assert_eq!((ended.said.as_str(), ended.status), ("", 0));
    words(ended, 3)
}

/// The words of the bill that one column of two would be alone.
fn column<'a>([rows, sums]: &Words<'a>, column: usize) -> Words<'a> {
    let fitted = rows.iter().filter(|words| words.get(1 + column) != Some(&"-"));
    let alone = |words: &Vec<&'a str>| match words[..] {
        [name, ref amounts @ ..] if !amounts.is_empty() => {
            [&[name, amounts[column]][..], &amounts[2..]].concat()
        }
        _ => words.clone(),
    };
    let mut rows: Vec<_> = fitted.map(alone).collect();
    if rows.is_empty() {
        rows.push(vec!["(none)"]);
    }
    [rows, sums.iter().map(|words| vec![words[0], words[1], words[2 + column]]).collect()]
}

/// The fitted options of a bill.
fn fitted([rows, _]: &Words) -> String {
    rows.iter().map(|words| words[0]).collect::<Vec<_>>().join(" ")
}

/// The fitted options of both columns, and the list totals and amounts due, each with how far it moved.
fn names_and_sums(ended: &Ended) -> ([String; 2], [String; 2]) {
    let both = both(ended);
    let [total, _, due] = &both[1][..] else { panic!("{}", ended.text()) };
    let [total, due] = [total, due].map(|words| words[2..].join(" "));
    ([0, 1].map(|index| fitted(&column(&both, index))), [total, due])
}

/// The large blower is wanted: 2100.00 more for it is 2100.00 more for the plant. 2.5 % of 128350.00 is
/// 3208.75.
#[test]
fn a_wanted_option_moves_the_total_by_all_of_it() {
    let due = "what if large_blower costs 9000.00; now it costs 6900.00\n\
               \x20                    now    what if\n\
               drum            68000.00   68000.00  wanted\n\
               windrows        14500.00   14500.00  wanted\n\
               twin_header      7250.00    7250.00\n\
               large_blower     6900.00    9000.00  wanted\n\
               scrubber        18600.00   18600.00\n\
               leachate_tank   11000.00   11000.00  standard\n\
               -----------------------------------\n\
               list total     126250.00  128350.00  +2100.00\n\
               rebate 2.5%     -3156.25   -3208.75    -52.50\n\
               amount due     123093.75  125141.25  +2047.50\n";
    assert_eq!(told(&plant("large_blower=9000.00")), (format!("{CAN_EACH}{due}").as_str(), 0));
    assert_eq!(told(&plant("large_blower=900000")), (format!("{CAN_EACH}{due}").as_str(), 0));
}

/// Two headers for 12000.00 cost more than the ring main, which is taken instead: of 4750.00 more, 2550.00 are
/// paid. 2.5 % of 128800.00 is 3220.00.
#[test]
fn where_another_choice_becomes_the_cheapest_the_total_moves_by_a_part_of_it() {
    let due = "what if twin_header costs 12000.00; now it costs 7250.00\n\
               \x20                    now    what if\n\
               drum            68000.00   68000.00  wanted\n\
               windrows        14500.00   14500.00  wanted\n\
               ring_main              -    9800.00\n\
               twin_header      7250.00          -\n\
               large_blower     6900.00    6900.00  wanted\n\
               scrubber        18600.00   18600.00\n\
               leachate_tank   11000.00   11000.00  standard\n\
               -----------------------------------\n\
               list total     126250.00  128800.00  +2550.00\n\
               rebate 2.5%     -3156.25   -3220.00    -63.75\n\
               amount due     123093.75  125580.00  +2486.25\n";
    assert_eq!(told(&plant("twin_header=12000.00")), (format!("{CAN_EACH}{due}").as_str(), 0));
}

/// Where the ring main costs as much as the two headers it is taken, for it stands before them.
#[test]
fn a_price_may_fall_or_stay() {
    let headers = "drum windrows twin_header large_blower scrubber leachate_tank";
    let main = "drum windrows ring_main large_blower scrubber leachate_tank";
    let of = |what_if| {
        let ended = plant(what_if);
        let ([now, then], [total, _]) = names_and_sums(&ended);
        assert_eq!(now, headers);
        (then, total)
    };
    let due = |names: &str, total: &str| (names.to_string(), total.to_string());
    assert_eq!(of("ring_main=0"), due(main, "126250.00 119000.00 -7250.00"));
    assert_eq!(of("ring_main=7249.99"), due(main, "126250.00 126249.99 -0.01"));
    assert_eq!(of("ring_main=7250.00"), due(main, "126250.00 126250.00 0.00"));
    assert_eq!(of("ring_main=7250.01"), due(headers, "126250.00 126250.00 0.00"));
    assert_eq!(of("twin_header=7000.00"), due(headers, "126250.00 126000.00 -250.00"));
    assert_eq!(of("twin_header=7250.00"), due(headers, "126250.00 126250.00 0.00"));
    assert_eq!(of("twin_header=9799.99"), due(headers, "126250.00 128799.99 +2549.99"));
    assert_eq!(of("twin_header=9800.00"), due(main, "126250.00 128800.00 +2550.00"));
}

/// 5 cents are never the least. Where a and c both cost 3, a is fitted, and then c.
#[test]
fn where_a_cheapest_choice_leaves_the_option_out_nothing_moves() {
    let of = |name, cents, what_if: &str| {
        let ended = one_of(name, cents, "0", what_if);
        let (names, sums) = names_and_sums(&ended);
        assert_eq!(sums, ["0.03 0.03 0.00"; 2], "{what_if}");
        names
    };
    assert_eq!(of("left_out", [3, 5, 4], "b=11"), ["a", "a"]);
    assert_eq!(of("other_out", [3, 5, 3], "a=9"), ["a", "c"]);
    assert_eq!(of("other_in", [3, 5, 3], "c=9"), ["a", "a"]);
}

/// With half off, 3 cents are 2, rounded up, as are 4; 5 are 3.
#[test]
fn the_amount_due_may_stay_where_the_total_rises() {
    let of = |what_if| names_and_sums(&one_of("half_off", [3, 5, 9], "50%", what_if)).1;
    assert_eq!(of("a=4"), ["0.03 0.04 +0.01", "0.02 0.02 0.00"]);
    assert_eq!(of("a=5"), ["0.03 0.05 +0.02", "0.02 0.03 +0.01"]);
    assert_eq!(of("a=2"), ["0.03 0.02 -0.01", "0.02 0.01 -0.01"]);
}

#[test]
fn where_neither_choice_fits_anything_there_is_one_line_for_both() {
    let words = ["--what-if", "a=0.07"];
    let ended = cheapest_with("options: a\n", "what_if_nothing", "price: a 9\n", &words);
    let due = "what if a costs 0.07; now it costs 0.09\n\
               \x20             now  what if\n\
               (none)\n\
               --------------------------\n\
               list total   0.00     0.00  0.00\n\
               rebate 0.0%  0.00     0.00  0.00\n\
               amount due   0.00     0.00  0.00\n";
    assert_eq!(told(&ended), (format!("{CAN_EACH}{due}").as_str(), 0));
}

/// The highest price is 100000.00. That of an option which no choice fits is read too.
#[test]
fn the_library_refuses_a_new_price_outside_its_range() {
    let due = format!("{EIGHTEEN}price: tunnel 100000.01\n");
    assert_eq!(told(&plant("tunnel=100000.01")), (due.as_str(), 2));
    let due = format!("{EIGHTEEN}price: drum 184467440737095516.15\n");
    assert_eq!(told(&plant("drum=18446744073709551615")), (due.as_str(), 2));
    let (_, [total, _]) = names_and_sums(&plant("drum=100000.00"));
    assert_eq!(total, "126250.00 158250.00 +32000.00");
}

/// No price mends it, but a refused one is told before.
#[test]
fn where_no_plant_meets_the_order_no_price_has_a_part_in_it() {
    let order = "examples/plant_cannot.order";
    let of = |what_if| optbook(&["cheapest", "--what-if", what_if, PLANT, order, PRICES], b"");
    assert_eq!(told(&of("scrubber=0")), (CANNOT_BE, 1));
    let due = format!("{EIGHTEEN}price: scrubber 100000.01\n");
    assert_eq!(told(&of("scrubber=10000001")), (due.as_str(), 2));
}

/// Too many free options, a price that the flag would put right, and one besides that it would not.
#[test]
fn what_is_refused_without_the_flag_is_refused_as_it_is_without_it() {
    let names = numbered_names(21);
    let cents: String = names.iter().map(|name| format!("price: {name} 1\n")).collect();
    let many = format!("options: {}\n", names.join(" "));
    let over = "price: a 10000001\nprice: b 1\n";
    let due = [
        (many.as_str(), cents.as_str(), "x1=2", "refused, number 17: "),
        (&many, &cents, "x1=10000001", "refused, number 17: "),
        ("options: a b\n", over, "a=1", "refused, number 18: "),
        ("options: a b\n", over, "b=10000001", "refused, number 18: "),
    ];
    for (book, prices, what_if, start) in due {
        let of = |more: &[&str]| cheapest_with(book, "what_if_refused", prices, more);
        let (with, without) = (of(&["--what-if", what_if]), of(&[]));
        assert!(with.text().starts_with(start), "{}", with.text());
        assert_eq!(told(&with), told(&without));
        assert_eq!(with.status, 2);
    }
}

/// The cents of an amount, which may have a sign.
fn cents(amount: &str) -> i64 {
    amount.replace('.', "").parse().unwrap()
}

/// Each price of each book rises, and falls again: the columns are the two bills. The limits are those of a
/// rise. Two rules more give the books several choices, and every third book has them at one price.
#[test]
fn both_columns_are_what_is_said_at_either_price() {
    let names = ["a", "b", "c", "d", "e", "f"];
    let empty = file("what_if_small.order", "");
    let mut seen = [0; 5];
    for (number, index) in (0..60).flat_map(|number| (0..6).map(move |index| (number, index))) {
        let (book, prices, rebate) = small_book(number);
        let text = book + "a | b | c\nd | e | f\n";
        let prices = if number % 3 == 1 { [1; 6] } else { prices };
        let rise = [(10_000_000 - prices[index]) / 2, 1, 3][number as usize % 3];
        let mut raised = prices;
        raised[index] += rise;
        let of = |prices: [u64; 6], what_if: Option<u64>| {
            let priced = names.iter().zip(prices);
            let lines: String =
                priced.map(|(name, cents)| format!("price: {name} {cents}\n")).collect();
            let prices = file("what_if_small.prices", &format!("{lines}rebate: {rebate}\n"));
            let word = what_if.map(|cents| format!("{}={cents}", names[index]));
            let more = word.iter().flat_map(|word| ["--what-if", word]);
            let words: Vec<&str> =
                ["cheapest", "-", &empty, &prices].into_iter().chain(more).collect();
            optbook(&words, text.as_bytes())
        };
        let alone = [of(prices, None), of(raised, None)];
        let [rising, falling] = [of(prices, Some(raised[index])), of(raised, Some(prices[index]))];
        if alone[0].status == 1 {
            let all = [&alone[0], &alone[1], &rising, &falling];
            assert!(all.iter().all(|ended| told(ended) == (CANNOT_BE, 1)), "{text}");
            seen[0] += 1;
            continue;
        }
        let [before, after] = alone.each_ref().map(|ended| words(ended, 1));
        let [up, down] = [&rising, &falling].map(both);
        let columns = |both: &_| [column(both, 0), column(both, 1)];
        assert_eq!(columns(&up), [before.clone(), after.clone()], "{text}");
        assert_eq!(columns(&down), [after.clone(), before.clone()], "{text}");
        for sum in up[1].iter().chain(&down[1]) {
            assert_eq!(cents(sum[4]), cents(sum[3]) - cents(sum[2]), "{}", rising.text());
        }
        let limits = 0..=rise as i64;
        let [total, _, due] = [0, 1, 2].map(|sum| cents(up[1][sum][4]));
        assert!(limits.contains(&total) && limits.contains(&due), "{}", rising.text());
        seen[match total {
            0 if fitted(&before) != fitted(&after) => 1,
            0 => 2,
            _ if total < rise as i64 => 3,
            _ => 4,
        }] += 1;
    }
    // cannot be built; the same total by another choice, or by the same; a part of the rise, and all of it
    assert!(seen.iter().all(|&seen| seen >= 5), "{seen:?}");
}
