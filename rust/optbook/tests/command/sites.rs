//! The verb `sites`, through the proved library.

use crate::run::{file, optbook, Ended, CAN, PLANT};

const CANNOT: &str = "examples/plant_cannot.order";

/// These orders against a book, each a site's, and a file of this name and text.
fn sites(book: &str, orders: &[(&str, &str)], flags: &[&str]) -> Ended {
    let files: Vec<String> = orders.iter().map(|(name, text)| file(name, text)).collect();
    let mut words = vec!["sites", "-"];
    words.extend(files.iter().map(String::as_str));
    words.extend(flags);
    optbook(&words, book.as_bytes())
}

/// What is told of each site: how many branchings it used of how many, and its ending; and what was used
/// in all.
fn told(ended: &Ended) -> (Vec<(&str, &str)>, &str) {
    let lines: Vec<&str> = ended.text().lines().collect();
    let of_site = lines.windows(2).filter(|two| two[0].starts_with("site: "));
    let sites = of_site.map(|two| (after_used(two[0]), two[1].split(':').next().unwrap()));
    let last = lines.last().unwrap();
    assert!(last.starts_with("all sites: used "), "{last}");
    (sites.collect(), after_used(last))
}

/// What stands after `used` on a line.
fn after_used(line: &str) -> &str {
    line.rsplit_once("used ").unwrap().1
}

/// Both orders of the plant take 4 branchings (docs/FORMAT.md). Of 10 the part is 5.
#[test]
fn the_example_of_the_help_shares_ten_branchings() {
    let example = "optbook sites examples/plant.book examples/plant.order \
                   examples/plant_cannot.order --allowance 10";
    let help = optbook(&["sites", "--help"], b"");
    assert!(help.text().contains(&format!("\n  {example}\n")), "{}", help.text());
    let words: Vec<&str> = example.split(' ').skip(1).collect();
    let ended = optbook(&words, b"");
    let sites =
        vec![("4 of 5 branchings", "can be built"), ("4 of 6 branchings", "cannot be built")];
    assert_eq!((told(&ended), ended.status), ((sites, "8 of 10 branchings"), 1));
}

/// Of 1,000,000 branchings for three sites the part is 333,333, and the first has one more.
#[test]
fn each_site_of_the_plant_is_told_as_a_check_tells_it() {
    let ended = optbook(&["sites", PLANT, CAN, CANNOT, CAN], b"");
    let (mut due, mut unused, mut in_all) = (String::new(), 1, 0);
    for order in [CAN, CANNOT, CAN] {
        let check = optbook(&["check", PLANT, order], b"");
        let counts = check.text().lines().nth(1).unwrap();
        let used = counts.split(&[' ', ','][..]).nth(1).unwrap().parse::<u32>().unwrap();
        let allowance = 333_333 + unused;
        due += &format!("site: {order}, used {used} of {allowance} branchings\n{}", check.text());
        unused = allowance - used;
        in_all += used;
    }
    due += &format!("all sites: used {in_all} of 1000000 branchings\n");
    assert_eq!((ended.text(), ended.status), (due.as_str(), 1));
}

/// The book W of docs/STEPS.md takes three branchings. Of 8 for three sites the part is 2, and 2 remain:
/// the first has 4, the second 3 and the third 2.
#[test]
fn each_site_has_its_own_derived_rules_and_records() {
    let book = "options: a b\na | b\nb | !a\na | !b\n!a | !b\n";
    let orders = [("w_first.order", "# nothing\n"), ("w_second.order", ""), ("w_third.order", "")];
    let ended = sites(book, &orders, &["--places", "3", "--allowance", "8"]);
    let outcome = "cannot be built: no choice of options keeps every rule and wish\n\
                   branchings 3, derived rules 3, records 1\n\
                   derived rule: a\nderived rule: !a\nderived rule: false\n\
                   record: fitted (none); left out (none); struck a b\n";
    let files = orders.map(|(name, text)| file(name, text));
    let due = format!(
        "site: {}, used 3 of 4 branchings\n{outcome}site: {}, used 3 of 3 branchings\n{outcome}\
         site: {}, used 2 of 2 branchings\nstopped without a verdict, number 10: ",
        files[0], files[1], files[2]
    );
    assert!(ended.text().starts_with(&due), "{}", ended.text());
    assert!(ended.text().ends_with("\nall sites: used 8 of 8 branchings\n"), "{}", ended.text());
    assert_eq!(ended.status, 3);
}

/// The rule !a is kept without a branching; with a wanted one branching and one derived rule are due.
#[test]
fn what_a_site_leaves_unused_passes_on() {
    let of = |names: [&str; 3], orders: [&str; 3], flags: &[&str]| {
        let orders: Vec<_> = names.into_iter().zip(orders).collect();
        sites("options: a\n!a\n", &orders, flags)
    };
    let (want, none) = ("want: a\n", "");
    let (can, cannot) = ("can be built", "cannot be built");
    let ten = "stopped without a verdict, number 10";
    let one = ["--allowance", "1"];
    let ended = of(["pass_a.order", "pass_b.order", "pass_c.order"], [none, want, want], &one);
    let sites =
        vec![("0 of 1 branchings", can), ("1 of 1 branchings", cannot), ("0 of 0 branchings", ten)];
    assert_eq!((told(&ended), ended.status), ((sites, "1 of 1 branchings"), 3));

    let flags = ["--allowance", "9", "--places", "2049"];
    let ended = of(["nine_a.order", "nine_b.order", "nine_c.order"], [none, want, want], &flags);
    let nine = "refused, number 9";
    let sites = ["0 of 3 branchings", "0 of 6 branchings", "0 of 9 branchings"];
    let sites = sites.map(|used| (used, nine)).to_vec();
    assert_eq!((told(&ended), ended.status), ((sites, "0 of 9 branchings"), 2));

    let flags = ["--allowance", "4", "--places", "0"];
    let ended = of(["full_a.order", "full_b.order", "full_c.order"], [want, none, none], &flags);
    let eleven = "stopped without a verdict, number 11";
    let sites =
        vec![("1 of 2 branchings", eleven), ("0 of 2 branchings", can), ("0 of 3 branchings", can)];
    assert_eq!((told(&ended), ended.status), ((sites, "1 of 4 branchings"), 3));
}

#[test]
fn standard_options_and_wishes_of_the_book_hold_for_every_site() {
    let book = "options: a b c\n!a | !b\nstandard: a\nwithout: c\n";
    let orders = [
        ("site_b.order", "want: b\n"),
        ("site_not_a.order", "want: b\nwithout: a\n"),
        ("site_standard.order", "standard: b\n"),
        ("site_none.order", ""),
    ];
    let ended = sites(book, &orders, &[]);
    let endings: Vec<&str> = told(&ended).0.into_iter().map(|(_, ending)| ending).collect();
    let due = ["cannot be built", "can be built", "cannot be built", "can be built"];
    assert_eq!((endings, ended.status), (due.to_vec(), 1));
}

#[test]
fn the_number_of_sites_is_judged_by_the_library() {
    let refused = "refused, number 21: the number of sites is not 1 to 8\n\
                   branchings 0, derived rules 0, records 0\n";
    for sites in [0, 9, 20] {
        let words = [&["sites", PLANT][..], &vec![CAN; sites]].concat();
        let ended = optbook(&words, b"");
        assert_eq!((ended.text(), ended.status), (refused, 2), "{sites} sites");
    }
    for sites in [1, 8] {
        let words = [&["sites", PLANT][..], &vec![CAN; sites]].concat();
        let ended = optbook(&words, b"");
        let endings: Vec<&str> = told(&ended).0.into_iter().map(|(_, ending)| ending).collect();
        assert_eq!((endings, ended.status), (vec!["can be built"; sites], 0));
    }
}
