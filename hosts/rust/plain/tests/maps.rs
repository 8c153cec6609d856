//! How many pins a map may have: at least one, and in an ordered map at most as many as its grid has places.
//! Both are judged at the keyword that ends the map; the lines are counted by hand from the paper's example.

mod edit;
mod example;

use edit::{answer, changed, check};
use plain::{intake, listing, sound, Answer};

const ORDERS: [&str; 2] = ["Row_ordered", "Column_ordered"];

/// Rows, columns and pins of the first map, whose pins begin at line 25, and the answer.
const GRIDS: &[(usize, usize, usize, &str)] = &[
    (1, 1, 1, "accepted"),
    (2, 3, 6, "accepted"),
    (3, 2, 6, "accepted"),
    (16, 16, 256, "accepted"),
    (1, 256, 256, "accepted"),
    (256, 1, 256, "accepted"),
    // Places without a pin.
    (2, 3, 5, "accepted"),
    (3, 2, 5, "accepted"),
    (1, 2, 1, "accepted"),
    (2, 1, 1, "accepted"),
    (1, 256, 255, "accepted"),
    (17, 16, 256, "accepted"),
    (256, 256, 256, "accepted"),
    (256, 256, 1, "accepted"),
    // No pin.
    (1, 1, 0, "9 25"),
    (2, 3, 0, "9 25"),
    (256, 256, 0, "9 25"),
    // More pins than places.
    (1, 1, 2, "16 27"),
    (2, 3, 7, "16 32"),
    (3, 2, 7, "16 32"),
    (15, 17, 256, "16 281"),
    (1, 255, 256, "16 281"),
    (1, 1, 256, "16 281"),
    // More pins than a map may have, in grids of any size.
    (256, 256, 257, "17 281"),
    (17, 16, 257, "17 281"),
    (16, 16, 257, "17 281"),
    (15, 17, 257, "17 281"),
    (1, 1, 257, "17 281"),
];

/// Changes that the decided readings of the request name.
const READINGS: &[(&str, &str)] = &[
    ("{21=Pin_order Row_ordered;Num_of_rows=2;Num_of_columns=2}", "accepted"),
    ("{21=Pin_order Column_ordered;Num_of_rows=1;Num_of_columns=1}", "16 27"),
    ("{21=Pin_order Row_ordered;Num_of_rows=1;Num_of_columns=1}{23-24=-}", "9 25"),
    ("{21=Pin_order Row_ordered;Num_of_rows=256;Num_of_columns=256}", "accepted"),
    ("{21=Pin_order Row_ordered;Num_of_rows=2;Num_of_columns=2}{24=-}", "26 14"),
];

/// A map with no pin, and lines that are no pins.
const NO_PINS: &[(&str, &str)] = &[
    ("{23-24=-}", "9 23"),
    ("{21=Pin_order Column_ordered;Num_of_columns=2;Num_of_rows=2}{23-24=-}", "9 25"),
    ("{21=Pin_order Column_ordered;Num_of_columns=2;Num_of_rows=2}{22-24=-}", "9 24"),
    ("{21=Pin_order Row_ordered;Num_of_rows=1;Num_of_columns=1}{23-24=;| A1}", "9 27"),
    ("{21=Pin_order Row_ordered;Num_of_rows=1;Num_of_columns=2}{24=A2;;| A3}", "accepted"),
    ("{21=Pin_order Row_ordered;Num_of_rows=1;Num_of_columns=1}{23-24=A1 x;| A2 x}", "26 14"),
    ("{26=Pin_order Row_ordered;Num_of_rows=2;Num_of_columns=2}{28-29=-}", "9 30"),
];

/// Each keyword that may end a map does so here: [Manufacturer], [ICM Model List], [ICM Family Description],
/// [Begin ICM Model], [ICM Pin Map] and [End ICM Family]. `MAP R 1 1` is a map R of two pins with 1 row and 1 column.
const ENDINGS: &[(&str, &str)] = &[
    ("{6+=MAP R 1 1}", "16 14"),
    ("{6+=MAP R 2 2}", "accepted"),
    ("{7+=MAP R 1 1}", "16 15"),
    ("{7+=MAP R 2 2}", "accepted"),
    ("{7+=MAP R 1 1;[ICM Family Description]}", "16 15"),
    ("{7+=MAP R 2 2;[ICM Family Description]}", "accepted"),
    ("{9+=MAP R 1 1}", "16 17"),
    ("{9+=MAP R 2 2}", "accepted"),
    ("{20-24=MAP P 1 1}", "16 27"),
    ("{20-24=MAP P 2 2}", "accepted"),
    ("{25-29=MAP Q 1 1}", "16 32"),
    ("{25-29=MAP Q 2 2}", "accepted"),
];

/// Breaks beside more pins than places, or beside none.
const ORDER_OF_BREAKS: &[(&str, &str)] = &[
    ("{20-24=MAP P 1 1}{25=[ICM Pin Map Q}", "6 27"),
    ("{20-24=MAP P 1 1}{25= [ICM Pin Map] Q}", "6 27"),
    ("{20-24=MAP P 1 1}{25=[Foo]}", "7 27"),
    ("{20-24=MAP P 1 1}{25=[ICM S-parameter]}", "8 27"),
    ("{20-24=MAP P 1 1}{25=[Row] 1}", "9 27"),
    ("{20-24=MAP P 1 1}{25=[Manufacturer]}", "9 27"),
    ("{20-24=MAP P 1 1}{25=[ICM Pin Map]}", "11 27"),
    ("{20-24=MAP P 1 1}{25=[ICM Pin Map] GND}", "11 27"),
    ("{20-24=MAP P 2 2}{25=[ICM Pin Map]}", "11 27"),
    ("{21=Pin_order Row_ordered;Num_of_rows=1;Num_of_columns=1}{23-24=-}{25=[Foo]}", "7 25"),
    ("{21=Pin_order Row_ordered;Num_of_rows=1;Num_of_columns=1}{23-24=-}{25=[ICM Pin Map]}", "9 25"),
    ("{20-24=MAP P 1 1}{25-39=-}", "10 0"),
    ("{21=Pin_order Row_ordered;Num_of_rows=1;Num_of_columns=1}{23-39=-}", "10 0"),
    // The third pin has no place, but its own line is judged first.
    ("{20-24=MAP P 1 2;A3 x y}", "11 27"),
    ("{20-24=MAP P 1 2;A3}", "16 28"),
    // The map above is judged before the map below, and both before what names bring.
    ("{20-24=MAP P 1 1}{25-29=[ICM Pin Map] Q;Pin_order Un_ordered;Pin_list}", "16 27"),
    ("{20-24=MAP P 2 2}{25-29=[ICM Pin Map] Q;Pin_order Un_ordered;Pin_list}", "9 30"),
    ("{9=B}{20-24=MAP P 1 1}", "16 27"),
    ("{9=B}{20-24=MAP P 2 2}", "20 9"),
    ("{21=Pin_order Row_ordered;Num_of_rows=1;Num_of_columns=1}{24=A1}", "16 27"),
    ("{21=Pin_order Row_ordered;Num_of_rows=2;Num_of_columns=2}{24=A1}", "19 26"),
];

/// Rule 26 goes by pins, whatever the grids are.
const COUNTS: &[(&str, &str)] = &[
    ("{20-24=MAP P 2 2}{25-29=MAP Q 256 256}", "accepted"),
    ("{20-24=MAP P 2 2;A3}{25-29=MAP Q 3 3;A3}{33-37=[Inductance Matrix] Diagonal_matrix;1 2 3}", "accepted"),
    ("{20-24=MAP P 2 2}{25-29=MAP Q 2 2;A3}", "26 18"),
    ("{20-24=MAP P 2 2;A3}{25-29=MAP Q 2 2}{33-37=[Inductance Matrix] Diagonal_matrix;1 2 3}", "26 18"),
    ("{26=Pin_order Column_ordered;Num_of_rows=2;Num_of_columns=1}{29=-}", "26 18"),
    ("{20-24=MAP P 2 2}{33-37=[Inductance Matrix] Diagonal_matrix;1 2 3 4}", "26 14"),
    ("{20-24=MAP P 2 2;A3;A4}{33-37=[Inductance Matrix] Diagonal_matrix;1 2 3 4}", "26 18"),
    ("{16+=Model_pinmap R}{29+=MAP R 2 2;A3}", "26 17"),
    ("{16+=Model_pinmap R}{29+=MAP R 2 2}", "accepted"),
];

/// The lines of a map with this order (its sizes too) and these pins.
fn map(name: &str, order: &str, pins: &[String]) -> String {
    let head = format!("[ICM Pin Map] {name};{order};Pin_list");
    [&[head], pins].concat().join(";")
}

fn grid(order: &str, [rows, columns]: [usize; 2]) -> String {
    format!("Pin_order {order};Num_of_rows={rows};Num_of_columns={columns}")
}

fn pins(count: usize) -> Vec<String> {
    (1..=count).map(|pin| format!("A{pin}")).collect()
}

fn row_ordered(name: &str, sizes: [usize; 2], count: usize) -> String {
    map(name, &grid("Row_ordered", sizes), &pins(count))
}

/// Writes `MAP name rows columns` out: a map of two pins in this order.
fn written_out(edits: &str, order: &str) -> String {
    let mut parts = edits.split("MAP ");
    let mut written = parts.next().expect("a first part").to_owned();
    for part in parts {
        let end = part.find([';', '}']).expect("an end");
        let words: Vec<_> = part[..end].split(' ').collect();
        let sizes = [words[1], words[2]].map(|size| size.parse().expect("a size"));
        written += &map(words[0], &grid(order, sizes), &pins(2));
        written += &part[end..];
    }
    written
}

fn check_in_both_orders(cases: &[(&str, &str)]) {
    for order in ORDERS {
        let cases: Vec<_> = cases.iter().map(|(edits, expected)| (written_out(edits, order), *expected)).collect();
        check(&cases);
    }
}

/// The example with this grid for its first map, and with so many pins and conductors everywhere.
fn with_grid(grid: &str, count: usize) -> String {
    let first = map("P", grid, &pins(count));
    let last = map("Q", "Pin_order Un_ordered", &pins(count));
    let values = vec!["1"; count].join(";");
    changed(&format!("{{20-24={first}}}{{25-29={last}}}{{33-37=[Inductance Matrix] Diagonal_matrix;{values}}}"))
}

#[test]
fn readings() {
    check(READINGS);
}

#[test]
fn a_grid_holds_one_pin_up_to_its_places() {
    for order in ORDERS {
        for &(rows, columns, count, expected) in GRIDS {
            let found = answer(&with_grid(&grid(order, [rows, columns]), count));
            assert_eq!(found, expected, "{order}, {rows} rows, {columns} columns, {count} pins");
        }
    }
}

#[test]
fn a_map_without_pins() {
    check(NO_PINS);
}

#[test]
fn every_ending_judges_the_map() {
    check_in_both_orders(ENDINGS);
}

#[test]
fn other_breaks_keep_their_order() {
    check_in_both_orders(ORDER_OF_BREAKS);
}

#[test]
fn counts_are_of_pins_present() {
    check_in_both_orders(COUNTS);
}

/// Below line 29 come 61 maps of four lines each, then a 64th, whose pins begin at line 279, and the keyword of a 65th.
#[test]
fn the_keyword_of_one_map_too_many_first_judges_the_grid_it_ends() {
    let small: Vec<_> = (3..64).map(|name| map(&name.to_string(), "Pin_order Un_ordered", &pins(1))).collect();
    let small = small.join(";");
    let found = |sizes, count, next| {
        let last = row_ordered("R", sizes, count);
        answer(&changed(&format!("{{29+={small};{last};{next}}}")))
    };
    let one_more = "[ICM Pin Map] Z;Pin_order Un_ordered;Pin_list;1";
    assert_eq!(found([1, 1], 2, one_more), "16 281");
    assert_eq!(found([1, 2], 2, one_more), "17 281");
    assert_eq!(found([2, 2], 2, one_more), "17 281");
    assert_eq!(found([2, 2], 1, one_more), "17 280");
    assert_eq!(found([2, 2], 0, one_more), "9 279");
    assert_eq!(found([1, 1], 2, "[ICM Pin Map]"), "11 281");
    assert_eq!(found([1, 1], 2, "| none"), "16 282");
    assert_eq!(found([2, 2], 2, "| none"), "accepted");
}

/// Below line 19 come 63 models of seven lines each, a map whose pins begin at line 466, and the keyword of a 65th model.
#[test]
fn the_keyword_of_one_model_too_many_first_judges_the_grid_it_ends() {
    let model = "[Begin ICM Model] B;ICM_model_type MLM;[Tree Path Description];Model_pinmap P;Section Mult=1 S;\
                 Model_pinmap Q;[End ICM Model]";
    let models = vec![model; 63].join(";");
    let found = |sizes, count| {
        let last = row_ordered("R", sizes, count);
        answer(&changed(&format!("{{19+={models};{last};[Begin ICM Model] B}}")))
    };
    assert_eq!(found([1, 1], 2), "16 468");
    assert_eq!(found([1, 2], 2), "17 468");
    assert_eq!(found([2, 2], 2), "17 468");
    assert_eq!(found([2, 2], 0), "9 466");
}

/// The example has 4 pins; 15 maps of 256 pins, 261 lines each, go before a last map, whose pins begin at line 3,950.
#[test]
fn the_4097th_pin_of_all_is_judged_before_its_grid() {
    let full: Vec<_> = (0..15).map(|map| row_ordered(&format!("F{map}"), [16, 16], 256)).collect();
    let full = full.join(";");
    let found = |sizes, count| answer(&changed(&format!("{{29+={full};{}}}", row_ordered("R", sizes, count))));
    assert_eq!(found([256, 256], 252), "accepted");
    assert_eq!(found([1, 1], 252), "16 4202");
    assert_eq!(found([1, 1], 253), "17 4202");
    assert_eq!(found([256, 256], 253), "17 4202");
}

#[test]
fn a_wrong_rest_goes_before_one_pin_too_many() {
    let mut pins = pins(257);
    pins[256] += " x y";
    for sizes in [[1, 1], [256, 256]] {
        let map = map("P", &grid("Column_ordered", sizes), &pins);
        assert_eq!(answer(&changed(&format!("{{20-24={map}}}"))), "11 281");
    }
}

/// The grid comes before the room, and places without a pin need none.
#[test]
fn room_is_for_pins_present() {
    let lent = |edits, words| intake(changed(edits).as_bytes(), &mut vec![1; words]);
    let fewer = "{21=Pin_order Row_ordered;Num_of_rows=256;Num_of_columns=256}";
    assert_eq!(lent(fewer, 91), Answer::Refused(18, 0));
    assert_eq!(lent(fewer, 92), Answer::Accepted(92));
    let more = "{21=Pin_order Row_ordered;Num_of_rows=1;Num_of_columns=1}";
    assert_eq!(lent(more, 0), Answer::Refused(16, 27));
}

/// Before the maps lie the models (a count and 5 words) and the steps (a count and 6 times 6 words).
#[test]
fn a_map_is_kept_as_written() {
    let first = "{21=Pin_order Row_ordered;Num_of_rows=2;Num_of_columns=3}";
    let second = "{26=Pin_order Column_ordered;Num_of_rows=256;Num_of_columns=1}";
    let text = changed(&format!("{first}{second}"));
    let mut table = [1; 100];
    assert_eq!(intake(text.as_bytes(), &mut table), Answer::Accepted(92));
    let maps = &table[1 + 5 + 1 + 36..];
    assert_eq!((maps[0], &maps[3..8], &maps[10..15]), (2, &[0, 2, 3, 0, 2][..], &[1, 256, 1, 2, 2][..]));
    assert_eq!(maps[15], 4, "pins in all");
    assert!(sound(text.as_bytes(), &table));
    let listed = String::from_utf8(listing(text.as_bytes(), &table)).unwrap();
    assert!(listed.contains("\nmaps 2\nP 2\nQ 2\nsections 1\n"), "{listed}");
}
