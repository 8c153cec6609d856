//! Soundness, entries, walk and listing: over the tables of accepted files and over tables with words bent.
//! The places of the words are counted by hand from the paper's layout.

mod example;

use std::collections::BTreeSet;

use plain::{entry, intake, listing, sound, step, value, Answer, Place, Walked};

/// Offsets of the first record of each part in the table of the example.
const MODEL: usize = 1;
const STEP: usize = MODEL + 5 + 1;
const MAP: usize = STEP + 6 * 6 + 1;
const PIN: usize = MAP + 2 * 7 + 1;
const SECTION: usize = PIN + 4 * 2 + 1;
const MATRIX: usize = SECTION + 8 + 1;
const VALUE: usize = MATRIX + 5 + 1;
const USED: usize = VALUE + 3 * 3;

fn taken_in(text: &str, words: usize) -> (Vec<u8>, Vec<u64>) {
    let text = format!("{}\n", text.replace(';', "\n")).into_bytes();
    let mut table = vec![u64::MAX; words];
    assert!(matches!(intake(&text, &mut table), Answer::Accepted(_)), "{:?}", intake(&text, &mut table));
    (text, table)
}

fn example() -> (Vec<u8>, Vec<u64>) {
    taken_in(example::LINES, USED + 2)
}

/// The example with a distributed section of a banded and a sparse matrix, an ordered map and sides.
fn second_example() -> (Vec<u8>, Vec<u64>) {
    let text = example::LINES
        .replace("Model_pinmap P;", "Model_pinmap P;Side near;")
        .replace(
            "Section Mult=2 S;Fork;Section Mult=1 S;Endfork;Model_pinmap Q",
            "Section Len=2.50m S;Model_pinmap P;Side far",
        )
        .replace(
            "Pin_order Un_ordered;Pin_list;A1;A2;",
            "Pin_order Row_ordered;Num_of_columns=3;Num_of_rows=1;Pin_list;1;2;3;",
        )
        .replace("[ICM Pin Map] Q;Pin_order Un_ordered;Pin_list;1;2;", "")
        .replace("Lumped", "Distributed")
        .replace(
            "[Inductance Matrix] Full_matrix;[Row] 1;4.50nH 0.8nH;[Row] 2;4.5nH;",
            "[Inductance Matrix] Banded_matrix;[Bandwidth] 1;[Row] 1;1 2;[Row] 2;3;4;[Row] 3;5;\
             [Capacitance Matrix] Sparse_matrix;[Row] 1;1 -7p;3 -0;[Row] 3;3 9;",
        );
    taken_in(&text, 100)
}

/// Whether the example stays sound with the words of these places and values.
fn bent(bends: &[(usize, u64)]) -> bool {
    let (text, mut table) = example();
    for &(place, word) in bends {
        table[place] = word;
    }
    sound(&text, &table)
}

/// A table over the text `x` with a model for each path; a path is the kinds of its steps, none of them an end.
fn table_of_paths(paths: &[&[u64]]) -> Vec<u64> {
    let mut table = vec![paths.len() as u64];
    let mut first = 0;
    for path in paths {
        table.extend([0, 1, 0, first, path.len() as u64]);
        first += path.len() as u64;
    }
    table.push(first);
    for kind in paths.concat() {
        let multiple = u64::from(kind == 1);
        table.extend([kind, 0, multiple, 0, 0, 0]);
    }
    let section = [0, 1, 0, 1, 0, 0, 0, 0];
    [&table[..], &[0, 0, 1], &section, &[0, 0]].concat()
}

/// The path's model among others, which are sound.
fn table_among_others(path: &[u64]) -> Vec<u64> {
    table_of_paths(&[&[2, 3], path, &[], &[1, 2, 1, 3]])
}

/// The kinds of a model's steps.
fn path_of(table: &[u64], model: u64) -> Vec<u64> {
    let word = |place: usize| table[1 + 5 * model as usize + place] as usize;
    let steps = table[1 + 5 * table[0] as usize + 1..].chunks(6);
    steps.skip(word(3)).take(word(4)).map(|step| step[0]).collect()
}

/// Opens less closes before each step of a path and behind its last.
fn depths(path: &[u64]) -> Vec<i64> {
    let count = |steps: &[u64], kind| steps.iter().filter(|&&step| step == kind).count() as i64;
    (0..=path.len()).map(|step| count(&path[..step], 2) - count(&path[..step], 3)).collect()
}

/// The depth at which a path first leaves 0 to 8: 9 by a fork at 8, -1 by an endfork at 0.
fn depth_outside(path: &[u64]) -> Option<i64> {
    depths(path).into_iter().find(|depth| !(0..=8).contains(depth))
}

/// All orders of five steps, each inside 0 to 8 fork blocks; many of them close too much, or too little.
fn paths() -> Vec<Vec<u64>> {
    let order = |number: usize| (0..5).map(|place| [1, 2, 3][number / 3_usize.pow(place) % 3]).collect::<Vec<_>>();
    let orders: Vec<_> = (0..3_usize.pow(5)).map(order).collect();
    let inside = |forks| orders.iter().map(move |path| [&vec![2; forks][..], path, &vec![3; forks]].concat());
    (0..=8).flat_map(inside).collect()
}

#[test]
fn layout_of_the_example() {
    let (text, table) = example();
    let name = |start: u64, length: u64| std::str::from_utf8(&text[start as usize..][..length as usize]).unwrap();
    assert_eq!(table.len() - USED, 2);
    assert_eq!((table[0], name(table[1], table[2]), &table[3..6]), (1, "A", &[2, 0, 6][..]));
    assert_eq!(table[STEP - 1], 6);
    let steps: Vec<_> = table[STEP..MAP - 1].chunks(6).map(|step| (step[0], step[1], step[2], step[5])).collect();
    assert_eq!(steps, [(0, 0, 0, 13), (1, 0, 2, 14), (2, 0, 0, 15), (1, 0, 1, 16), (3, 0, 0, 17), (0, 1, 0, 18)]);
    assert_eq!((table[MAP - 1], name(table[MAP + 7], table[MAP + 8])), (2, "Q"));
    assert_eq!(table[MAP + 9..MAP + 14], [2, 0, 0, 2, 2]);
    assert_eq!((table[PIN - 1], name(table[PIN + 2], table[PIN + 3])), (4, "A2"));
    assert_eq!((table[SECTION - 1], &table[SECTION + 2..SECTION + 8]), (1, &[0, 2, 0, 1, 0, 0][..]));
    assert_eq!(table[MATRIX - 1..VALUE], [1, 3, 0, 0, 3, 33, 3]);
    let [large, small] = [45 * 256 + 2 * 54, 8 * 256 + 2 * 54];
    assert_eq!(table[VALUE..USED], [1, 1, large, 1, 2, small, 2, 2, large]);
}

#[test]
fn zero_tables_are_sound_from_seven_words_on() {
    for words in 0..10 {
        assert_eq!(sound(b"", &vec![0; words]), words >= 7, "{words}");
    }
    assert_eq!(entry(b"", &[0; 7], 0, 0, 1, 1), Err(31));
    assert_eq!(step(b"", &[0; 7], 0, 0, 0), Err(31));
}

#[test]
fn counts_and_length() {
    assert!(bent(&[]));
    let bounds = [(0, 64), (STEP, 4_096), (MAP, 64), (PIN, 4_096), (SECTION, 256), (MATRIX, 1_024), (VALUE, 65_536)];
    for (place, bound) in bounds {
        let place = place.saturating_sub(1);
        assert!(!bent(&[(place, bound + 1)]));
        assert!(!bent(&[(place, u64::MAX)]));
        assert!(!bent(&[(place, u64::MAX / 3)]));
    }
    assert!(!bent(&[(USED, 1)]));
    assert!(!bent(&[(USED + 1, 1)]));
    let (text, table) = example();
    assert!(sound(&text, &table[..USED]));
    assert!(!sound(&text, &table[..USED - 1]));
}

#[test]
fn a_count_at_its_bound_is_sound() {
    let sizes = [(0, 64, 5), (4, 256, 8), (5, 1_024, 5)];
    for (part, bound, size) in sizes {
        for (count, expected) in [(bound, true), (bound + 1, false)] {
            let record: &[u64] = match part {
                0 => &[0, 1, 0, 0, 0],
                4 => &[0, 1, 0, 1, 0, 0, 0, 0],
                _ => &[0, 0, 0, 0, 0],
            };
            let mut table = vec![0; part];
            table.push(count);
            table.extend(record.iter().copied().cycle().take(count as usize * size));
            table.resize(table.len() + 6 - part, 0);
            assert_eq!(sound(b"x", &table), expected, "part {part} count {count}");
        }
    }
}

#[test]
fn names_lie_in_the_text() {
    let size = example().0.len() as u64;
    for place in [MODEL, MAP, MAP + 7, PIN, PIN + 6, SECTION] {
        for (start, length, expected) in [
            (0, 1, true),
            (0, 120, true),
            (0, 121, false),
            (0, 0, false),
            (5, 0, false),
            (size - 1, 1, true),
            (size - 1, 2, false),
            (size, 0, false),
            (size, 1, false),
            (u64::MAX, 1, false),
            (u64::MAX - 118, 120, false),
            (1, u64::MAX, false),
        ] {
            assert_eq!(bent(&[(place, start), (place + 1, length)]), expected, "{place} {start} {length}");
        }
    }
}

#[test]
fn sides_are_names_or_nothing_and_only_at_ends() {
    for (start, length, expected) in [(0, 0, true), (1, 0, false), (0, 1, true), (u64::MAX, 1, false), (0, 121, false)]
    {
        assert_eq!(bent(&[(STEP + 3, start), (STEP + 4, length)]), expected);
        for inner in 1..5 {
            let place = STEP + 6 * inner;
            assert_eq!(bent(&[(place + 3, start), (place + 4, length)]), (start, length) == (0, 0));
        }
    }
}

#[test]
fn enumerations() {
    for (place, last) in [(MODEL + 2, 2), (SECTION + 2, 1), (MATRIX, 3)] {
        assert!(!bent(&[(place, last + 1)]));
        assert!(!bent(&[(place, u64::MAX)]));
    }
    assert!(bent(&[(MODEL + 2, 0)]) && bent(&[(MODEL + 2, 1)]));
    assert!((0..4).all(|form| bent(&[(MATRIX, form)])));
    assert!(!bent(&[(MAP + 2, 3)]));
    assert!(!bent(&[(STEP, 4)]));
}

#[test]
fn steps() {
    assert!(bent(&[(STEP + 1, 1)]));
    assert!(!bent(&[(STEP + 1, 2)]));
    assert!(!bent(&[(STEP + 1, u64::MAX)]));
    assert!(!bent(&[(STEP + 2, 1)]));
    let section = STEP + 6;
    assert!(!bent(&[(section + 1, 1)]));
    assert!(bent(&[(section + 2, 65_535)]));
    assert!(!bent(&[(section + 2, 65_536)]));
    assert!(!bent(&[(section + 2, 0)]));
    for fork in [STEP + 12, STEP + 24] {
        assert!(!bent(&[(fork + 1, 1)]));
        assert!(!bent(&[(fork + 2, 1)]));
    }
    assert!(bent(&[(STEP + 5, 0), (section + 5, u64::MAX)]), "lines are not judged");
}

#[test]
fn amounts_fit_the_method() {
    let amounts = [(STEP + 8, value(b"2.5001").unwrap()), (STEP + 20, value(b"1e60").unwrap())];
    let distributed = [(SECTION + 2, 1), amounts[0], amounts[1]];
    assert!(bent(&distributed));
    assert!(!bent(&amounts));
    assert!(!bent(&[(SECTION + 2, 1)]), "2 and 1 are no value words");
    for word in
        [128, amounts[0].1 + 1, 0, 256 * 10 + 128, 256 * 1_000_000_000_000_001 + 128, 256 + 2 * 125, 256 + 2 * 3]
    {
        assert!(!bent(&[distributed[0], distributed[1], (STEP + 20, word)]), "{word}");
    }
}

#[test]
fn ranges_do_not_wrap_even_if_empty() {
    for (place, count) in [(MODEL + 3, 6), (MAP + 5, 4), (MATRIX + 2, 3)] {
        assert!(bent(&[(place, count), (place + 1, 0)]));
        assert!(!bent(&[(place, count + 1), (place + 1, 0)]));
        assert!(!bent(&[(place, u64::MAX), (place + 1, 1)]));
        assert!(!bent(&[(place, 1), (place + 1, u64::MAX)]));
        assert!(!bent(&[(place, 0), (place + 1, count + 1)]));
    }
}

#[test]
fn maps_keep_their_bounds() {
    let grid = |order, rows, columns| bent(&[(MAP + 2, order), (MAP + 3, rows), (MAP + 4, columns)]);
    assert!(grid(0, 1, 256) && grid(1, 256, 256));
    assert!(!grid(0, 0, 1) && !grid(1, 1, 0) && !grid(0, 257, 1) && !grid(1, 1, 257));
    assert!(grid(2, 0, 0) && !grid(2, 1, 0) && !grid(2, 0, 1));
    assert!(grid(0, 1, 1) && grid(1, 1, 1), "pins are not compared with places");
    assert!(bent(&[(MAP + 2, 0), (MAP + 3, 1), (MAP + 4, 1), (MAP + 6, 0)]), "a map may have no pin");
    assert!(bent(&[(MAP + 5, 0), (MAP + 6, 4)]), "ranges may overlap");
    let pins = |of_map| {
        let mut table = vec![0, 0, 1, 0, 1, 2, 0, 0, 0, of_map, 300];
        table.extend([0, 1].iter().cycle().take(600));
        table.extend([0; 3]);
        sound(b"x", &table)
    };
    assert!(pins(256) && !pins(257));
}

#[test]
fn sections_and_matrices_keep_their_bounds() {
    assert!(bent(&[(SECTION + 3, 1)]) && bent(&[(SECTION + 3, 256)]));
    assert!(!bent(&[(SECTION + 3, 0)]) && !bent(&[(SECTION + 3, 257)]));
    assert!(bent(&[(SECTION + 4, 1), (SECTION + 5, 0), (SECTION + 7, 1)]));
    assert!((4..8).all(|kind| !bent(&[(SECTION + kind, 2)]) && !bent(&[(SECTION + kind, u64::MAX)])));
    let banded = |form, width| bent(&[(MATRIX, form), (MATRIX + 1, width)]);
    assert!(banded(1, 0) && banded(1, 255) && !banded(1, 256));
    assert!([0, 2, 3].iter().all(|&form| banded(form, 0) && !banded(form, 1)));
}

#[test]
fn values_rise_in_the_upper_triangle() {
    let second = |row, column| bent(&[(VALUE + 3, row), (VALUE + 4, column)]);
    assert!(second(1, 2) && second(1, 256) && !second(2, 2));
    assert!(!second(1, 1) && !second(0, 5) && !second(2, 1) && !second(1, 257) && !second(3, 3));
    assert!(!bent(&[(VALUE, 0)]) && !bent(&[(VALUE, 0), (VALUE + 1, 0)]) && !bent(&[(VALUE + 1, 2)]));
    assert!(!bent(&[(VALUE + 7, 257)]) && bent(&[(VALUE + 7, 256)]) && !bent(&[(VALUE + 6, u64::MAX)]));
    assert!(bent(&[(MATRIX + 3, 2), (VALUE + 6, 0)]), "a value in no range has no place");
    assert!(bent(&[(MATRIX + 2, 1), (MATRIX + 3, 2), (VALUE, 9), (VALUE + 1, 3)]));
    assert!(!bent(&[(MATRIX + 3, 2), (VALUE + 8, 0)]), "but it has a value");
}

#[test]
fn value_words() {
    let word = |word| bent(&[(VALUE + 2, word)]);
    assert!(word(128) && !word(129) && !word(0) && !word(130));
    assert!(word(256 + 2 * 4) && word(256 + 2 * 124 + 1));
    assert!(!word(256 + 2 * 3) && !word(256 + 2 * 125));
    assert!(word(256 * 999_999_999_999_999 + 128) && !word(256 * 1_000_000_000_000_001 + 128));
    assert!(!word(256 * 10 + 128) && !word(u64::MAX));
}

#[test]
fn depth_stays_in_bounds_and_ends_at_zero() {
    assert!(bent(&[(MODEL + 4, 2)]) && !bent(&[(MODEL + 4, 3)]), "a fork left open");
    assert!(!bent(&[(MODEL + 3, 3), (MODEL + 4, 3)]), "an endfork with none open");
    assert!(!bent(&[(STEP + 12, 3), (STEP + 24, 2)]), "an endfork before its fork");
    let nested = |depth| sound(b"x", &table_of_paths(&[&[2, 3].map(|kind| vec![kind; depth]).concat()]));
    assert!(nested(8) && !nested(9));
}

#[test]
fn entries() {
    let (text, table) = example();
    let ask = |section, kind, row, column| entry(&text, &table, section, kind, row, column);
    assert_eq!(ask(0, 1, 1, 1), value(b"45e-10"));
    assert_eq!(ask(0, 1, 1, 2), value(b"8e-10"));
    assert_eq!(ask(0, 1, 2, 1), value(b"8e-10"));
    assert_eq!(ask(0, 1, 2, 2), value(b"45e-10"));
    assert_eq!(ask(0, 0, 2, 2), Ok(128));
    assert_eq!(ask(0, 3, 1, 1), Ok(128));
    for (section, kind, row, column) in [
        (1, 1, 1, 1),
        (u64::MAX, 1, 1, 1),
        (0, 4, 1, 1),
        (0, u64::MAX, 1, 1),
        (0, 1, 0, 1),
        (0, 1, 1, 0),
        (0, 1, 3, 1),
        (0, 0, 1, 3),
    ] {
        assert_eq!(ask(section, kind, row, column), Err(31));
    }
    assert_eq!(entry(&text, &table[..USED - 1], 9, 9, 9, 9), Err(30));
    assert_eq!(entry(&text[..10], &table, 0, 1, 1, 1), Err(30));
}

#[test]
fn entries_of_banded_and_sparse_matrices() {
    let (text, table) = second_example();
    let ask = |kind, row, column| entry(&text, &table, 0, kind, row, column);
    let inductance = [[1, 2, 0], [2, 3, 4], [0, 4, 5]];
    let capacitance = [["-7p", "0", "0"], ["0", "0", "0"], ["0", "0", "9"]];
    for row in 1..=3 {
        for column in 1..=3 {
            let place = (row as usize - 1, column as usize - 1);
            assert_eq!(ask(1, row, column), value(inductance[place.0][place.1].to_string().as_bytes()));
            assert_eq!(ask(3, row, column), value(capacitance[place.0][place.1].as_bytes()));
        }
    }
}

#[test]
fn walk_over_the_example() {
    let (text, table) = example();
    let mut place = Place { model: 0, step: 0, depth: 0 };
    let mut seen = Vec::new();
    loop {
        let walked = step(&text, &table, place.model, place.step, place.depth).unwrap();
        if walked.done {
            assert_eq!(walked.next, place);
            let zeros = Walked {
                done: true,
                kind: 0,
                target: 0,
                amount: 0,
                side_start: 0,
                side_length: 0,
                line: 0,
                next: place,
            };
            assert_eq!(walked, zeros);
            break;
        }
        seen.push((walked.kind, walked.target, walked.amount, walked.line, place.depth));
        place = walked.next;
    }
    let expected =
        [(0, 0, 0, 13, 0), (1, 0, 2, 14, 0), (2, 0, 0, 15, 0), (1, 0, 1, 16, 1), (3, 0, 0, 17, 1), (0, 1, 0, 18, 0)];
    assert_eq!(seen, expected);
}

#[test]
fn walk_gives_sides_and_lengths() {
    let (text, table) = second_example();
    let first = step(&text, &table, 0, 0, 0).unwrap();
    let side = &text[first.side_start as usize..][..first.side_length as usize];
    assert_eq!((side, first.line), (&b"near"[..], 13));
    let section = step(&text, &table, 0, 1, 0).unwrap();
    assert_eq!((section.kind, section.amount, section.line), (1, value(b"2.5m").unwrap(), 15));
    let last = step(&text, &table, 0, 2, 0).unwrap();
    assert_eq!((last.kind, last.target, last.line), (0, 0, 16));
}

#[test]
fn walk_places_out_of_range() {
    let (text, table) = example();
    let ask = |model, at, depth| step(&text, &table, model, at, depth);
    for (model, at, depth) in [
        (1, 0, 0),
        (u64::MAX, 0, 0),
        (0, 7, 0),
        (0, u64::MAX, 0),
        (0, 0, 1),
        (0, 3, 0),
        (0, 5, 1),
        (0, 6, 1),
        (0, 4, u64::MAX),
    ] {
        assert_eq!(ask(model, at, depth), Err(31), "{model} {at} {depth}");
    }
    assert!(ask(0, 3, 1).is_ok() && ask(0, 6, 0).is_ok());
    assert_eq!(step(&text, &table[..USED - 1], 1, 9, 9), Err(30));
}

/// Depths to ask a walk for: all that it can have, and some that it cannot.
const DEPTHS: [u64; 11] = [0, 1, 2, 3, 4, 5, 6, 7, 8, 9, u64::MAX];

/// The one depth in range at a step of a sound table, with what the walk finds there; all others are 31.
fn only_depth(text: &[u8], table: &[u64], model: u64, at: u64) -> (u64, Walked) {
    let answers = DEPTHS.map(|depth| (depth, step(text, table, model, at, depth)));
    let mut in_range = Vec::new();
    for (depth, answer) in answers {
        match answer {
            Ok(walked) => in_range.push((depth, walked)),
            Err(number) => assert_eq!(number, 31, "model {model} step {at} depth {depth}"),
        }
    }
    assert_eq!(in_range.len(), 1, "model {model} step {at}");
    in_range[0]
}

/// Asks at each step of each model of a sound table; gives the kinds met, each with a depth it is met at.
fn kinds_and_depths_met(text: &[u8], table: &[u64]) -> BTreeSet<(u64, u64)> {
    let mut met = BTreeSet::new();
    for model in 0..table[0] {
        let depths = depths(&path_of(table, model));
        for at in 0..depths.len() {
            let (depth, walked) = only_depth(text, table, model, at as u64);
            assert!(depth <= 8 && depth == depths[at] as u64, "model {model} step {at} depth {depth}");
            let next = (at + 1).min(depths.len() - 1);
            assert_eq!(walked.next, Place { model, step: next as u64, depth: depths[next] as u64 });
            met.insert((walked.kind, depth));
        }
    }
    met
}

#[test]
fn a_sound_walk_has_one_depth_and_always_room_to_go_on() {
    let mut met = BTreeSet::new();
    for (text, table) in [example(), second_example()] {
        met.extend(kinds_and_depths_met(&text, &table));
    }
    let ends_at_zero = |path: &[u64]| depths(path).last() == Some(&0);
    for path in paths().iter().filter(|path| ends_at_zero(path) && depth_outside(path).is_none()) {
        let table = table_among_others(path);
        assert!(sound(b"x", &table), "{path:?}");
        met.extend(kinds_and_depths_met(b"x", &table));
    }
    let depths_of = |kind| met.iter().filter(|met| met.0 == kind).map(|met| met.1).collect::<Vec<_>>();
    assert_eq!(depths_of(2), [0, 1, 2, 3, 4, 5, 6, 7], "forks");
    assert_eq!(depths_of(3), [1, 2, 3, 4, 5, 6, 7, 8], "endforks");
}

/// Nothing but the depth along one model is wrong here, and still no place of any model answers.
#[test]
fn a_path_that_leaves_the_depths_makes_the_table_unsound() {
    let mut outside = BTreeSet::new();
    for path in paths() {
        let Some(depth) = depth_outside(&path) else { continue };
        outside.insert(depth);
        let table = table_among_others(&path);
        for (model, at) in (0..=4).flat_map(|model| (0..=path.len() as u64 + 1).map(move |at| (model, at))) {
            let answers = DEPTHS.map(|depth| step(b"x", &table, model, at, depth));
            assert_eq!(answers, [Err(30); DEPTHS.len()], "{path:?} model {model} step {at}");
        }
    }
    assert_eq!(outside, BTreeSet::from([-1, 9]), "both an endfork at 0 and a fork at 8");
}

#[test]
fn listing_of_the_example() {
    let (text, table) = example();
    let expected = "accepted 92;models 1;A MLM 6;steps 6;end 13 P;section 14 S 2;fork 15;section 16 S 1;endfork 17;\
                    end 18 Q;maps 2;P 2;Q 2;sections 1;S Lumped 2;values 3;S L 1 1 45e-10;S L 1 2 8e-10;S L 2 2 45e-10;";
    assert_eq!(String::from_utf8(listing(&text, &table)).unwrap(), expected.replace(';', "\n"));
}

#[test]
fn listing_of_sides_lengths_and_signs() {
    let (text, table) = second_example();
    let listed = String::from_utf8(listing(&text, &table)).unwrap().replace('\n', ";");
    assert!(listed.contains(";end 13 P near;section 15 S 25e-4;end 16 P far;maps 1;P 3;"));
    assert!(listed.ends_with(";S C 1 1 -7e-12;S C 1 3 0e0;S C 3 3 9e0;"));
    assert_eq!(listing(&text, &table[1..]), b"");
}
