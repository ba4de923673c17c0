use super::*;
use second::trial::Trial;

/// A file of so many pages with n0, N and s all 1 and two records.
fn file(cap: u16) -> Trial {
    let mut file = Trial::of_ones(cap).expect("agrees");
    assert_eq!(file.put_up_to(1), Ok(0));
    file
}

fn site(file: &Trial) -> Site<'_> {
    Site {
        state: file.state,
        area: &file.area,
    }
}

/// The pairs of a file of three pages that is wrong in one way, with a right
/// one of four pages as the other: once as the first file, once as the second.
fn of(change: impl Fn(&mut Trial)) -> [Vec<Pair>; 2] {
    let (mut wrong, right) = (file(3), file(4));
    change(&mut wrong);
    [
        pairs(site(&wrong), site(&right), &[0; 16]),
        pairs(site(&right), site(&wrong), &[0; 16]),
    ]
}

/// What both have to be: a refusal, and the numbers of a row.
fn both(refusal: u16, rows: [u16; 2], numbers: &[u16]) -> [Vec<Pair>; 2] {
    [0, 1].map(|file| {
        let mut pairs = vec![(ALONE[file], refusal)];
        pairs.extend(numbers.iter().map(|&number| (rows[file], number)));
        pairs
    })
}

#[test]
fn broken_pages_are_told_by_their_place() {
    let of_pages = |pages: &[usize]| {
        of(|file| {
            for page in pages {
                file.area[PAGE_BYTES * page] ^= 1;
            }
        })
    };
    assert_eq!(of_pages(&[0]), both(4, PAGE, &[0]));
    assert_eq!(of_pages(&[1]), both(4, PAGE, &[1]));
    assert_eq!(of_pages(&[2]), both(4, PAGE, &[2]));
    assert_eq!(of_pages(&[0, 2]), both(4, PAGE, &[0, 3]));
    assert_eq!(of_pages(&[1, 2]), both(4, PAGE, &[1, 3]));
}

#[test]
fn wrong_counts_are_told() {
    let counted = |records| of(|file| file.state.records = records);
    assert_eq!(counted(1), both(9, COUNT, &[1]));
    assert_eq!(counted(3), both(9, COUNT, &[2]));
    assert_eq!(counted(0), both(9, COUNT, &[3]));
    assert_eq!(counted(36), both(9, COUNT, &[3]));
    // Both records a page too high, with nothing on page 0.
    let lifted = of(|file| {
        let page = file.area[..PAGE_BYTES].to_vec();
        let above = file.area[PAGE_BYTES..2 * PAGE_BYTES].to_vec();
        file.area[..PAGE_BYTES].copy_from_slice(&above);
        file.area[PAGE_BYTES..2 * PAGE_BYTES].copy_from_slice(&page);
        (file.area[4], file.area[PAGE_BYTES + 4]) = (0, 1);
    });
    assert_eq!(lifted, both(9, COUNT, &[0]));
}

#[test]
fn wrong_lengths_are_told() {
    let long = |length| of(|file| file.area.resize(length, 0));
    assert_eq!(long(0), both(2, LENGTH, &[0]));
    assert_eq!(long(767), both(2, LENGTH, &[1]));
    assert_eq!(long(769), both(2, LENGTH, &[2]));
    assert_eq!(long(512), both(2, LENGTH, &[3]));
    // A page more is what the other file has.
    assert_eq!(long(1024), both(2, LENGTH, &[4, 5]));
    assert_eq!(long(100), both(2, LENGTH, &[]));
}

#[test]
fn wrong_numbers_are_told_where_they_are_alone() {
    let rules: [fn(&mut State); 8] = [
        |state| state.n0 = 0,
        |state| state.groups = 0,
        |state| state.sweeps = 9,
        |state| state.cap = 4097,
        |state| state.edition = 9,
        |state| state.pages = 0,
        |state| state.pages = 4,
        |state| state.records = 37,
    ];
    for (rule, change) in (0..).zip(rules) {
        let told = of(|file| change(&mut file.state));
        assert_eq!(told, both(1, NUMBER, &[rule]));
    }
    let two = of(|file| (file.state.n0, file.state.sweeps) = (0, 0));
    assert_eq!(two, both(1, NUMBER, &[]));
    for &edition in SOME_WRONG {
        let mut expected = both(1, NUMBER, &[4]);
        expected[1].push((EDITION, edition));
        assert_eq!(of(|file| file.state.edition = edition), expected);
    }
}

/// The first file is told, and what is wrong with the second goes into the pair
/// of both.
#[test]
fn both_files_and_the_room() {
    let wrong = |refusal| {
        let mut file = file(3);
        match refusal {
            1 => file.state.n0 = 0,
            2 => file.area.push(0),
            4 => file.area[0] ^= 1,
            _ => file.state.records = 1,
        }
        file
    };
    for first in [1, 2, 4, 9] {
        for second in [1, 2, 4, 9] {
            let (one, two) = (wrong(first), wrong(second));
            let told = pairs(site(&one), site(&two), &[0; 15]);
            let expected = [(BOTH, 10 * first + second), (AND_ROOM, 10 + first)];
            assert_eq!(told[..2], expected);
            assert!(TOGETHER.contains(&expected[0].1) && EITHER.contains(&expected[1].1));
        }
        let told = pairs(site(&file(2)), site(&wrong(first)), &[]);
        assert_eq!(told[..2], [(ALONE[1], first), (AND_ROOM, 20 + first)]);
    }
}

#[test]
fn every_row_has_a_name() {
    let names: Vec<_> = FAULT_PAIRS
        .iter()
        .filter_map(|(row, _)| name(*row))
        .collect();
    assert_eq!((names[0], names[12]), ("first wrong", "2nd edition"));
    assert_eq!(name(1069), None);
}
