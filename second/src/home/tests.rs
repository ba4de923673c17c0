use super::*;

/// n0, N and s of a file, and its edition.
type Numbers = (u16, u16, u16, u16);

fn file((n0, groups, sweeps, edition): Numbers, pages: u16) -> State {
    State {
        n0,
        groups,
        sweeps,
        pages,
        cap: 4096,
        edition,
        records: 0,
    }
}

/// Files of both editions, with fewer sweeps than groups and with more.
fn files() -> impl Iterator<Item = Numbers> {
    let starts = [(1, 1, 1), (2, 3, 5), (3, 4, 2), (4, 2, 8), (2, 8, 3)];
    let both = |(n0, groups, sweeps)| [1, 2].map(|edition| (n0, groups, sweeps, edition));
    starts.into_iter().flat_map(both)
}

/// Small keys, keys all over the 64 bits and those at the edges of the seeds.
fn keys() -> impl Iterator<Item = u64> {
    let spread = (0..200u64).map(|i| i.wrapping_mul(0x9e37_79b9_7f4a_7c15));
    let edges = [2_147_483_645, 2_147_483_646, 2_147_483_647, u64::MAX];
    (0..40).chain(spread).chain(edges)
}

#[test]
fn published_draws() {
    let mut draw = 1;
    let mut seen = Vec::new();
    for _ in 0..10_000 {
        draw = next_draw(draw);
        seen.push(draw);
    }
    assert_eq!(seen[..4], [16807, 282475249, 1622650073, 984943658]);
    assert_eq!(seen[9_999], 1043618065);
}

#[test]
fn three_sweeps_over_eight_groups() {
    let page_of = |group| new_address(group, 16, 8, 3);
    let order = [7, 4, 1, 6, 3, 0, 5, 2].map(page_of);
    assert_eq!(order, [16, 17, 18, 19, 20, 21, 22, 23]);
}

#[test]
fn homes_of_two_keys() {
    let homes = |key| [4, 5, 6, 7, 8].map(|pages| home(file((2, 2, 1, 1), pages), key));
    assert_eq!(homes(0), [0, 0, 5, 6, 6]);
    assert_eq!(homes(1), [1, 4, 4, 4, 4]);
}

/// Twelve pages take three steps, so draws 11 to 13 count. Those of key 0 are
/// 823564440, 1115438165 and 1784484492, all too large to move it.
#[test]
fn homes_in_the_second_edition() {
    let homes = |key| [4, 5, 6, 7, 8, 12].map(|pages| home(file((2, 2, 1, 2), pages), key));
    assert_eq!(homes(0), [0, 0, 0, 0, 0, 0]);
    assert_eq!(homes(1), [1, 1, 1, 6, 6, 6]);
    assert_eq!(homes(5), [1, 4, 4, 4, 7, 7]);
    assert_eq!(homes(42590), [2; 6]);
    assert_eq!(homes(42591), [3, 4, 4, 4, 4, 4]);
    assert_eq!(homes(u64::MAX), [3, 4, 4, 4, 4, 11]);
}

#[test]
fn the_last_mover_and_the_first_that_stays() {
    let moves = |edition, key| {
        let draw = next_draw(draw_before_steps(edition, key));
        is_mover(draw, pages_per_group(2, 1))
    };
    assert!(moves(1, 42590) && !moves(1, 42591));
    assert!(!moves(2, 42590) && moves(2, 42591));
}

/// 16807 to a power by repeated squaring, so that a draw comes from the seed
/// without those before it.
fn power(of: u64) -> u64 {
    let (mut square, mut left, mut product) = (16807, of, 1);
    while left > 0 {
        if left % 2 == 1 {
            product = product * square % 2147483647;
        }
        square = square * square % 2147483647;
        left /= 2;
    }
    product
}

/// The draw that step x uses in an edition.
fn draw_of_step(edition: u16, key: u64, x: u64) -> u64 {
    let number = if edition == 1 { x } else { x + 10 };
    power(number) * (key % 2147483646 + 1) % 2147483647
}

#[test]
fn powers_give_the_published_draws() {
    assert_eq!(
        [1, 2, 3, 4].map(power),
        [16807, 282475249, 1622650073, 984943658]
    );
    assert_eq!(power(10_000), 1043618065);
    assert_eq!(draw_of_step(2, 0, 1), 823564440);
    assert_eq!(draw_of_step(2, 2147483646, 4), 74243042);
}

/// The homes of a key at every size from the start on, found by adding page
/// after page: each belongs to one group, and the movers of that group come to
/// it. Groups grow from the highest down, each sweep taking one in `sweeps`.
fn homes_by_adding((n0, groups, sweeps, edition): Numbers, most: u64, key: u64) -> Vec<u64> {
    let (mut size, mut groups) = (u64::from(n0 * groups), u64::from(groups));
    let mut address = key % size;
    let mut homes = vec![address];
    let mut x = 1;
    while size < most {
        let per_group = size / groups;
        let moves = draw_of_step(edition, key, x) * (per_group + 1) <= 2147483647;
        let own = address % groups;
        let from_the_top = (0..u64::from(sweeps))
            .flat_map(|sweep| (sweep..groups).step_by(usize::from(sweeps)))
            .map(|down| groups - 1 - down);
        for group in from_the_top {
            if moves && group == own {
                address = size;
            }
            size += 1;
            homes.push(address);
        }
        if size / groups == 2 * u64::from(n0) {
            groups *= 2;
        }
        x += 1;
    }
    homes
}

#[test]
fn adding_page_after_page_gives_the_same_homes() {
    let mut differ = 0;
    for numbers in files() {
        for key in keys() {
            let start = numbers.0 * numbers.1;
            let homes = homes_by_adding(numbers, 300, key);
            for (pages, &expected) in (start..).zip(&homes) {
                assert_eq!(
                    home(file(numbers, pages), key),
                    expected,
                    "{key} at {pages}"
                );
                let (n0, groups, sweeps, edition) = numbers;
                let other = file((n0, groups, sweeps, 3 - edition), pages);
                differ += u32::from(home(other, key) != expected);
            }
        }
    }
    assert!(differ > 100_000, "{differ}");
}

/// Figures worked out elsewhere, with each draw from its power of 16807.
#[test]
fn homes_of_wide_files_in_the_second_edition() {
    let at = |n0, groups, sweeps, pages, key| home(file((n0, groups, sweeps, 2), pages), key);
    assert_eq!(at(2, 8, 3, 24, 123456789012345), 18);
    assert_eq!(at(4, 64, 8, 4096, 123456789012345), 3460);
    assert_eq!(at(1, 1, 1, 4096, 7), 2386);
    assert_eq!(at(1, 1, 1, 4096, u64::MAX), 709);
    assert_eq!(at(3, 5, 2, 4096, 1 << 63), 82);
}

#[test]
fn a_home_stays_or_becomes_the_new_page() {
    for numbers in files() {
        for key in keys() {
            stays_or_becomes(numbers, key);
        }
    }
}

fn stays_or_becomes(numbers: Numbers, key: u64) {
    let start = numbers.0 * numbers.1;
    for pages in start..start + 100 {
        let before = home(file(numbers, pages), key);
        let after = home(file(numbers, pages + 1), key);
        assert!(before < u64::from(pages));
        assert!(after == before || after == u64::from(pages));
    }
}

/// Before the first step no draw is used, so the editions agree.
#[test]
fn editions_agree_on_a_file_that_has_not_grown() {
    for numbers in files() {
        let (n0, groups, ..) = numbers;
        for key in keys() {
            let at = home(file(numbers, n0 * groups), key);
            assert_eq!(at, key % u64::from(n0 * groups));
        }
    }
}
