//! Areas all of whose pages pass the rules, but that are mostly no image.

use crate::files::File;
use crate::keys::key_with_home;
use crate::random::Random;
use second::home::home;
use second::image::{page_bytes, standing};
use second::page::{Record, SLOTS};
use second::state::State;

/// The records of each page.
type Pages = Vec<Vec<Record>>;

fn pages_of(file: &File) -> Pages {
    let mut pages = vec![Vec::new(); usize::from(file.state.cap)];
    for (address, record) in standing(&file.area) {
        pages[address].push(record);
    }
    pages
}

/// Writes pages back, each put in order, with no key twice on one page.
fn store(file: &mut File, pages: &mut Pages) {
    let state = file.state;
    for page in pages.iter_mut() {
        page.sort_by_key(|record| (home(state, record.key), record.key));
        page.dedup_by_key(|record| record.key);
        page.truncate(SLOTS);
    }
    let bytes = pages
        .iter()
        .enumerate()
        .flat_map(|(address, page)| page_bytes(address, page));
    file.area = bytes.collect();
    file.held = pages.iter().flatten().map(|record| record.key).collect();
    file.state.records = file.held.len() as u32;
}

/// Changes an image so that one of the rules between pages breaks, if the
/// image offers a place for it.
pub fn loosen(random: &mut Random, file: &mut File) {
    let mut pages = pages_of(file);
    match random.index(6) {
        0 => take_out(random, &mut pages),
        1 => lift(random, &mut pages, true),
        2 => lift(random, &mut pages, false),
        3 => exchange(random, file.state, &mut pages),
        4 => twice_at_a_border(random, &mut pages),
        _ => {}
    }
    store(file, &mut pages);
    if random.one_in(4) {
        wrong_count(random, &mut file.state);
    }
}

/// Leaves r as it shouldn't be: one off, none, or as many as there may be.
pub fn wrong_count(random: &mut Random, state: &mut State) {
    let most = state.most_records() as u32;
    state.records = match random.index(5) {
        0 => (state.records + 1).min(most),
        1 => state.records.saturating_sub(1),
        2 => 0,
        3 => most,
        _ => random.within(0, u64::from(most)) as u32,
    };
}

/// A page with records, preferring full ones.
fn some_page(random: &mut Random, pages: &Pages) -> Option<usize> {
    let of = |least: usize| {
        (0..pages.len())
            .filter(|&at| pages[at].len() >= least)
            .collect()
    };
    let full: Vec<usize> = of(SLOTS);
    let used: Vec<usize> = if full.is_empty() { of(1) } else { full };
    (!used.is_empty()).then(|| random.pick(&used))
}

/// Takes a record away without closing up: a gap before overflow records.
fn take_out(random: &mut Random, pages: &mut Pages) {
    if let Some(at) = some_page(random, pages) {
        let slot = random.index(pages[at].len());
        pages[at].remove(slot);
    }
}

/// Moves a record too high, or leaves it standing and holds its key twice.
fn lift(random: &mut Random, pages: &mut Pages, moving: bool) {
    let Some(from) = some_page(random, pages) else {
        return;
    };
    let to = from + random.index(pages.len() - from);
    if to == from || pages[to].len() == SLOTS {
        return;
    }
    let slot = random.index(pages[from].len());
    let mut record = pages[from][slot];
    if moving {
        pages[from].remove(slot);
    } else {
        record.value = random.value();
    }
    pages[to].push(record);
}

/// Holds the last record of a full page again as the first of the next one:
/// all is as in an image but that (home, key) comes equal.
fn twice_at_a_border(random: &mut Random, pages: &mut Pages) {
    let open = |&at: &usize| pages[at].len() == SLOTS && pages[at + 1].len() < SLOTS;
    let borders: Vec<usize> = (0..pages.len() - 1).filter(open).collect();
    if borders.is_empty() {
        return;
    }
    let at = random.pick(&borders);
    let Record { key, .. } = pages[at][SLOTS - 1];
    pages[at + 1].push(Record {
        key,
        value: random.value(),
    });
}

/// Exchanges records of two pages so that the order between them breaks.
fn exchange(random: &mut Random, state: State, pages: &mut Pages) {
    let (low, high) = (random.index(pages.len()), random.index(pages.len()));
    if low >= high || pages[low].is_empty() || pages[high].is_empty() {
        return;
    }
    let (one, other) = (
        random.index(pages[low].len()),
        random.index(pages[high].len()),
    );
    if home(state, pages[high][other].key) <= low as u64 {
        let kept = pages[low][one];
        pages[low][one] = pages[high][other];
        pages[high][other] = kept;
    }
}

/// Gives every page any records whose homes are low enough, from so small a
/// choice of keys that the same key stands on several pages.
pub fn scatter(random: &mut Random, file: &mut File) {
    let state = file.state;
    let choice = pool(random, state);
    let (fullness, windows) = (random.index(4), random.one_in(2));
    let mut pages: Pages = vec![Vec::new(); usize::from(state.cap)];
    for (address, page) in pages.iter_mut().enumerate() {
        let mut open: Vec<u64> = choice
            .iter()
            .copied()
            .filter(|&key| home(state, key) <= address as u64)
            .collect();
        if windows {
            open = window(random, state, open);
        }
        let wanted = if random.index(4) < fullness {
            40
        } else {
            random.index(14)
        };
        for _ in 0..if open.is_empty() { 0 } else { wanted } {
            page.push(Record {
                key: random.pick(&open),
                value: random.value(),
            });
        }
    }
    store(file, &mut pages);
    file.held.extend(choice);
    if random.one_in(4) {
        wrong_count(random, &mut file.state);
    }
}

/// A dozen neighbours in the order of (home, key), so that a page may stand
/// wholly before the page below it.
fn window(random: &mut Random, state: State, mut open: Vec<u64>) -> Vec<u64> {
    open.sort_by_key(|&key| (home(state, key), key));
    let most = open.len().saturating_sub(13);
    let start = random.index(most + 1);
    open.into_iter().skip(start).take(14).collect()
}

fn pool(random: &mut Random, state: State) -> Vec<u64> {
    let size = random.within(8, 40);
    let low = random.within(0, u64::from(state.pages) - 1);
    (0..size)
        .map(|_| match random.index(3) {
            0 => random.within(0, 60),
            1 => key_with_home(random, state, low),
            _ => random.next(),
        })
        .collect()
}
