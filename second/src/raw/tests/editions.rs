//! The edition in a state and the one that a format asks for.

use super::*;

/// In edition 2 six of twelve keys move, up and down, and the edition comes
/// back with every reply.
#[test]
fn the_second_edition_moves_half_of_twelve() {
    let mut case = formatted(2);
    for key in 0..12 {
        next(&mut case, 258, key);
    }
    case.row = vec![9; 2];
    let grown = next(&mut case, 261, 0);
    assert_eq!((two(&grown, 6), four(&grown, 26)), (0, 6));
    assert_eq!((two(&grown, 42), two(&grown, 46)), (2, 2));
    assert_eq!(case.row, [6, 6]);
    let checked = next(&mut case, 262, 0);
    assert_eq!((two(&checked, 6), two(&checked, 46)), (0, 2));
    case.state.edition = 1;
    for kind in [262, 263] {
        let broken = next(&mut case, kind, 0);
        assert_eq!((two(&broken, 6), two(&broken, 46)), (4, 1));
    }
    case.state.edition = 2;
    let shrunk = next(&mut case, 263, 0);
    assert_eq!((two(&shrunk, 6), four(&shrunk, 26)), (0, 6));
    assert_eq!((two(&shrunk, 42), two(&shrunk, 46)), (1, 2));
    assert_eq!(case.row, [6, 6]);
}

/// Refusal and state of a reply: n0, N, s, P, cap, edition, r.
fn told(reply: &[u8]) -> (u16, &[u8]) {
    (two(reply, 6), &reply[36..52])
}

/// A format's b is its edition, all eight bytes of it; the edition of the state
/// before it isn't looked at and stays where the format is refused.
#[test]
fn a_format_asks_for_an_edition() {
    let before = hex("0000 0000 0000 0000 0000 7677 00000000");
    for (b, edition) in [(1, "0100"), (2, "0200")] {
        let reply = written(&Case { b, ..format_case() }.record());
        let after = hex(&format!("0100 0100 0100 0100 0200 {edition} 00000000"));
        assert_eq!(told(&reply), (0, &after[..]));
    }
    let wide = (8..64).flat_map(|bit| [1 << bit, 1 << bit | 1, 1 << bit | 2]);
    for b in [0, 3, 255, 65535, u64::MAX].into_iter().chain(wide) {
        let case = Case { b, ..format_case() };
        let reply = written(&case.record());
        assert_eq!(told(&reply), (1, &before[..]), "{b}");
        assert!(reply[58..570] == case.area);
    }
}

/// The same format, its record written out.
#[test]
fn a_format_of_the_second_edition_byte_by_byte() {
    let record = |b: &str| {
        let head = format!(
            "3E010000 0101 0000 0000 0000 0000 0000 0000 00000000
            0100 0100 0100 0100 {b} 0000000000000000 00010000"
        );
        [hex(&head), vec![7; 256], vec![0; 12]].concat()
    };
    let head = |refusal: &str, state: &str| {
        hex(&format!(
            "42010000 0102 {refusal} 0000 0000000000000000 00000000 00000000 00000000 0000 00000000
            {state} 00000000 0000 00010000"
        ))
    };
    let none = "0000 0000 0000 0000 0000 0000";
    let second = "0100 0100 0100 0100 0100 0200";
    let reply = written(&record("0200000000000000"));
    assert_eq!(reply[..58], head("0000", second));
    assert_eq!(reply[58..74], hex("0001 1100 00000000 0000 000000000000"));
    let reply = written(&record("0100010000000000"));
    assert_eq!(reply[..58], head("0100", none));
    assert_eq!(reply[58..314], [7; 256]);
}

/// A wrong edition in the state is all that is wrong: every call but format
/// and due refuses it, a run in its items, and it comes back as it came.
#[test]
fn a_wrong_edition_is_refused_by_every_call() {
    for edition in [0, 3, 257, 258, 512, 65535] {
        for kind in [256, 258, 259, 260, 261, 262, 263] {
            let mut case = formatted(2);
            (case.state.edition, case.state.records) = (edition, 24);
            let reply = next(&mut case, kind, 5);
            let refusal = u16::from(kind != 256);
            assert_eq!((two(&reply, 6), two(&reply, 46)), (refusal, edition));
            assert_eq!((four(&reply, 48), two(&reply, 52)), (24, 0));
        }
        let mut run = run_case();
        run.state.edition = edition;
        let reply = written(&run.record());
        assert_eq!((two(&reply, 6), two(&reply, 46)), (0, edition));
        let item = "1C00 0102 0100 0000 0000000000000000 00000000 00000000 0100 0000";
        assert_eq!(reply[reply.len() - 28..], hex(item));
        assert_eq!(reply[58..570], run.area);
    }
}
