//! Calls with an edition that isn't the file's, or that there isn't.

use crate::cases::{asking_for, several, some_call};
use crate::editions::SOME_WRONG;
use crate::files::{image, of_other_edition};
use crate::random::Random;
use crate::sink::Sink;
use crate::wrong::{wrong_asked, wrong_edition};
use second::commands::FORMAT_KIND;
use second::raw::{Case, DUE_KIND};
use second::state::State;

/// An image taken for one of the other edition. Where keys have other homes
/// then, pages are broken, or keys aren't found though they stand there.
pub fn misread(random: &mut Random, sink: &mut Sink) -> Result<(), String> {
    let mut file = image(random);
    file.state = of_other_edition(file.state);
    several(random, &mut file, sink)
}

/// Calls that nothing but the edition makes wrong, in the state and among the
/// numbers that a format asks for. Each scene goes through all that have to
/// come, so that none has to be waited for.
pub fn wrong_editions(random: &mut Random, sink: &mut Sink) -> Result<(), String> {
    let mut file = image(random);
    for &edition in &[SOME_WRONG, &[wrong_edition(random)]].concat() {
        let mut case = some_call(random, &mut file);
        case.state.edition = edition;
        sink.ask(case)?;
    }
    // As many records as there may be are always due, but for the edition.
    let records = file.state.most_records() as u32;
    let state = State {
        edition: wrong_edition(random),
        records,
        ..file.state
    };
    sink.ask(Case {
        kind: DUE_KIND,
        state,
        ..Case::default()
    })?;
    let (a, _) = asking_for(file.state);
    for bytes in 0..=8 {
        sink.ask(Case {
            kind: FORMAT_KIND,
            state: file.state,
            a,
            b: wrong_asked(random, bytes),
            area: file.area.clone(),
            ..Case::default()
        })?;
    }
    Ok(())
}

#[cfg(test)]
mod tests {
    use super::*;
    use second::bytes::two;
    use second::raw::RUN_KIND;

    /// All of these are refused, but for due and runs, and nothing is lost of
    /// the edition that came.
    #[test]
    fn wrong_editions_come_back_as_they_came() {
        let mut sink = Sink::new(8, 10_000);
        for piece in 0..200 {
            let made = wrong_editions(&mut Random::new(8, piece), &mut sink);
            assert_eq!(made, Ok(()));
        }
        for asked in &sink.asked {
            let came = two(&asked.record, 16);
            let (refusal, left) = (two(&asked.reply, 6), two(&asked.reply, 46));
            assert_eq!(left, came);
            assert_eq!(
                refusal,
                u16::from(![DUE_KIND, RUN_KIND].contains(&asked.kind))
            );
        }
    }
}
