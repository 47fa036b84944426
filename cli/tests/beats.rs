//! Beats: rows as the trace program reads them, and what they come to.

mod processes;

use processes::{example, examples, Traced};
use rabtishu_cli::beats::Beat;

fn traced(beat: &Beat) -> Traced {
    match &beat.result {
        Ok(it) => {
            let outputs = it.outputs.iter().map(|&value| i64::from(value)).collect();
            Ok((i64::from(it.wait), i64::from(it.lines), outputs))
        }
        Err(refusal) => Err(i64::from(refusal.number)),
    }
}

#[test]
fn beats_are_the_lines_of_the_stored_traces() {
    for process in examples() {
        let found: Vec<Traced> = process.beats().iter().map(traced).collect();
        assert_eq!(found, process.traced(), "{}", process.name);
    }
}

/// The table and the text itself, run without an image, agree on variables too.
#[test]
fn variables_are_those_of_the_direct_run() {
    for process in examples() {
        let mut state = rabtishu::direct_fresh(&process.text).unwrap();
        for beat in process.beats() {
            let Ok(performed) = beat.result else { continue };
            let mut outputs = performed.outputs.clone();
            let inputs = beat.inputs.expect("a row that was performed");
            rabtishu::direct(&process.text, &mut state, &inputs, &mut outputs).unwrap();
            let count = performed.variables.len();
            assert_eq!(
                state.variables()[..count],
                performed.variables,
                "{}",
                process.name
            );
            assert_eq!(outputs, performed.outputs, "{}", process.name);
        }
    }
}

#[test]
fn a_refused_row_tells_what_was_fed() {
    let beats = example("countdown").beats();
    let beat = beats.iter().find(|beat| beat.result.is_err()).unwrap();
    assert_eq!(beat.inputs, Some(vec![0, 2, 0]));
    assert_eq!(beat.taken(), None);
    let beats = example("tally").beats();
    assert_eq!(
        beats[4].result,
        Err(rabtishu::Refusal {
            number: 16,
            place: 1
        })
    );
    assert_eq!(beats[4].taken(), Some(&[i32::MIN][..]));
}
