//! Every public operation of the proved crates on the largest and deepest texts and images, for a
//! run in a small stack (`ulimit -s 1024`). Prints what it ran.

#[cfg(not(proved))]
fn main() {
    eprintln!("rt lib in crates/api_c comes first");
    std::process::exit(1);
}

#[cfg(proved)]
fn main() {
    use reference::generate::images::of_length;
    use reference::generate::limits::limit_texts;

    let (mut accepted, mut refused) = (0, 0);
    for case in limit_texts() {
        match image_of(&case) {
            Some(image) => {
                accepted += 1;
                both_runs(&case, &image);
                many_rows(&image);
            }
            None => refused += 1,
        }
    }
    many_rows(&of_length(65_535));
    println!("{accepted} accepted texts at the limits, {refused} beyond them, the longest image");
}

#[cfg(proved)]
use reference::{generate::limits::LimitText, proved::PROVED};

/// The image of a text; what takes a text is run on it whether it is refused or not.
#[cfg(proved)]
fn image_of(case: &LimitText) -> Option<Vec<u8>> {
    let mut image = vec![0; 65_535];
    let answer = (PROVED.compile)(&case.text, &mut image);
    assert_eq!(answer[0] == 0, case.refusal.is_none(), "{}", case.label);
    let mut state = [0; 49];
    (PROVED.token_at)(&case.text, case.text.len() / 2);
    (PROVED.direct_fresh)(&case.text, &mut state);
    (PROVED.direct)(&case.text, &mut state, &[0], &mut [0]);
    image.truncate(answer[2] as usize);
    (answer[0] == 0).then_some(image)
}

/// Three cycles by the table and from the text.
#[cfg(proved)]
fn both_runs(case: &LimitText, image: &[u8]) {
    let mut state = [0; 49];
    assert_eq!((PROVED.open)(image), [0, 0, 0]);
    (PROVED.fresh)(image, &mut state);
    let row = vec![0; image[28] as usize];
    let mut out = vec![0; image[29] as usize];
    for _ in 0..3 {
        let by_table = (PROVED.cycle)(image, &mut state.clone(), &row, &mut out);
        let by_text = (PROVED.direct)(&case.text, &mut state, &row, &mut out);
        assert_eq!(by_table, by_text, "{}", case.label);
    }
}

/// Three rows in one call, and singly.
#[cfg(proved)]
fn many_rows(image: &[u8]) {
    use reference::batches::{check, fresh, widths, Batch};

    let inputs = vec![0; 3 * widths(image)[0]];
    let left = check(&PROVED, &Batch::due(image, &fresh(image), 3, inputs));
    assert_eq!(left.answer, [0, 0, 0]);
}
