//! The reference against the frozen cases: those of document 01, and those of the change requests
//! that hold since request 2 has landed.

use reference::board::REFERENCE;
use reference::frozen::{
    batches, check_batch, check_image, check_text, images, request_images, request_texts, texts,
    ImageCase, TextCase,
};
use reference::lexer::token_at;
use reference::loader::open;
use reference::trace::{direct_trace, trace};

/// All texts, those of document 01 first.
fn all_texts() -> Vec<TextCase> {
    let (texts, more) = (texts(), request_texts());
    assert_eq!((texts.len(), more.len()), (251, 199));
    texts.into_iter().chain(more).collect()
}

/// All images, those of document 01 first.
fn all_images() -> Vec<ImageCase> {
    let (images, more) = (images(), request_images());
    assert_eq!((images.len(), more.len()), (72, 39));
    images.into_iter().chain(more).collect()
}

#[test]
fn texts_are_answered_as_frozen() {
    for case in all_texts() {
        check_text(&REFERENCE, &case);
    }
}

#[test]
fn tokens_are_handed_out_as_frozen() {
    for case in all_texts() {
        if let Err(refusal) = case.image {
            if refusal.number <= 9 {
                let token = token_at(&case.text, refusal.place as usize);
                assert_eq!(token, case.token, "token of {}", case.label);
            }
        }
    }
}

#[test]
fn traces_are_printed_as_frozen() {
    for case in all_texts() {
        let by_table = trace(&case.text, &case.rows);
        let by_text = direct_trace(&case.text, &case.rows);
        assert_eq!(by_table, case.trace, "trace of {}", case.label);
        assert_eq!(by_text, case.trace, "direct trace of {}", case.label);
    }
}

#[test]
fn images_are_answered_as_frozen() {
    for case in all_images() {
        check_image(&REFERENCE, &case);
    }
}

#[test]
fn sections_are_lent_as_frozen() {
    for case in all_images() {
        let Ok(bounds) = case.opened else { continue };
        let image = open(&case.image).expect("the case opens");
        let parts = [
            &case.image[bounds[0]..bounds[1]],
            &case.image[bounds[2]..bounds[3]],
            &case.image[bounds[4]..bounds[5]],
        ];
        let lent = [image.signature, image.lines, image.code];
        assert_eq!(lent, parts, "sections of {}", case.label);
    }
}

#[test]
fn many_rows_in_one_call_are_answered_as_frozen() {
    let cases = batches();
    assert_eq!(cases.len(), 44);
    for case in &cases {
        check_batch(&REFERENCE, case);
    }
}
