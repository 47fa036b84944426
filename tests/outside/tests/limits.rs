//! Texts at the limits and one beyond: each has the refusal that is drawn in it.

use reference::board::REFERENCE;
use reference::compare::{same_on_text, table_is_direct};
use reference::generate::limits::limit_texts;
use reference::generate::random::{seed, Random};
use reference::verdict::verdict;

#[test]
fn limits_are_kept_and_passed_where_drawn() {
    for case in limit_texts() {
        let refusal = verdict(&case.text).err();
        let shown = String::from_utf8_lossy(&case.text);
        assert_eq!(refusal, case.refusal, "{}: {shown}", case.label);
    }
}

#[test]
fn texts_at_the_limits_run_alike() {
    let mut random = Random::new(seed());
    for case in limit_texts() {
        same_on_text(&REFERENCE, &REFERENCE, &case.text, &mut random);
        if case.refusal.is_none() {
            table_is_direct(&REFERENCE, &case.text, 12, &mut random);
        }
    }
}
