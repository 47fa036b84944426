//! The reference against itself, on random inputs.

use reference::board::REFERENCE;
use reference::compare::{compiled, same_on_image, same_on_text, table_is_direct, ways_are_equal};
use reference::generate::random::{rounds, seed, Random};
use reference::generate::{images, mutants, texts};
use reference::loader::open;
use reference::verdict::verdict;

#[test]
fn accepted_texts_run_alike_from_table_and_text() {
    let seed = seed();
    let mut calls = [0; 5];
    for round in 0..rounds(1500) {
        let mut random = Random::round(seed, round);
        let text = texts::accepted(&mut random);
        let counts = table_is_direct(&REFERENCE, &text, 16, &mut random);
        for (sum, count) in calls.iter_mut().zip(counts) {
            *sum += count;
        }
    }
    println!("calls performed, then refused by 14, 15, 16, 18: {calls:?}");
    assert!(calls.iter().all(|count| *count > 500) || rounds(100) < 100);
}

#[test]
fn ways_are_equal_and_hold_no_line_twice() {
    let seed = seed();
    let mut longest = 0;
    for round in 0..rounds(1500) {
        let mut random = Random::round(seed, round);
        let text = texts::accepted(&mut random);
        let design = verdict(&text).expect("the text is accepted");
        let image = compiled(&REFERENCE, &text);
        longest = longest.max(ways_are_equal(&design, &image, 20, &mut random));
    }
    println!("the longest way has {longest} lines");
    assert!(longest > 40 || rounds(100) < 100);
}

#[test]
fn mutants_are_accepted_or_refused_and_nothing_is_altered() {
    let seed = seed();
    let mut refusals = [0; 10];
    for round in 0..rounds(8000) {
        let mut random = Random::round(seed, round);
        let text = mutants::mutant(&mut random);
        same_on_text(&REFERENCE, &REFERENCE, &text, &mut random);
        match verdict(&text) {
            Ok(_) => {
                refusals[0] += 1;
                table_is_direct(&REFERENCE, &text, 8, &mut random);
            }
            Err(refusal) => refusals[refusal.number as usize] += 1,
        }
    }
    println!("accepted, then refused by 1 to 9: {refusals:?}");
    assert!(refusals[2..].iter().all(|count| *count > 0) || rounds(100) < 100);
}

#[test]
fn noise_is_refused_and_nothing_is_altered() {
    let seed = seed();
    for round in 0..rounds(4000) {
        let mut random = Random::round(seed, round);
        let text = mutants::noise(&mut random);
        same_on_text(&REFERENCE, &REFERENCE, &text, &mut random);
        assert!(verdict(&text).is_err());
    }
}

#[test]
fn good_images_open_and_run() {
    let seed = seed();
    for round in 0..rounds(3000) {
        let mut random = Random::round(seed, round);
        let image = images::good(&mut random);
        open(&image).expect("the image is good");
        same_on_image(&REFERENCE, &REFERENCE, &image, &mut random);
    }
}

#[test]
fn damaged_images_are_opened_or_refused_and_nothing_is_altered() {
    let seed = seed();
    let mut refusals = [0; 4];
    for round in 0..rounds(12000) {
        let mut random = Random::round(seed, round);
        let image = if random.chance(50) {
            images::good(&mut random)
        } else {
            let text = texts::accepted(&mut random);
            compiled(&REFERENCE, &text)
        };
        let image = images::damaged(&image, &mut random);
        same_on_image(&REFERENCE, &REFERENCE, &image, &mut random);
        match open(&image) {
            Ok(_) => refusals[0] += 1,
            Err(refusal) => refusals[refusal.number as usize - 10] += 1,
        }
    }
    println!("opened, then refused by 11 to 13: {refusals:?}");
    assert!(refusals.iter().all(|count| *count > 0) || rounds(100) < 100);
}
