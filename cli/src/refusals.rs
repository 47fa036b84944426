//! What docs/REFUSALS.md says: the page is part of the command, so that both have the same words.

/// The page. Each refusal has a heading `### NUMBER, TITLE`, and its last paragraph is what to do.
const PAGE: &str = include_str!("../../docs/REFUSALS.md");

/// What begins the paragraph with the remedy.
const DO: &str = "*Do:* ";

/// All refusals that the page explains.
pub fn numbers() -> impl Iterator<Item = u32> {
    let headings = PAGE.lines().filter_map(|line| line.strip_prefix("### "));
    headings.filter_map(|heading| heading.split_once(',')?.0.parse().ok())
}

/// The section of a refusal: its title and its paragraphs.
pub fn section(number: u32) -> Option<(&'static str, &'static str)> {
    let heading = format!("### {number}, ");
    let at = PAGE.lines().find(|line| line.starts_with(&heading))?;
    let (_, behind) = PAGE.split_once(at)?;
    let ends = ["\n### ", "\n## "].map(|end| behind.find(end).unwrap_or(behind.len()));
    let end = ends[0].min(ends[1]);
    Some((&at[heading.len()..], behind[..end].trim()))
}

/// What to do about a refusal, in one line.
pub fn remedy(number: u32) -> String {
    let paragraphs = section(number).map_or("", |(_, text)| text);
    let found = paragraphs
        .split("\n\n")
        .find_map(|part| part.strip_prefix(DO));
    found
        .unwrap_or("")
        .split_whitespace()
        .collect::<Vec<_>>()
        .join(" ")
}

#[cfg(test)]
mod tests {
    use super::{numbers, remedy, section};
    use rabtishu::Refusal;

    #[test]
    fn every_number_has_its_title_and_remedy() {
        assert_eq!(Vec::from_iter(numbers()), Vec::from_iter(1..=18));
        for number in 1..=18 {
            let (title, text) = section(number).expect("a section");
            assert_eq!(title, Refusal { number, place: 0 }.title());
            assert!(text.len() > 40, "{number}");
            assert!(remedy(number).len() > 10, "{number}");
            assert!(!text.contains("\n#"), "{number}");
        }
        assert_eq!(section(19), None);
    }
}
