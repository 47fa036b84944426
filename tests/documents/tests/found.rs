//! A small repository whose documents are true, and what is found when one thing in it is made false.

use documents::project::Project;
use documents::{bounds, check, generated};
use std::fs;
use std::path::PathBuf;

const FILES: [(&str, &str); 15] = [
    ("crates.txt", "# a comment\nspec_rules:\nfront_reader staticlib: spec_rules\ntest_vectors:\n"),
    ("crates/spec_rules/src/lib.rt", "#![tactic(auto)]\n// The rules. Definitions only.\n"),
    ("crates/spec_rules/specs/Rules.antt", "-- forgotten is only a word here.\nof_text : ℕ\nfirst_rule : ℕ\n"),
    ("crates/spec_rules/proofs/Main.antt", "rules_hold : of_text\nreturns-then-x : of_text\n"),
    ("crates/front_reader/src/lib.rt", "#![tactic(auto)]\n// Reads a text.\nghost use Rattle.spec_rules.specs.Rules.{of_text};\n\npub fn read(text: &[u8]) -> bool\n    ensures of { of_text }\n{\n    true\n}\n"),
    ("crates/front_reader/must-fail/reads_nothing.edit", "# nothing\n"),
    ("crates/test_vectors/src/main.rt", "#![tactic(auto)]\n// The cases.\n"),
    ("crates/test_vectors/data/examples/one/rows.txt", "7\n"),
    ("examples/one/rows.txt", "7\n"),
    ("README.md", "# One\n<!-- written by tests/documents: groups -->\n<!-- end of what tests/documents writes -->\nSee [the ways](docs/ARCHITECTURE.md#ways-and-means) and crates/spec_rules/specs/Rules.antt.\n"),
    ("docs/ARCHITECTURE.md", "## Ways and means\n<!-- written by tests/documents: way -->\n<!-- end of what tests/documents writes -->\n<!-- written by tests/documents: graph -->\n<!-- end of what tests/documents writes -->\n<!-- written by tests/documents: crates -->\n<!-- end of what tests/documents writes -->\n`rules_hold`, `returns-then-x` (spec_rules/Main), front_reader `read`, `front_reader::read`, front_reader/reads_nothing, spec_rules/specs Rules.\n"),
    ("docs/DECISIONS.md", "| No | Question |\n|---|---|\n| 1 | a |\n| 2 | b (decision 1) |\n"),
    ("docs/PROMISES.md", "| No | Promise | Theorem |\n|---|---|---|\n| 1 | a | spec_rules/Rules `of_text`, `first_rule` |\n"),
    ("docs/TRUST.md", "| part | files | lines |\n|---|---|---|\n| rules | spec_rules/specs Rules; front_reader/must-fail | 4 |\n"),
    ("docs/LANDINGS.md", "crates/gone/src, `gone_too`\n"),
];

/// A repository of its own in a folder that is removed with it.
struct Repository(PathBuf);

impl Repository {
    fn new(name: &str) -> Repository {
        let root = std::env::temp_dir().join(format!("documents-{}-{name}", std::process::id()));
        let repository = Repository(root);
        for (path, text) in FILES {
            repository.put(path, text);
        }
        generated::write(&repository.read()).expect("the marks are there");
        repository
    }

    fn read(&self) -> Project {
        Project::read(&self.0).expect("it can be read")
    }

    fn put(&self, path: &str, text: &str) {
        let file = self.0.join(path);
        fs::create_dir_all(file.parent().expect("it stands in a folder")).expect("a folder");
        fs::write(file, text).expect("a file");
    }

    fn replace(&self, path: &str, old: &str, new: &str) {
        let text = fs::read_to_string(self.0.join(path)).expect("a file");
        assert!(text.contains(old), "{path} has no {old}");
        self.put(path, &text.replace(old, new));
    }

    fn found(&self) -> Vec<String> {
        check(&self.read()).iter().map(|f| f.to_string()).collect()
    }
}

impl Drop for Repository {
    fn drop(&mut self) {
        let _ = fs::remove_dir_all(&self.0);
    }
}

/// What is found after one replacement has these words in it.
fn finds(name: &str, path: &str, old: &str, new: &str, words: &str) {
    let repository = Repository::new(name);
    repository.replace(path, old, new);
    let found = repository.found();
    assert!(
        found.iter().any(|f| f.contains(words)),
        "{words}: {found:?}"
    );
}

#[test]
fn true_documents_have_no_finding() {
    assert_eq!(Repository::new("true").found(), Vec::<String>::new());
}

#[test]
fn a_wrong_path() {
    finds(
        "path",
        "README.md",
        "specs/Rules.antt",
        "specs/Ruler.antt",
        "README.md",
    );
    finds(
        "folder",
        "README.md",
        "crates/spec_rules",
        "crates/spec_ruler",
        "there is no crate spec_ruler",
    );
}

#[test]
fn a_path_in_every_folder() {
    for folder in ["bindings", "cli"] {
        let repository = Repository::new(folder);
        let path = format!("{folder}/src/lib.rs");
        repository.put(&path, "pub fn lent() {}\n");
        repository.replace("README.md", "# One", &format!("# One\n{path}, `lent`."));
        assert_eq!(repository.found(), Vec::<String>::new());
        repository.replace("README.md", "src/lib.rs", "src/gone.rs");
        let found = repository.found();
        assert!(
            found[0].contains(&format!("there is no {folder}/src/gone.rs")),
            "{found:?}"
        );
    }
}

#[test]
fn sources_are_not_read() {
    let repository = Repository::new("source");
    let text = "`gone_too` in crates/gone/src, docs/GONE.md; decision 7\n";
    repository.put("docs/source/01.md", text);
    assert_eq!(repository.found(), Vec::<String>::new());
    repository.put("docs/OTHER.md", text);
    assert_ne!(repository.found(), Vec::<String>::new());
}

#[test]
fn what_a_build_leaves_is_not_read() {
    let repository = Repository::new("builds");
    let left = "crates/front_reader/out/incremental/Gone.antt";
    repository.put(left, "gone_too : ℕ\n");
    assert!(!repository.read().files.contains(left));
    repository.replace("README.md", "# One", "# One\n`gone_too`");
    assert_ne!(repository.found(), Vec::<String>::new());
}

#[test]
fn a_theorem_that_is_gone() {
    finds(
        "gone",
        "crates/spec_rules/proofs/Main.antt",
        "rules_hold",
        "rules_stand",
        "`rules_hold` is no name",
    );
    finds(
        "hyphens",
        "crates/spec_rules/proofs/Main.antt",
        "returns-then-x",
        "returns-else-x",
        "`returns-then-x` is no name",
    );
}

#[test]
fn a_name_that_stands_in_comments_only() {
    finds(
        "comment",
        "docs/PROMISES.md",
        "`first_rule`",
        "`forgotten`",
        "`forgotten` is no name",
    );
}

#[test]
fn a_theorem_in_another_module() {
    finds(
        "moved",
        "docs/ARCHITECTURE.md",
        "(spec_rules/Main)",
        "(spec_rules/Rules)",
        "Rules.antt has no `rules_hold`",
    );
    finds(
        "other",
        "docs/PROMISES.md",
        "`first_rule`",
        "`rules_hold`",
        "Rules.antt has no `rules_hold`",
    );
}

#[test]
fn a_function_of_another_crate() {
    finds(
        "function",
        "docs/ARCHITECTURE.md",
        "front_reader::read",
        "spec_rules::read",
        "spec_rules has no read",
    );
    finds(
        "beside",
        "docs/ARCHITECTURE.md",
        "front_reader `read`",
        "spec_rules `read`",
        "spec_rules has no `read`",
    );
}

#[test]
fn an_edit_that_is_gone() {
    finds(
        "edit",
        "docs/ARCHITECTURE.md",
        "reads_nothing",
        "reads_all",
        "front_reader has no module, edit or file reads_all",
    );
}

#[test]
fn a_module_that_is_listed_and_gone() {
    finds(
        "listed",
        "docs/ARCHITECTURE.md",
        "specs Rules.",
        "specs Rulers.",
        "has no module Rulers",
    );
}

#[test]
fn a_link_to_no_heading() {
    finds(
        "heading",
        "docs/ARCHITECTURE.md",
        "Ways and means",
        "Ways",
        "no heading #ways-and-means",
    );
}

#[test]
fn a_crate_that_is_not_in_the_table() {
    let repository = Repository::new("table");
    repository.put("crates/base_new/src/lib.rt", "#![tactic(auto)]\n// New.\n");
    assert!(repository
        .found()
        .iter()
        .any(|f| f.contains("crates/base_new has no line here")));
    repository.replace("crates.txt", "spec_rules:\n", "spec_rules:\nbase_new:\n");
    assert!(repository
        .found()
        .iter()
        .any(|f| f.contains("the part `crates` is stale")));
    generated::write(&repository.read()).expect("the marks are there");
    assert_eq!(repository.found(), Vec::<String>::new());
}

#[test]
fn a_header_comment_that_changed() {
    finds(
        "header",
        "crates/front_reader/src/lib.rt",
        "Reads a text.",
        "Reads.",
        "the part `crates` is stale",
    );
}

#[test]
fn a_dependency_that_is_named_nowhere() {
    finds(
        "named",
        "crates.txt",
        "spec_rules:\n",
        "spec_rules: front_reader\n",
        "spec_rules lists front_reader",
    );
}

#[test]
fn numbers_out_of_order_or_twice() {
    finds(
        "order",
        "docs/DECISIONS.md",
        "| 1 | a |",
        "| 3 | a |",
        "decision 2 stands behind 3",
    );
    finds(
        "twice",
        "docs/DECISIONS.md",
        "| 2 | b",
        "| 1 | b",
        "the number 1 stands in line 3 too",
    );
    finds(
        "cited",
        "docs/DECISIONS.md",
        "decision 1",
        "decision 7",
        "there is no decision 7",
    );
    finds(
        "lines",
        "docs/TRUST.md",
        "| 4 |",
        "| 5 |",
        "the files have 4 lines, not 5",
    );
}

#[test]
fn bounds_on_functions_and_proofs() {
    let source = "// fn none(a, b)\npub fn two<'a>(a: &[u8; 3], b: (u8, u8),) -> [u8; 2]\n    requires { a  b }\n    ensures low { result ≡ { } }\n    ensures high { b }\n{\n    f(1, 2, 3)\n}\n";
    let heads = bounds::heads(source);
    assert_eq!(heads.len(), 1);
    assert_eq!(
        (heads[0].line, heads[0].parameters, heads[0].contract),
        (2, 2, 16)
    );

    let repository = Repository::new("bounds");
    let half = ".before".repeat(8);
    repository.put(
        "crates/spec_rules/proofs/Long.antt",
        &format!("-- a path\nx = (c{half})\n  {half} c{half}\n"),
    );
    repository.replace("crates.txt", "spec_rules:\n", "spec_format:\n");
    let found: Vec<String> = bounds::check(&repository.read())
        .iter()
        .map(|f| f.to_string())
        .collect();
    assert_eq!(
        found,
        ["crates/spec_rules/proofs/Long.antt:3: 16 `.before` in a row (bound 15)"]
    );
}

#[test]
fn a_dependency_against_the_way_of_the_data() {
    let repository = Repository::new("way");
    repository.put(
        "crates.txt",
        "spec_format:\nimage_encoder: spec_format front_lexer\nfront_lexer: image_encoder\n",
    );
    let found: Vec<String> = bounds::check(&repository.read())
        .iter()
        .map(|f| f.to_string())
        .collect();
    assert_eq!(found.len(), 1);
    assert!(found[0].contains("front_lexer depends on image_encoder"));
}

#[test]
fn examples_that_differ_from_their_copy() {
    let rows = "examples/one/rows.txt";
    finds("differ", rows, "7", "8", "it differs from crates/");
    let repository = Repository::new("copies");
    repository.put("examples/two/rows.txt", "1\n");
    let found = repository.found();
    assert_eq!(found.len(), 1);
    assert!(found[0].starts_with("examples/two/rows.txt: "), "{found:?}");
    repository.put("crates/test_vectors/data/examples/two/rows.txt", "1\n");
    repository.put("crates/test_vectors/data/examples/two/trace.txt", "1\n");
    assert!(repository.found()[0].contains("examples has not"));
}

#[test]
fn a_definition_that_is_used_and_not_listed() {
    let repository = Repository::new("used");
    repository.put("crates/spec_rules/specs/More.antt", "more : ℕ\n");
    repository.replace(
        "crates/spec_rules/specs/Rules.antt",
        "of_text : ℕ\n",
        "use Rattle.std.specs.Prelude.{ℕ}\nuse Rattle.spec_rules.specs.declared.Rule.{rule}\nuse Rattle.spec_rules.specs.More.{more}\nof_text : ℕ\n",
    );
    generated::write(&repository.read()).expect("the marks are there");
    let found = repository.found();
    assert_eq!(found.len(), 1);
    assert!(found[0].contains("uses crates/spec_rules/specs/More.antt, which is not listed"));
    repository.replace("docs/TRUST.md", "specs Rules;", "specs Rules, More;");
    generated::write(&repository.read()).expect("the marks are there");
    assert_eq!(repository.found(), Vec::<String>::new());
}

#[test]
fn a_comment_that_names_no_crate() {
    finds(
        "comments",
        "crates/spec_rules/specs/Rules.antt",
        "is only a word here",
        "stands in the crate rules",
        "Rules.antt:1: there is no crate rules",
    );
}
