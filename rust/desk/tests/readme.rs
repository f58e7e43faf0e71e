//! The README shows what the program prints and draws.

use std::path::Path;
use std::process::Command;

/// What the program prints for these words, run at the root of the repository.
fn printed(words: &str) -> String {
    let root = Path::new(env!("CARGO_MANIFEST_DIR")).join("../..");
    let output = Command::new(env!("CARGO_BIN_EXE_desk"))
        .current_dir(root)
        .args(words.split_whitespace())
        .output()
        .expect("the program runs");
    String::from_utf8(output.stdout).expect("text")
}

fn kept(file: &str) -> String {
    let path = Path::new(env!("CARGO_MANIFEST_DIR")).join("../..").join(file);
    std::fs::read_to_string(path).expect("the file is kept")
}

#[test]
fn the_readme_shows_what_is_printed() {
    let readme = kept("README.md");
    let commands = readme.lines().filter_map(|line| line.strip_prefix("    $ desk "));
    let mut count = 0;
    for command in commands {
        count += 1;
        let lines = printed(command);
        let indented = lines.lines().map(|line| match line {
            "" => "\n".to_string(),
            _ => format!("    {line}\n"),
        });
        let shown = format!("    $ desk {command}\n{}", indented.collect::<String>());
        assert!(readme.contains(&shown), "{shown}");
    }
    assert_eq!(count, 2);
}

#[test]
fn the_drawing_is_the_one_that_is_drawn() {
    let drawn = printed("draw rust/desk/examples/exchanges/newcomer.exchange");
    assert_eq!(kept("docs/newcomer.svg"), drawn);
}
