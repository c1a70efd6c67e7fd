//! The README's lines for weavers are those of the crate's own first page, which is a
//! doc test.

const README: &str = include_str!("../../../README.md");
const PAGE: &str = include_str!("../src/lib.rs");

/// The lines of the first page's example that are shown.
fn example() -> Vec<&'static str> {
    let lines = PAGE.lines().map_while(|line| line.strip_prefix("//!"));
    let example = lines.map(|line| line.strip_prefix(' ').unwrap_or(line));
    let example = example.skip_while(|line| *line != "```").skip(1);
    let example = example.take_while(|line| *line != "```");
    example.filter(|line| !line.starts_with("# ")).collect()
}

#[test]
fn the_readme_shows_the_first_page_s_example() {
    let example = example();
    assert!((8..=12).contains(&example.len()), "{example:#?}");
    let indented = example.iter().map(|line| match line.is_empty() {
        true => "\n".to_string(),
        false => format!("    {line}\n"),
    });
    let indented: String = indented.collect();
    assert!(README.contains(&indented), "{indented}");
}
