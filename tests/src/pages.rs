//! Pages in Markdown: their fenced blocks and the rows of their tables.

/// The fenced blocks of a page: the word behind the opening fence, and the lines.
pub fn blocks(page: &str) -> Vec<(String, String)> {
    let (mut found, mut inside) = (Vec::new(), None);
    for line in page.lines() {
        match (line.strip_prefix("```"), inside.take()) {
            (Some(word), None) => inside = Some((word.to_string(), String::new())),
            (Some(_), Some(block)) => found.push(block),
            (None, Some((word, text))) => inside = Some((word, text + line + "\n")),
            (None, None) => {}
        }
    }
    assert_eq!(inside, None, "a block that does not end");
    found
}

/// The section of a page below the heading `## name`.
pub fn section<'a>(page: &'a str, name: &str) -> &'a str {
    page.split("\n## ").find(|section| section.starts_with(name)).unwrap_or_else(|| panic!("no section {}", name))
}

/// The cells of each row of the tables in a text.
pub fn rows(text: &str) -> Vec<Vec<&str>> {
    let rows = text.lines().filter_map(|line| line.strip_prefix('|')?.strip_suffix('|'));
    rows.map(|row| row.split('|').map(str::trim).collect()).collect()
}
