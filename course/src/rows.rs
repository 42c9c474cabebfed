//! Texts that a trainee writes, ANSWERS and SENDS: words parted by blanks, `#` for comments.

/// A word with its column, counted from 1.
pub type Word<'a> = (usize, &'a str);

/// The lines that have words, each with its number, counted from 1. CR LF and a byte order mark do no harm here.
pub fn rows(text: &str) -> impl Iterator<Item = (usize, Vec<Word<'_>>)> {
    let text = text.strip_prefix('\u{feff}').unwrap_or(text);
    let numbered = text.lines().enumerate();
    let rows = numbered.map(|(index, line)| (index + 1, words(line)));
    rows.filter(|(_, words)| !words.is_empty())
}

fn words(line: &str) -> Vec<Word<'_>> {
    let content = line.split('#').next().unwrap_or_default();
    let mut found = Vec::new();
    let mut rest = content;
    let mut column = 1;
    while let Some(at) = rest.find(|letter: char| !letter.is_whitespace()) {
        column += rest[..at].chars().count();
        let word = rest[at..].split(char::is_whitespace).next();
        let word = word.unwrap_or_default();
        found.push((column, word));
        column += word.chars().count();
        rest = &rest[at + word.len()..];
    }
    found
}
