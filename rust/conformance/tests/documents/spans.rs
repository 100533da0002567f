//! The pieces of inline code in a document, which stand between backticks.

/// A piece of inline code, and the line on which it begins, counted from 1.
#[derive(Debug, PartialEq)]
pub struct Span {
    pub line: usize,
    pub text: String,
}

/// The inline code of a document. Blocks of code have none: what stands between fences, and what is
/// indented by four spaces after an empty line.
pub fn spans(document: &str) -> Vec<Span> {
    let mut found = Vec::new();
    let mut paragraph = String::new();
    let mut fenced = false;
    for (at, line) in document.lines().chain([""]).enumerate() {
        let fence = line.trim_start().starts_with("```");
        let indented = paragraph.is_empty() && line.starts_with("    ");
        if fence || fenced || indented || line.trim().is_empty() {
            let begins = at + 1 - paragraph.matches('\n').count();
            found.extend(spans_of(&paragraph, begins));
            paragraph.clear();
            fenced ^= fence;
        } else {
            paragraph.push_str(line);
            paragraph.push('\n');
        }
    }
    found
}

/// The inline code of a paragraph that begins on a line. It ends with as many backticks as it begins
/// with.
fn spans_of(paragraph: &str, begins: usize) -> Vec<Span> {
    let mut found = Vec::new();
    let mut at = 0;
    while let Some(ahead) = paragraph[at..].find('`') {
        let start = at + ahead;
        let ticks = ticks_at(paragraph, start);
        at = start + ticks;
        if let Some(end) = closing(paragraph, at, ticks) {
            let line = begins + paragraph[..start].matches('\n').count();
            found.push(Span { line, text: paragraph[at..end].trim().replace('\n', " ") });
            at = end + ticks;
        }
    }
    found
}

/// How many backticks stand from a place on.
fn ticks_at(text: &str, at: usize) -> usize {
    text[at..].bytes().take_while(|byte| *byte == b'`').count()
}

/// Where the next run of exactly so many backticks begins.
fn closing(text: &str, mut at: usize, ticks: usize) -> Option<usize> {
    loop {
        at += text[at..].find('`')?;
        match ticks_at(text, at) {
            found if found == ticks => return Some(at),
            found => at += found,
        }
    }
}

#[test]
fn inline_code_is_found_and_blocks_are_not() {
    let document = "\
a `b` c ``d`e``

    `block`
f `g
h`
```
`fenced`
```
- `i` and lone `` here
    `j`
";
    let expected = [(1, "b"), (1, "d`e"), (4, "g h"), (9, "i"), (10, "j")];
    let expected = expected.map(|(line, text)| Span { line, text: text.to_string() });
    assert_eq!(spans(document), expected);
}
