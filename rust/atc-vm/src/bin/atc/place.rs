//! A place in a text: file, line, column, and an excerpt with a mark under it.

use std::ops::Range;

/// Lines and columns count from 1, columns in characters.
#[derive(Debug, Clone)]
pub struct Place {
    pub file: String,
    pub line: usize,
    pub column: usize,
    pub excerpt: String,
    pub mark: String,
}

// An excerpt is at most this wide.
const WIDTH: usize = 100;
// So much of a line that is cut is shown before the mark.
const BEFORE: usize = 40;

impl Place {
    /// Of a span of bytes, which starts and ends at characters. Only its first line is marked.
    pub fn of(file: &str, text: &str, span: Range<usize>) -> Place {
        let start = span.start.min(text.len());
        let line_start = text[..start].rfind('\n').map_or(0, |at| at + 1);
        let feed = text[start..].find('\n').map_or(text.len(), |at| start + at);
        let line_end = start + text[start..feed].trim_end_matches('\r').len();
        let line = &text[line_start..line_end];
        let within = start - line_start..span.end.clamp(start, line_end) - line_start;
        let (excerpt, mark) = drawn(line, within);
        Place {
            file: file.to_string(),
            line: 1 + text[..line_start].matches('\n').count(),
            column: 1 + text[line_start..start].chars().count(),
            excerpt,
            mark,
        }
    }

    pub fn shown(&self) -> String {
        format!("{}:{}:{}", self.file, self.line, self.column)
    }
}

// A line, and a line of blanks and carets to stand under it.
fn drawn(line: &str, span: Range<usize>) -> (String, String) {
    let (mut from, mut to, mut width) = (None, 0, 0);
    let mut cells = Vec::new();
    for (at, c) in line.char_indices() {
        let cell = Cell::of(c);
        if at >= span.start {
            from.get_or_insert(width);
        }
        cells.push((width, cell.shown));
        width += cell.width;
        if at < span.end {
            to = width;
        }
    }
    let from = from.unwrap_or(width);
    let to = to.max(from + 1);
    let left = if width <= WIDTH {
        0
    } else {
        from.saturating_sub(BEFORE)
    };
    let right = left + WIDTH;
    let within = cells.iter().filter(|(at, _)| (left..right).contains(at));
    let shown: String = within.map(|(_, shown)| shown.as_str()).collect();
    let (before, after) = (
        if left > 0 { "..." } else { "" },
        if width > right { "..." } else { "" },
    );
    let excerpt = format!("{before}{}{after}", shown.trim_end());
    let blanks = " ".repeat(before.len() + from - left);
    let carets = "^".repeat(to.min(right.max(from + 1)) - from);
    (excerpt, blanks + &carets)
}

// What stands for a character, and how wide that is.
struct Cell {
    shown: String,
    width: usize,
}

impl Cell {
    fn of(c: char) -> Cell {
        let (shown, width) = match u32::from(c) {
            0x09 => ("    ".to_string(), 4),
            // Control characters by their pictures; those that can't be seen or that turn the line by a replacement.
            code @ 0..=0x1f => (picture(code), 1),
            0x7f => (picture(0x21), 1),
            0x80..=0x9f | 0xad | 0x200b..=0x200f | 0x2028..=0x202e | 0x2060..=0x206f | 0xfeff => {
                ('\u{fffd}'.to_string(), 1)
            }
            code => (c.to_string(), width(code)),
        };
        Cell { shown, width }
    }
}

fn picture(code: u32) -> String {
    char::from_u32(0x2400 + code).map_or(String::new(), String::from)
}

// As a terminal shows it: marks on another character take no room, East Asian characters and emoji two.
fn width(code: u32) -> usize {
    match code {
        0x300..=0x36f | 0x483..=0x489 | 0x591..=0x5bd | 0x610..=0x61a | 0x64b..=0x65f => 0,
        0x1ab0..=0x1aff | 0x1dc0..=0x1dff | 0x20d0..=0x20ff | 0xfe00..=0xfe0f | 0xfe20..=0xfe2f => {
            0
        }
        0x1100..=0x115f | 0x2e80..=0x303e | 0x3041..=0x33ff | 0x3400..=0x4dbf => 2,
        0x4e00..=0x9fff | 0xa000..=0xa4cf | 0xac00..=0xd7a3 | 0xf900..=0xfaff | 0xfe30..=0xfe6f => {
            2
        }
        0xff01..=0xff60 | 0xffe0..=0xffe6 | 0x1f300..=0x1f64f | 0x1f900..=0x1f9ff => 2,
        0x20000..=0x3fffd => 2,
        _ => 1,
    }
}

/// A character in a message: with its code where it might be taken for another or not be seen.
pub fn named(c: char) -> String {
    if c.is_ascii_graphic() {
        return format!("`{c}`");
    }
    let code = u32::from(c);
    let shown = Cell::of(c).shown;
    match c {
        ' ' => "a space".to_string(),
        '\t' => "a tab".to_string(),
        '\n' => "a line feed".to_string(),
        _ if shown == c.to_string() => format!("`{c}` (U+{code:04X})"),
        _ => format!("U+{code:04X}"),
    }
}

/// A part of a text in a message: on one line, and not longer than a reader needs.
pub fn quoted(part: &str) -> String {
    const MOST: usize = 40;
    let mut shown: String = part.chars().take(MOST).map(|c| Cell::of(c).shown).collect();
    if part.chars().count() > MOST {
        shown.push_str("...");
    }
    format!("`{shown}`")
}

/// A file's name in a message, on one line.
pub fn on_one_line(name: &str) -> String {
    name.chars().map(|c| Cell::of(c).shown).collect()
}

#[cfg(test)]
mod tests {
    use super::*;

    fn lines(text: &str, span: Range<usize>) -> (usize, usize, String, String) {
        let place = Place::of("f", text, span);
        (place.line, place.column, place.excerpt, place.mark)
    }

    #[test]
    fn a_mark_stands_under_its_part() {
        assert_eq!(
            lines("one\ntwo three\n", 8..13),
            (2, 5, "two three".into(), "    ^^^^^".into())
        );
        assert_eq!(lines("one", 3..3), (1, 4, "one".into(), "   ^".into()));
        assert_eq!(lines("", 0..0), (1, 1, "".into(), "^".into()));
        assert_eq!(lines("a\r\nb", 0..4), (1, 1, "a".into(), "^".into()));
        assert_eq!(
            lines("a\rb", 1..2),
            (1, 2, "a\u{240d}b".into(), " ^".into())
        );
    }

    #[test]
    fn columns_are_characters_and_marks_are_cells() {
        assert_eq!(
            lines("\t\u{97d3};", 4..5),
            (1, 3, "    \u{97d3};".into(), "      ^".into())
        );
        assert_eq!(
            lines("e\u{301}x", 3..4),
            (1, 3, "e\u{301}x".into(), " ^".into())
        );
        assert_eq!(
            lines("a\u{200b}b", 1..4),
            (1, 2, "a\u{fffd}b".into(), " ^".into())
        );
    }

    #[test]
    fn a_long_line_is_cut_around_the_mark() {
        let text = format!("{}!{}", "a".repeat(60_000), "b".repeat(5_000));
        let (line, column, excerpt, mark) = lines(&text, 60_000..60_001);
        assert_eq!((line, column), (1, 60_001));
        assert_eq!(
            excerpt,
            format!("...{}!{}...", "a".repeat(40), "b".repeat(59))
        );
        assert_eq!(mark, format!("{}^", " ".repeat(43)));
        let (_, _, excerpt, mark) = lines(&text, 0..65_001);
        assert_eq!(excerpt, format!("{}...", "a".repeat(100)));
        assert_eq!(mark, "^".repeat(100));
    }
}
