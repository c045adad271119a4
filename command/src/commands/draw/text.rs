//! A session as text, for a terminal.
mod boxes;
mod strip;

use super::collect::Ended;
use super::said;

/// So many charts of a session are drawn as text, and of all sessions together; a page has more.
const MOST_CHARTS: usize = 12;
const ALL_CHARTS: usize = 48;

/// Words in lines of at most this width.
fn lines(words: &[impl AsRef<str>], width: usize) -> Vec<String> {
    let mut lines = vec![String::new()];
    for word in words.iter().map(AsRef::as_ref) {
        match lines.last_mut() {
            Some(line) if line.is_empty() => line.push_str(word),
            Some(line) if line.len() + 1 + word.len() <= width => *line += &format!(" {word}"),
            _ => lines.push(word.to_string()),
        }
    }
    lines
}

/// Text in lines of at most this width.
pub fn wrapped(text: &str, width: usize) -> String {
    lines(&text.split(' ').collect::<Vec<_>>(), width).join("\n")
}

/// The charts, at most so many, and what is said of the others.
fn charts(session: &Ended, most: usize, width: usize) -> Vec<String> {
    let charts = &session.collected.charts;
    let drawn: Vec<String> = charts.chosen(most).into_iter().map(|chart| boxes::chart(chart, width)).collect();
    let said = said::chosen(drawn.len(), charts.count).map(|said| wrapped(&said, width));
    said.into_iter().chain(drawn).collect()
}

/// A session of so many: its setup, its slots and its charts, with an empty line between them.
pub fn text(session: &Ended, sessions: usize, width: usize) -> String {
    let most = MOST_CHARTS.min(ALL_CHARTS / sessions);
    let head = format!("Session {}. {}", session.collected.place, said::setup(session));
    let head = format!("{}\n{}", wrapped(&head, width), wrapped(&said::outcome(session), width));
    let strip = strip::strip(session, width);
    let parts: Vec<String> = [head, strip].into_iter().chain(charts(session, most, width)).collect();
    parts.join("\n\n")
}

#[cfg(test)]
mod tests {
    use super::*;

    #[test]
    fn words_stand_in_lines_of_the_width() {
        assert_eq!(wrapped("one two three", 7), "one two\nthree");
        assert_eq!(wrapped("one two three", 80), "one two three");
        assert_eq!(wrapped("unbreakable", 4), "unbreakable");
    }
}
