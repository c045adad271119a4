//! A page that stands by itself: no script, and nothing that is fetched.
use crate::drawing::svg::escaped;

const STYLE: &str = "\
body { font: 16px/1.5 sans-serif; color: #222; background: #fff; margin: 2rem auto; max-width: 72rem; padding: 0 1rem; }\n\
h1 { font-size: 1.6rem; } h2 { font-size: 1.2rem; margin-top: 2rem; }\n\
svg { max-width: 100%; height: auto; display: block; }\n\
table { border-collapse: collapse; } th, td { padding: .2rem .8rem; text-align: right; border-bottom: 1px solid #ddd; }\n\
th:first-child, td:first-child { text-align: left; }\n\
.wide { overflow-x: auto; } .wide svg { max-width: none; }\n\
.drawings { overflow-x: auto; } .drawings svg { max-width: max(100%, 44rem); }\n\
td { white-space: nowrap; }";

/// A page with a title and what stands on it, in HTML.
pub fn page(title: &str, body: &str) -> String {
    format!(
        "<!doctype html>\n<html lang=\"en\">\n<head>\n<meta charset=\"utf-8\">\n\
         <meta name=\"viewport\" content=\"width=device-width, initial-scale=1\">\n<title>{title}</title>\n\
         <style>\n{STYLE}\n</style>\n</head>\n<body>\n<h1>{title}</h1>\n{body}</body>\n</html>\n",
        title = escaped(title)
    )
}

/// A paragraph of text.
pub fn paragraph(text: &str) -> String {
    format!("<p>{}</p>\n", escaped(text))
}

pub fn heading(text: &str) -> String {
    format!("<h2>{}</h2>\n", escaped(text))
}

pub fn subheading(text: &str) -> String {
    format!("<h3>{}</h3>\n", escaped(text))
}

/// Drawings that shrink with the window as far as their text can still be read, and beyond that are moved sideways.
pub fn drawings(drawings: &str) -> String {
    format!("<div class=\"drawings\">\n{drawings}</div>\n")
}

/// A table: the first row is its head.
pub fn table(rows: &[Vec<String>]) -> String {
    let cells = |row: &[String], tag: &str| -> String { row.iter().map(|cell| format!("<{tag}>{}</{tag}>", escaped(cell))).collect() };
    let rows: Vec<String> = rows
        .iter()
        .enumerate()
        .map(|(place, row)| format!("<tr>{}</tr>\n", cells(row, if place == 0 { "th" } else { "td" })))
        .collect();
    format!("<div class=\"wide\"><table>\n{}</table></div>\n", rows.concat())
}
