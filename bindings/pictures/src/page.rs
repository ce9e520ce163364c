//! A page in HTML, with pictures and tables: one file, without scripts, and without anything from elsewhere.
use crate::picture::{escaped, Picture, STYLE};
use std::fmt::Write;

/// A table: the names of its columns, and its rows.
#[derive(Clone, Debug)]
pub struct Table {
    pub title: String,
    pub head: Vec<String>,
    pub rows: Vec<Vec<String>>,
}

const LOOK: &str = "\
:root{color-scheme:light dark;--ink:#1d2430;--paper:#fff;--edge:#d5dae2;--link:#0b63b4}\
@media (prefers-color-scheme:dark){:root{--ink:#e6eaf0;--paper:#151a22;--edge:#3a4352;--link:#6db3f2}}\
body{margin:0;background:var(--paper);color:var(--ink);font:16px/1.5 system-ui,sans-serif}\
main{max-width:1320px;margin:0 auto;padding:16px}h1{font-size:1.5rem;line-height:1.25;margin:.4em 0}h2{font-size:1.1rem;margin:1.4em 0 .4em}\
.pictures{display:grid;gap:16px;grid-template-columns:repeat(auto-fit,minmax(min(100%,380px),1fr))}\
figure{margin:0;padding:8px;border:1px solid var(--edge);border-radius:8px}svg{display:block;width:100%;max-width:640px;margin:0 auto;height:auto}\
.tables{display:grid;gap:0 32px;align-items:start;grid-template-columns:repeat(auto-fit,minmax(min(100%,480px),1fr))}section{min-width:0}\
.wide{overflow-x:auto}.wide:focus-visible{outline:2px solid var(--link)}table{border-collapse:collapse;font-variant-numeric:tabular-nums}\
th,td{padding:4px 0 4px 18px;text-align:right;white-space:nowrap;border-bottom:1px solid var(--edge)}th:first-child,td:first-child{text-align:left;padding-left:0;white-space:normal;min-width:7em}\
@media (max-width:480px){th,td{padding-left:9px;font-size:14px}th:first-child,td:first-child{min-width:6em}}\
code{overflow-wrap:anywhere}code span{white-space:nowrap}a{color:var(--link)}a:focus-visible{outline:2px solid var(--link);outline-offset:2px}\
label{display:block;max-width:640px;margin:.6em 0}meter{display:block;width:100%;height:1.4em}";

/// The page of a run: what was asked for, by which command, and what came of it.
#[must_use]
pub fn page(title: &str, said: &str, command: &str, pictures: &[Picture], tables: &[Table]) -> String {
    let mut page = String::new();
    begin(&mut page, title, "");
    let _ = write!(page, "<p>{}</p>\n<p><code>{}</code></p>\n", escaped(said), words(command));
    write_pictures(&mut page, pictures);
    tables.iter().for_each(|table| table.write_to_page(&mut page));
    page += END;
    page
}

/// Begins a page of this title, with these lines of HTML in its head.
pub fn begin(page: &mut String, title: &str, head: &str) {
    let title = escaped(title);
    let _ = write!(
        page,
        "<!doctype html>\n<html lang=\"en\">\n<meta charset=\"utf-8\">\n<meta name=\"viewport\" content=\"width=device-width\">\n\
         {head}<title>{title}</title>\n<style>{LOOK}{STYLE}</style>\n<main>\n<h1>{title}</h1>\n"
    );
}

/// The end of a page.
pub const END: &str = "</main>\n</html>\n";

/// Writes pictures beside one another, as many as there is room for.
pub fn write_pictures(page: &mut String, pictures: &[Picture]) {
    *page += "<div class=\"pictures\">\n";
    for picture in pictures {
        *page += "<figure>";
        picture.write_to_page(page);
        *page += "</figure>\n";
    }
    *page += "</div>\n";
}

/// Writes tables of few columns, beside one another where there is room.
pub fn write_tables(page: &mut String, tables: &[Table]) {
    *page += "<div class=\"tables\">\n";
    for table in tables {
        *page += "<section>\n";
        table.write_to_page(page);
        *page += "</section>\n";
    }
    *page += "</div>\n";
}

// A command, whose words aren't broken at their hyphens, unless they are long.
fn words(command: &str) -> String {
    let word = |word: &str| match word.len() {
        0..=24 => format!("<span>{}</span>", escaped(word)),
        _ => escaped(word),
    };
    command.split(' ').map(word).collect::<Vec<_>>().join(" ")
}

impl Table {
    /// It as a text: columns of one width.
    #[must_use]
    pub fn text(&self) -> String {
        let rows = || [&self.head].into_iter().chain(&self.rows);
        let length = |row: &Vec<String>, column: usize| row.get(column).map_or(0, |cell| cell.chars().count());
        let wide = |column| rows().map(|row| length(row, column)).max().unwrap_or(0);
        let cell = |(column, cell): (usize, &String)| match column {
            0 => format!("{cell:0$}", wide(0)),
            _ => format!("  {cell:>0$}", wide(column)),
        };
        rows().map(|row| row.iter().enumerate().map(cell).collect::<String>().trim_end().to_string() + "\n").collect()
    }

    /// Writes it as a part of a page.
    pub fn write_to_page(&self, page: &mut String) {
        let title = escaped(&self.title);
        // (what is wider than the screen is moved by the keys too)
        let _ = write!(
            page,
            "<h2>{title}</h2>\n<div class=\"wide\" tabindex=\"0\" role=\"region\" aria-label=\"{title}\">\n<table>\n<thead>"
        );
        write_row(page, &self.head, "th");
        *page += "</thead>\n<tbody>";
        self.rows.iter().for_each(|cells| write_row(page, cells, "td"));
        *page += "</tbody>\n</table>\n</div>\n";
    }
}

fn write_row(page: &mut String, cells: &[String], of: &str) {
    *page += "<tr>";
    for cell in cells {
        let _ = write!(page, "<{of}>{}</{of}>", escaped(cell));
    }
    *page += "</tr>\n";
}

#[cfg(test)]
mod tests {
    use super::*;

    fn table() -> Table {
        let row = |cells: [&str; 2]| cells.map(str::to_string).to_vec();
        Table {
            title: "a < b".to_string(),
            head: row(["name", "µs"]),
            rows: vec![row(["x", "100"]), row(["longer", "5"])],
        }
    }

    #[test]
    fn a_table_has_columns_of_one_width() {
        assert_eq!(table().text(), "name     µs\nx       100\nlonger    5\n");
    }

    #[test]
    fn a_page_has_nothing_from_elsewhere() {
        let page = page("It & more", "what", "bench run --load \"x\"", &[], &[table()]);
        assert!(
            page.contains("It &amp; more")
                && page.contains("<span>--load</span> <span>&quot;x&quot;</span>")
                && page.contains("<h2>a &lt; b</h2>"),
            "{page}"
        );
        assert!(!page.contains("<script") && !page.contains("http") && !page.contains("url("), "{page}");
    }
}
