//! The whole picture: its blocks, one below the other, and on a desk side by side.

use super::bar::{self, LOOKS};
use super::counts::{Cut, Farm, Season};
use super::marks::{sign, text};
use super::numbers::is_in_millions;
use super::places::*;
use super::rows::{self, told};
use super::style::{self, Block};
use super::texts::{escaped, lines, shown};
use crate::names;

/// The picture of a season that is called so, as an SVG.
pub fn drawn(title: &str, season: &Season) -> String {
    let title = format!("Season: {}", shown(title));
    let blocks = blocks(&title, season);
    let height = blocks.iter().map(|block| block.height).sum::<u32>() + MARGIN;
    let desk = blocks.iter().map(|block| block.desk.1 + block.height).max().unwrap_or(0) + MARGIN;
    let sheet = style::sheet(height, desk, &blocks);
    let described = described(&title, season);
    let patterns = bar::patterns();
    let paper = format!(r#"<rect class="paper" width="{}" height="{}"/>"#, 2 * WIDTH, height.max(desk));
    let placed = placed(&blocks);
    format!(
        "<svg xmlns=\"http://www.w3.org/2000/svg\" class=\"season\" role=\"img\" aria-labelledby=\"season-title season-desc\" \
width=\"{WIDTH}\" height=\"{height}\" viewBox=\"0 0 {WIDTH} {height}\">\n{described}<style>\n{sheet}</style>\n\
<defs>\n{patterns}</defs>\n<g class=\"page\">\n{paper}\n{placed}</g>\n</svg>\n"
    )
}

/// For those who do not see it: what it is and every farm's counts.
fn described(title: &str, season: &Season) -> String {
    let (title, cut) = (escaped(title), season.cut.map_or(String::new(), |cut| cut_told(cut).join(" ") + "\n"));
    let farms: Vec<String> = season.farms.iter().map(told).collect();
    let told = escaped(&format!("{cut}{}\n{}", INTRODUCTION.join(" "), farms.join("\n")));
    format!("<title id=\"season-title\">{title}</title>\n<desc id=\"season-desc\">{told}</desc>\n")
}

const INTRODUCTION: [&str; 2] =
    ["Bars: the states in which a farm's cycles ended.", "A journal has no clock: time is counted in cycles."];

fn cut_told(cut: Cut) -> [&'static str; 2] {
    match cut {
        Cut::Bad => ["Not the whole season: a record is bad.", "This is what came before it."],
        Cut::Full => ["Not the whole season: a count is full (2^64).", "This is what came before that."],
    }
}

/// The blocks from top to bottom. On a desk every second stands beside the one before.
fn blocks(title: &str, season: &Season) -> Vec<Block> {
    let (early, late) = season.farms.split_at(season.farms.len() / 2);
    let (heading, samples) = (heading(title, season.cut), samples());
    let below = heading.1.max(samples.1);
    let end = below + rows::height(early) + GAP;
    let block = |class, (contents, height), x, y| Block { class, contents, height, desk: (x, y) };
    vec![
        block("heading", heading, 0, 0),
        block("samples", samples, WIDTH, 0),
        block("early", (rows::block(early), rows::height(early)), 0, below),
        block("late", (rows::block(late), rows::height(late) + GAP), WIDTH, below),
        block("columns", columns(), 0, end),
        block("signs", signs(&season.farms), WIDTH, end),
    ]
}

/// The blocks, each under the one before.
fn placed(blocks: &[Block]) -> String {
    let mut y = 0;
    let mut placed = String::new();
    for Block { class, height, contents, .. } in blocks {
        placed += &format!("<g class=\"{class}\" transform=\"translate(0,{y})\">\n{contents}</g>\n");
        y += height;
    }
    placed
}

/// What the picture is, and whether it is of a whole season; with its height.
fn heading(title: &str, cut: Option<Cut>) -> (String, u32) {
    let widest = 100 * (RIGHT - MARGIN) / TITLE;
    let lines = lines(title, widest, TITLE_LINES);
    let below = MARGIN + TITLE_LINE * u32::try_from(lines.len()).unwrap_or(0);
    let titles = lines.iter().zip((MARGIN + TITLE..).step_by(TITLE_LINE as usize));
    let titles: String = titles.map(|(line, y)| text("t", MARGIN, y, line)).collect();
    let (cut, below) = cut.map_or((String::new(), below), |cut| (warning(cut, below), below + 2 * LINE));
    let introduction = paragraph("g", MARGIN, below, &INTRODUCTION);
    (titles + &cut + &introduction, below + 2 * LINE)
}

fn warning(cut: Cut, top: u32) -> String {
    sign(MARGIN, top + BASE) + &paragraph("b", MARGIN + SIGN, top, &cut_told(cut))
}

/// Lines of text below a place.
fn paragraph(class: &str, x: u32, top: u32, lines: &[&str]) -> String {
    let below = (top + BASE..).step_by(LINE as usize);
    lines.iter().zip(below).map(|(line, y)| text(class, x, y, line)).collect()
}

/// What the states look like, in two columns, with the height.
fn samples() -> (String, u32) {
    const HALF: usize = LOOKS.len() / 2;
    let at = |number: usize| {
        let x = if number < HALF { MARGIN } else { SAMPLES };
        (x, SAMPLES_TOP + SAMPLE_LINE * (number % HALF) as u32)
    };
    let samples = LOOKS.iter().enumerate().map(|(number, look)| sample(look, at(number)));
    (samples.collect(), SAMPLES_TOP + SAMPLE_LINE * HALF as u32)
}

fn sample(look: &bar::Look, (x, y): (u32, u32)) -> String {
    let words = format!("S{} {}", look.code, names::state(look.code));
    let class = if look.code == 4 { "b" } else { "" };
    look.piece(10 * x, 10 * SAMPLE, y) + &text(class, x + SAMPLE + SAMPLE_GAP, y + BASE, &words)
}

/// What the columns mean, with the height.
fn columns() -> (String, u32) {
    written(&["runs: share of the cycles in S4", "starts: entries into S4", "faults: those that were acknowledged"])
}

/// What the signs mean that are there, with the height.
fn signs(farms: &[Farm]) -> (String, u32) {
    let counts = |farm: &Farm| [farm.all_cycles(), farm.starts.into(), farm.faults.into(), farm.denials.into()];
    let is_short = farms.iter().flat_map(counts).any(is_in_millions);
    let is_thin = farms.iter().any(|farm| bar::lengths(farm).contains(&HAIRLINE_TENTHS));
    let mut signs = vec!["denials: attempts at another farm's axis"];
    signs.extend(is_short.then_some("M: millions"));
    signs.extend(is_thin.then_some("Slices too thin to see are drawn wider."));
    written(&signs)
}

/// Lines of text with their height.
fn written(lines: &[&str]) -> (String, u32) {
    (paragraph("g", MARGIN, 0, lines), LINE * lines.len() as u32)
}

#[cfg(test)]
mod tests {
    use super::*;
    use crate::picture::counts::tests::{lines_of, season_of, worked};
    use crate::picture::texts::width;

    const NOTHING: &str = "0 0 0 0 0 0 0 0 0 0";

    /// A season in which every count is this one.
    fn all(count: u64) -> Season {
        season_of(&[count; 10].map(|count| count.to_string()).join(" "))
    }

    fn cut(last: &str) -> Season {
        Season::read((lines_of(NOTHING) + last).as_bytes()).expect("sixteen lines and why no more")
    }

    /// What stands between two marks, at each place.
    fn between<'a>(text: &'a str, from: &'a str, to: &'a str) -> impl Iterator<Item = &'a str> {
        text.split(from).skip(1).map(move |rest| rest.split_once(to).expect("both marks").0)
    }

    fn attribute<'a>(tag: &'a str, name: &str) -> &'a str {
        let (_, rest) = tag.split_once(&format!(" {name}=\"")).unwrap_or_else(|| panic!("no {name} in {tag}"));
        rest.split_once('"').expect("a closing quote").0
    }

    fn unescaped(text: &str) -> String {
        text.replace("&lt;", "<")
            .replace("&gt;", ">")
            .replace("&#39;", "'")
            .replace("&quot;", "\"")
            .replace("&amp;", "&")
    }

    /// The line that a text stands on, and from where to where, in hundredths of a unit.
    fn place(element: &str) -> (u32, u32, u32) {
        let (tag, words) = element.split_once('>').expect("a tag");
        let number = |name| attribute(tag, name).parse::<u32>().expect("a number");
        let (class, wide) = (attribute(tag, "class"), width(&unescaped(words)));
        let wide = match class {
            "t" => wide * TITLE,
            "g" | "" => wide * TEXT * 9 / 10, // Sentences that are not bold are narrower by more than that.
            _ => wide * TEXT,
        };
        let (at, y) = (100 * number("x"), number("y"));
        match &class[..1.min(class.len())] {
            "n" => (y, at - wide, at),
            "m" => (y, at - wide / 2, at + wide / 2),
            _ => (y, at, at + wide),
        }
    }

    /// Every tag is closed by its like, every quote by its like, and every `&` begins the name of a character.
    fn assert_well_formed(svg: &str) {
        let mut open = Vec::new();
        for (number, piece) in svg.split('<').enumerate().skip(1) {
            let (tag, text) = piece.split_once('>').unwrap_or_else(|| panic!("tag {number} has no end: {piece}"));
            assert!(tag.matches('"').count() % 2 == 0 && !tag.contains('\''), "{tag}");
            let mut entities = text.split('&').skip(1);
            let known = |of: &str| ["lt;", "gt;", "amp;", "quot;", "#39;"].iter().any(|name| of.starts_with(name));
            assert!(entities.all(known), "{text}");
            match tag.strip_prefix('/') {
                Some(name) => assert_eq!(open.pop(), Some(name), "at tag {number}"),
                None if tag.ends_with('/') => {}
                None => open.push(tag.split(' ').next().expect("a name")),
            }
        }
        assert!(open.is_empty(), "{open:?}");
    }

    #[test]
    fn well_formed_whatever_it_is_called() {
        for title in ["", "a.journal", "<&>'\"]]>\u{1}\u{fffe}\n</title>", &"&".repeat(999), "-->漢🌾"] {
            let svg = drawn(title, &worked());
            assert_well_formed(&svg);
            assert!(svg.chars().all(|of| of == '\n' || !of.is_control() && of != '\u{fffe}'), "{title}");
        }
        for season in [all(0), all(1), all(u64::MAX), cut("bad\n"), cut("x 13\n")] {
            assert_well_formed(&drawn("a.journal", &season));
        }
    }

    #[test]
    fn stands_alone_and_tells_those_who_do_not_see_it() {
        let svg = drawn("a&b", &worked());
        assert!(svg.starts_with("<svg xmlns=\"http://www.w3.org/2000/svg\" ") && svg.ends_with("</svg>\n"));
        assert!(svg.contains(r#" role="img" "#) && svg.contains(r#"<title id="season-title">Season: a&amp;b</title>"#));
        assert_eq!(
            (svg.matches("http").count(), svg.matches("<script").count(), svg.matches("@import").count()),
            (1, 0, 0)
        );
        let described = between(&svg, "<desc id=\"season-desc\">", "</desc>").next().expect("a description");
        let tooltips: Vec<&str> = between(&svg, "<g><title>", "</title>").collect();
        assert_eq!(tooltips.len(), 16);
        assert!(tooltips.iter().all(|farm| described.contains(farm)));
        assert!(described.contains("A journal has no clock: time is counted in cycles."));
    }

    /// In every block of the picture.
    fn assert_apart(svg: &str) {
        for block in svg.split("<g class=\"").skip(2) {
            let mut places: Vec<_> = between(block, "<text", "</text>").map(place).collect();
            places.sort_unstable();
            let is_apart = |pair: &[(u32, u32, u32)]| pair[0].0 != pair[1].0 || pair[0].2 < pair[1].1;
            assert!(!places.is_empty() && places.windows(2).all(is_apart), "{places:?}");
            assert!(places.iter().all(|(_, from, to)| *from >= 100 * MARGIN && *to <= 100 * RIGHT), "{places:?}");
        }
    }

    #[test]
    fn no_text_touches_another_or_the_edge() {
        for count in [0, 1, 999_999, 1_000_000, 9_999_999_999, 10_000_000_000, u64::MAX] {
            assert_apart(&drawn(&"WWWWWWWWWW/".repeat(40), &all(count)));
        }
        assert_apart(&drawn("x.journal", &cut("x 13")));
        assert_apart(&drawn(&"may.journal ".repeat(9), &cut("bad")));
    }

    #[test]
    fn a_count_that_was_cut_is_told() {
        let whole = drawn("a.journal", &worked());
        assert!(!whole.contains("Not the whole season"));
        let bad = drawn("a.journal", &cut("bad"));
        assert_eq!(bad.matches("Not the whole season: a record is bad.").count(), 2, "seen and described");
        assert!(bad.contains(">This is what came before it.</text>"));
        let full = drawn("a.journal", &cut("x 13"));
        assert_eq!(full.matches("Not the whole season: a count is full (2^64).").count(), 2);
        assert!(full.contains(r#"class="sign""#) && !drawn("a.journal", &all(0)).contains(r#"class="sign""#));
    }

    #[test]
    fn notes_are_there_where_they_are_needed() {
        let has = |counts: &str, note: &str| drawn("a", &season_of(counts)).contains(note);
        let (millions, thin) = (">M: millions<", ">Slices too thin to see are drawn wider.<");
        assert!(has("0 0 0 1 0 0 0 1000000 0 0", millions) && !has("0 0 0 1 0 0 0 999999 0 0", millions));
        assert!(has("1 0 0 1000 0 0 0 0 0 0", thin) && !has("1 0 0 2 0 0 0 0 0 0", thin));
        assert!(has(NOTHING, ">no cycles<") && !has("0 0 0 1 0 0 0 0 0 0", ">no cycles<"));
    }

    #[test]
    fn states_have_samples_with_their_names() {
        let (samples, _) = samples();
        for (look, name) in LOOKS.iter().zip(["operation", "ramp stop", "quick stop", "switched on", "ready"]) {
            assert!(samples.contains(&format!(">S{} {name}</text>", look.code)), "{name}");
        }
        assert!(samples.contains(">S1 switching on inhibited</text>"));
    }

    #[test]
    fn patterns_lie_alike_everywhere() {
        let svg = drawn("a.journal", &all(1));
        let tops: Vec<u32> = between(&svg, "<rect class=\"piece\"", "/>")
            .filter(|piece| piece.contains("url("))
            .map(|piece| attribute(piece, "y").parse::<u32>().expect("a number") % TILE)
            .collect();
        assert_eq!((tops.len(), tops.iter().all(|top| *top == tops[0])), (4 * 17, true));
    }
}
