//! How the picture is styled, and how it lies on a phone, on a desk and on paper.
//!
//! The shape of the window decides, not its width: phones call themselves 980 pixels wide to a picture that is opened by itself. In a
//! page the picture's window is its own box, which is upright.

use super::places::{DESK, TEXT, TITLE, WIDTH};

/// A block of the picture: what the style sheet calls it, and what is in it.
pub struct Block {
    /// Its class.
    pub class: &'static str,
    /// Its height.
    pub height: u32,
    /// Its contents.
    pub contents: String,
    /// Where it is on a desk.
    pub desk: (u32, u32),
}

/// The colours and sizes, everywhere.
fn looks() -> String {
    format!(
        ".season{{display:block;margin:0 auto;max-width:100%;height:auto;background:#fff;fill:#161616;\
font-family:system-ui,-apple-system,'Segoe UI',Roboto,'Helvetica Neue',Arial,sans-serif;font-size:{TEXT}px;\
font-variant-numeric:tabular-nums}}\n\
.season .t{{font-size:{TITLE}px;font-weight:700}}\n\
.season .b{{font-weight:700}}\n\
.season .n{{text-anchor:end}}\n\
.season .m{{text-anchor:middle}}\n\
.season .g{{fill:#595959}}\n\
.season .piece{{stroke:#161616;stroke-width:.7}}\n\
.season .empty{{fill:none;stroke:#595959;stroke-dasharray:4 3}}\n\
.season .area{{fill:none;pointer-events:all}}\n\
.season .mark{{stroke:#fff;stroke-width:1.6}}\n\
.season .paper{{fill:#fff}}\n"
    )
}

/// A phone's window. One that is not wider than the picture needs no rule: `max-width` makes the picture fit.
const UPRIGHT: &str = "(min-width:401px) and (max-aspect-ratio:3/5)";
/// A window, or a sheet of paper, that is higher than wide, but not by much.
const BETWEEN: &str = "(min-width:401px) and (min-aspect-ratio:3/5)";
/// A window that is wider than high.
const ON_A_DESK: &str = "(min-width:600px) and (min-aspect-ratio:6/5)";

/// The style sheet of a picture that is so high, and on a desk so high. The last rule that is met holds.
pub fn sheet(height: u32, desk: u32, blocks: &[Block]) -> String {
    let (looks, page) = (looks(), on_a_desk(height, desk));
    let moved =
        |Block { class, desk: (x, y), .. }: &Block| format!(".season .{class}{{transform:translate({x}px,{y}px)}}\n");
    let moved: String = blocks.iter().map(moved).collect();
    let whole = format!("max({WIDTH}px,calc(100vh*{WIDTH}/{height}))");
    format!(
        "{looks}@media {UPRIGHT}{{.season{{width:100vw}}}}\n\
@media {BETWEEN}{{.season{{width:min(100vw,{whole})}}}}\n\
@media {ON_A_DESK}{{\n{page}{moved}}}\n"
    )
}

/// On a desk the blocks lie in two columns. The window's view stays what it was, `WIDTH` by `height`, in the middle of what is then
/// seen, so the page is made as much larger as it is lower.
fn on_a_desk(height: u32, desk: u32) -> String {
    let (most, least) = DESK;
    let wide = 2 * WIDTH;
    let scale = f64::from(height) / f64::from(desk);
    let left = f64::from(WIDTH) / 2.0 - f64::from(WIDTH) * scale;
    format!(
        ".season{{--w:min(100vw,{most}px,max(calc(100vh*{wide}/{desk}),{least}px));width:var(--w);\
height:calc(var(--w)*{desk}/{wide})}}\n\
.season .page{{transform:translate({left:.3}px,0px) scale({scale:.5})}}\n"
    )
}

#[cfg(test)]
mod tests {
    use super::*;

    #[test]
    fn on_a_desk_the_page_fills_what_is_seen() {
        let block = Block { class: "late", height: 5, contents: String::new(), desk: (400, 90) };
        let sheet = sheet(1000, 500, &[block]);
        let (_, desk) = sheet.split_once("@media (min-width:600px) and (min-aspect-ratio:6/5)").expect("a desk");
        assert!(desk.contains(".season .page{transform:translate(-600.000px,0px) scale(2.00000)}"), "{desk}");
        assert!(desk.contains(".season .late{transform:translate(400px,90px)}"), "{desk}");
        assert!(desk.contains("height:calc(var(--w)*500/800)"), "{desk}");
        assert_eq!(sheet.matches('{').count(), sheet.matches('}').count());
    }
}
