//! What is drawn everywhere: texts, and the sign that says: look here.

use super::places::{SIGN_HEIGHT, SIGN_MARK};
use super::texts::escaped;

/// Words that begin, end or have their middle at a place, as their class in the style sheet says.
pub fn text(class: &str, x: u32, y: u32, words: &str) -> String {
    format!("<text class=\"{class}\" x=\"{x}\" y=\"{y}\">{}</text>\n", escaped(words))
}

/// The sign, a triangle with a mark in it, which stands on a line of text.
pub fn sign(x: u32, y: u32) -> String {
    let (half, high) = (SIGN_HEIGHT / 2, SIGN_HEIGHT);
    let triangle = format!("M{x} {y}h{high}l-{half} -{high}z");
    let mark = format!("M{} {}{SIGN_MARK}", x + half, y - high);
    format!("<path class=\"sign\" d=\"{triangle}\"/><path class=\"mark\" d=\"{mark}\"/>\n")
}
