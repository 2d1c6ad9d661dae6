//! The bar of a farm: how long each share is and what it looks like. No two states have the same lightness, nor the same pattern, so
//! that no colour is needed to tell them apart.

use super::places::*;
use crate::picture::counts::Farm;

/// What a state looks like.
pub struct Look {
    /// The state.
    pub code: u8,
    /// Its colour, under the pattern.
    ground: &'static str,
    /// The pattern's tile, a square of `TILE`.
    tile: &'static str,
}

/// The states from left to right: first the running pump, so that all farms' begin at the same place, then from motion to rest.
pub const LOOKS: [Look; 6] = [
    Look { code: 4, ground: "#0a3161", tile: "" },
    Look {
        code: 51,
        ground: "#f7bb3f",
        tile: r##"<path d="M-1 1L1-1M0 6L6 0M5 7L7 5" stroke="#4d3000" stroke-width="1.3"/>"##,
    },
    Look { code: 52, ground: "#a63c06", tile: r##"<path d="M0 0L6 6M6 0L0 6" stroke="#fff" stroke-width=".8"/>"## },
    Look { code: 3, ground: "#4f97d0", tile: r##"<path d="M3 0V6" stroke="#fff" stroke-width="1.2"/>"## },
    Look { code: 2, ground: "#cde5f7", tile: r##"<circle cx="3" cy="3" r="1.2" fill="#0a3161"/>"## },
    Look { code: 1, ground: "#fff", tile: "" },
];

/// What the looks need to be defined.
pub fn patterns() -> String {
    LOOKS.iter().filter(|look| !look.tile.is_empty()).map(Look::pattern).collect()
}

impl Look {
    fn pattern(&self) -> String {
        let Look { code, ground, tile } = self;
        let size = format!(r#"width="{TILE}" height="{TILE}""#);
        let ground = format!(r#"<rect {size} fill="{ground}"/>"#);
        format!("<pattern id=\"season-s{code}\" {size} patternUnits=\"userSpaceOnUse\">{ground}{tile}</pattern>\n")
    }

    /// Its pattern, where there is room for it.
    fn fill(&self, length: u32) -> String {
        if self.tile.is_empty() || length < PATTERN_TENTHS {
            return self.ground.to_string();
        }
        format!("url(#season-s{})", self.code)
    }

    /// A piece of a bar, from a place to the right, in tenths.
    pub fn piece(&self, from: u32, length: u32, top: u32) -> String {
        let out = if self.code == 4 { STANDS_OUT } else { 0 };
        let (x, width, fill) = (tenths(from), tenths(length), self.fill(length));
        let (y, height) = (top - out, BAR_HEIGHT + 2 * out);
        format!(r#"<rect class="piece" x="{x}" y="{y}" width="{width}" height="{height}" fill="{fill}"/>"#)
    }
}

/// A number of tenths.
pub fn tenths(tenths: u32) -> String {
    format!("{}.{}", tenths / 10, tenths % 10)
}

/// How long the shares of a bar are, in tenths and in the order of `LOOKS`. From the smallest on each takes its part of what is left,
/// and what is not nothing at least a hairline; so the sum is the bar, and only the larger pay for the hairlines.
pub fn lengths(farm: &Farm) -> [u32; LOOKS.len()] {
    let cycles = LOOKS.map(|look| u128::from(farm.cycles_in(look.code)));
    let mut order = [0, 1, 2, 3, 4, 5];
    order.sort_by_key(|at| cycles[*at]);
    let (mut room, mut whole) = (BAR_TENTHS, farm.all_cycles());
    let mut lengths = [0; LOOKS.len()];
    for at in order.into_iter().filter(|at| cycles[*at] > 0) {
        let part = u128::from(room) * cycles[at] / whole;
        lengths[at] = HAIRLINE_TENTHS.max(u32::try_from(part).unwrap_or(room));
        (room, whole) = (room - lengths[at], whole - cycles[at]);
    }
    lengths
}

/// The bar of a farm that has cycles, with its top there.
pub fn bar(farm: &Farm, top: u32) -> String {
    let mut from = 10 * MARGIN;
    let mut pieces = String::new();
    for (look, length) in LOOKS.iter().zip(lengths(farm)).filter(|(_, length)| *length > 0) {
        pieces += &look.piece(from, length, top);
        from += length;
    }
    pieces
}

/// The line around a bar without pieces.
pub fn empty(top: u32) -> String {
    let width = tenths(BAR_TENTHS);
    format!(r#"<rect class="empty" x="{MARGIN}" y="{top}" width="{width}" height="{BAR_HEIGHT}"/>"#)
}

#[cfg(test)]
mod tests {
    use super::*;
    use crate::picture::counts::tests::season_of;
    use crate::picture::counts::STATES;

    fn lengths_of(cycles: [u64; 6]) -> [u32; 6] {
        let [s1, s2, s3, s4, s51, s52] = cycles;
        lengths(&season_of(&format!("{s1} {s2} {s3} {s4} {s51} {s52} 0 0 0 0")).farms[0])
    }

    #[test]
    fn shares_are_in_proportion_and_fill_the_bar() {
        assert_eq!(lengths_of([1, 1, 1, 1, 0, 0]), [930, 0, 0, 930, 930, 930]);
        assert_eq!(lengths_of([0, 0, 0, 5, 0, 0]), [BAR_TENTHS, 0, 0, 0, 0, 0]);
        assert_eq!(lengths_of([3, 0, 0, 1, 0, 0]), [930, 0, 0, 0, 0, 2790]);
        for cycles in [[1, 2, 3, 4, 5, 6], [7, 0, 0, 11, 13, 0], [u64::MAX; 6], [1, u64::MAX, 2, u64::MAX, 0, 9]] {
            assert_eq!(lengths_of(cycles).iter().sum::<u32>(), BAR_TENTHS, "{cycles:?}");
        }
    }

    #[test]
    fn what_is_not_nothing_is_seen() {
        let all = lengths_of([u64::MAX, 1, 1, 1, 1, 1]);
        assert_eq!(all, [25, 25, 25, 25, 25, BAR_TENTHS - 125]);
        assert_eq!(lengths_of([1_000_000, 0, 0, 0, 0, 1]), [0, 0, 25, 0, 0, BAR_TENTHS - 25]);
        assert_eq!(lengths_of([0; 6]), [0; 6]);
    }

    #[test]
    fn the_pieces_of_a_bar_follow_each_other() {
        let farm = season_of("5 0 1 9 1 0 0 0 0 0").farms.remove(0);
        let pieces = [
            r##"<rect class="piece" x="14.0" y="8" width="209.4" height="20" fill="#0a3161"/>"##,
            r##"<rect class="piece" x="223.4" y="10" width="23.2" height="16" fill="url(#season-s51)"/>"##,
            r##"<rect class="piece" x="246.6" y="10" width="23.2" height="16" fill="url(#season-s3)"/>"##,
            r##"<rect class="piece" x="269.8" y="10" width="116.2" height="16" fill="#fff"/>"##,
        ];
        assert_eq!(bar(&farm, 10), pieces.concat());
        let thin = bar(&season_of("999 0 0 0 1 0 0 0 0 0").farms[0], 10);
        assert!(thin.contains(r##" width="2.5" height="16" fill="#f7bb3f"/>"##), "too thin for its pattern: {thin}");
    }

    #[test]
    fn every_state_has_a_look_of_its_own() {
        let mut codes = LOOKS.map(|look| look.code);
        codes.sort_unstable();
        assert_eq!(codes, STATES);
        let lights = LOOKS.map(|look| lightness(look.ground));
        let mut sorted = lights;
        sorted.sort_unstable();
        assert!(sorted.windows(2).all(|pair| pair[1] - pair[0] >= 25), "{lights:?}");
        assert_eq!(sorted[0], lights[0], "the running pump is the darkest");
    }

    /// How light a colour is in a grey copy, from 0 to 255.
    fn lightness(colour: &str) -> u32 {
        let long = if colour.len() == 4 { "#ffffff" } else { colour };
        let part = |at: usize| u32::from_str_radix(&long[at..at + 2], 16).expect("two hex digits");
        (299 * part(1) + 587 * part(3) + 114 * part(5)) / 1000
    }
}
