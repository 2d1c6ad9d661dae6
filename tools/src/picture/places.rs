//! Where everything stands, in the picture's own units: on the narrowest phones, 360 pixels wide, a unit is 0.9 of a pixel.

/// The width of the picture, and of each of its two columns on a desk.
pub const WIDTH: u32 = 400;
/// What a column begins and ends with.
pub const MARGIN: u32 = 14;
/// Where a column's contents end.
pub const RIGHT: u32 = WIDTH - MARGIN;

/// The size of texts: none is smaller, so that none is below 11 pixels on a phone.
pub const TEXT: u32 = 13;
/// From one line of text to the next.
pub const LINE: u32 = 18;
/// From the top of a line down to where its letters stand.
pub const BASE: u32 = 13;
/// The size of the title.
pub const TITLE: u32 = 18;
/// From one line of the title to the next.
pub const TITLE_LINE: u32 = 23;
/// The lines that a title may have.
pub const TITLE_LINES: usize = 2;
/// Between two blocks of the picture.
pub const GAP: u32 = 12;

/// The space of a sign, before a text or after a number.
pub const SIGN: u32 = 16;
/// The height of a sign, and its width.
pub const SIGN_HEIGHT: u32 = 12;
/// The mark in a sign, drawn from the sign's tip.
pub const SIGN_MARK: &str = "m0 4v4m0 2v2";

/// The side of a pattern's tile.
pub const TILE: u32 = 6;
/// The height of a bar, and of the sample of a state.
pub const BAR_HEIGHT: u32 = 16;
/// The length of a bar, in tenths of a unit.
pub const BAR_TENTHS: u32 = 10 * (RIGHT - MARGIN);
/// The least length of a share that is not nothing, in tenths of a unit.
pub const HAIRLINE_TENTHS: u32 = 25;
/// What a share needs at least for its pattern to be seen, in tenths of a unit; a shorter one is plain.
pub const PATTERN_TENTHS: u32 = 50;
/// How far the running pump's share stands out of its bar, above and below.
pub const STANDS_OUT: u32 = 2;
/// From the top of a bar down to where letters in it stand.
pub const BAR_BASE: u32 = 12;
/// From the top of a farm down to where its numbers stand.
pub const ROW_BASE: u32 = 17;
/// From there down to its bar.
pub const BAR_BELOW: u32 = 6;
/// From one farm to the next: whole tiles, so that a pattern lies alike in all bars.
pub const ROW: u32 = 7 * TILE;
/// Above the names of the columns.
pub const FARMS_TOP: u32 = 8;
/// The length of the sample of a state.
pub const SAMPLE: u32 = 30;
/// Between a sample and its name.
pub const SAMPLE_GAP: u32 = 6;
/// Above the samples.
pub const SAMPLES_TOP: u32 = 13;
/// From one sample down to the next: whole tiles too.
pub const SAMPLE_LINE: u32 = 4 * TILE;
/// Where the second column of samples begins.
pub const SAMPLES: u32 = 172;

/// The columns of numbers: what they are called and where they end.
pub const COLUMNS: [(&str, u32); 5] =
    [("runs", 88), ("cycles", 158), ("starts", 228), ("faults", 298), ("denials", RIGHT - SIGN)];

/// The width of the picture on a desk, in pixels: at most, and at least where the window is low.
pub const DESK: (u32, u32) = (1280, 1000);
