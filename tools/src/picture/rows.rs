//! The farms: for each a line of numbers and a bar.

use super::bar;
use super::counts::Farm;
use super::marks::{sign, text};
use super::numbers::{counted, exact, share, short};
use super::places::*;
use super::texts::escaped;
use crate::names;

/// The height of a block of so many farms.
pub fn height(farms: &[Farm]) -> u32 {
    FARMS_TOP + LINE + ROW * farms.len() as u32
}

/// A block of farms under the names of its columns.
pub fn block(farms: &[Farm]) -> String {
    let line = FARMS_TOP + BASE;
    let names: String = COLUMNS.iter().map(|(name, end)| text("n g", *end, line, name)).collect();
    let tops = (FARMS_TOP + LINE..).step_by(ROW as usize);
    let rows = farms.iter().zip(tops).map(|(farm, top)| row(farm, top));
    text("g", MARGIN, line, "farm") + &names + &rows.collect::<String>()
}

fn row(farm: &Farm, top: u32) -> String {
    let line = top + ROW_BASE;
    let bar = match farm.all_cycles() {
        0 => empty(line + BAR_BELOW),
        _ => bar::bar(farm, line + BAR_BELOW),
    };
    let sign = if farm.denials > 0 { sign(RIGHT - SIGN_HEIGHT, line) } else { String::new() };
    let area = format!(r#"<rect class="area" y="{top}" width="{WIDTH}" height="{ROW}"/>"#);
    let number = text("b", MARGIN, line, &farm.number.to_string());
    let tooltip = escaped(&told(farm));
    format!("<g><title>{tooltip}</title>{area}\n{number}{}{sign}{bar}\n</g>\n", numbers(farm, line))
}

/// The bar of a farm that has none.
fn empty(top: u32) -> String {
    bar::empty(top) + &text("m g", WIDTH / 2, top + BAR_BASE, "no cycles")
}

/// The numbers of a farm, each where its column ends.
fn numbers(farm: &Farm, line: u32) -> String {
    let all = farm.all_cycles();
    let runs = u128::from(farm.cycles_in(4));
    let share = if all == 0 { "–".to_string() } else { share(runs, all) };
    let class = |name, count| match (name, count) {
        (_, 0) => "n g",
        ("denials", _) => "n b",
        _ => "n",
    };
    let counts = [runs, all, farm.starts.into(), farm.faults.into(), farm.denials.into()];
    let told = [share].into_iter().chain(counts[1..].iter().copied().map(short));
    let columns = COLUMNS.iter().zip(counts).zip(told);
    columns.map(|(((name, end), count), told)| text(class(*name, count), *end, line, &told)).collect()
}

/// All that was counted for a farm, in words.
pub fn told(farm: &Farm) -> String {
    let Farm { number, starts, faults, denials, stored, .. } = farm;
    let starts = counted((*starts).into(), "start");
    let faults = counted((*faults).into(), "acknowledged fault");
    let denials = counted((*denials).into(), "denial");
    let stored = counted((*stored).into(), "element");
    format!("Farm {number}: {}; {starts}, {faults}, {denials}, {stored} stored.", cycles_told(farm))
}

fn cycles_told(farm: &Farm) -> String {
    let all = farm.all_cycles();
    if all == 0 {
        return "no cycles".to_string();
    }
    let codes = bar::LOOKS.iter().map(|look| look.code).filter(|code| farm.cycles_in(*code) > 0);
    let states = codes.map(|code| {
        let cycles = farm.cycles_in(code).into();
        format!("S{code} {} {} ({})", names::state(code), exact(cycles), share(cycles, all))
    });
    format!("{}: {}", counted(all, "cycle"), states.collect::<Vec<_>>().join(", "))
}

#[cfg(test)]
mod tests {
    use super::*;
    use crate::picture::counts::tests::{season_of, worked};

    #[test]
    fn a_farm_in_words() {
        let farms = worked().farms;
        let first =
            "Farm 1: 4 cycles: S4 operation 1 (25\u{a0}%), S3 switched on 1 (25\u{a0}%), S2 ready 1 (25\u{a0}%), \
            S1 switching on inhibited 1 (25\u{a0}%); 1 start, 0 acknowledged faults, 0 denials, 0 elements stored.";
        assert_eq!(told(&farms[0]), first);
        let second = "Farm 2: no cycles; 0 starts, 0 acknowledged faults, 1 denial, 0 elements stored.";
        assert_eq!(told(&farms[1]), second);
    }

    #[test]
    fn denials_have_a_sign_and_weight_and_none_have_not() {
        let farms = worked().farms;
        let (denied, quiet) = (row(&farms[1], 0), row(&farms[2], 0));
        assert!(denied.contains(r#"class="sign""#) && denied.contains(r#"<text class="n b" x="370" y="17">1</text>"#));
        assert!(!quiet.contains(r#"class="sign""#) && quiet.contains(r#"<text class="n g" x="370" y="17">0</text>"#));
    }

    #[test]
    fn a_farm_without_cycles_says_so() {
        let empty = row(&worked().farms[2], 0);
        assert!(empty.contains(">no cycles</text>") && empty.contains(r#"class="empty""#));
        let full = row(&season_of("0 0 0 1 0 0 0 0 0 0").farms[2], 0);
        assert!(!full.contains("no cycles") && !full.contains("empty"));
    }
}
