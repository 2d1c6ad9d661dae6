//! The lines of `report`, read: a season's counts.

/// Farms of a station.
const FARMS: usize = twin::AXES;

/// The states, in the order in which `report` counts them.
pub const STATES: [u8; 6] = [1, 2, 3, 4, 51, 52];

/// What was counted for one farm.
#[derive(Clone, Debug, PartialEq, Eq)]
pub struct Farm {
    /// Its number, from 1.
    pub number: usize,
    /// Its cycles by the state in which they ended, in the order of `STATES`.
    pub cycles: [u64; STATES.len()],
    /// Its entries into S4.
    pub starts: u64,
    /// Its acknowledged fault situations.
    pub faults: u64,
    /// Its frames that were denied with number 11.
    pub denials: u64,
    /// The elements stored for it.
    pub stored: u64,
}

impl Farm {
    /// All its cycles. Six counts below 2^64 may have a sum above it.
    pub fn all_cycles(&self) -> u128 {
        self.cycles.iter().map(|count| u128::from(*count)).sum()
    }

    /// Its cycles that ended in a state.
    pub fn cycles_in(&self, code: u8) -> u64 {
        let counted = STATES.iter().position(|state| *state == code);
        counted.map_or(0, |at| self.cycles[at])
    }
}

/// Why a count ended before its journal did.
#[derive(Clone, Copy, Debug, PartialEq, Eq)]
pub enum Cut {
    /// A record was bad.
    Bad,
    /// A count would have reached 2^64.
    Full,
}

/// What was counted in a season.
#[derive(Debug, PartialEq, Eq)]
pub struct Season {
    /// The farms in their order.
    pub farms: Vec<Farm>,
    /// Why it is not the whole season, if it is not.
    pub cut: Option<Cut>,
}

impl Season {
    /// Reads the lines: one for each farm, and one more where the count was cut.
    pub fn read(counts: &[u8]) -> Result<Season, String> {
        let text = std::str::from_utf8(counts).map_err(|_| "standard input is no text".to_string())?;
        let mut lines = text.lines();
        let farms: Result<_, _> = (1..=FARMS).map(|number| farm(number, lines.next())).collect();
        let farms = farms?;
        let cut = match lines.next() {
            None => None,
            Some("bad") => Some(Cut::Bad),
            Some("x 13") => Some(Cut::Full),
            Some(_) => return Err(wrong(FARMS + 1)),
        };
        lines.next().map_or(Ok(Season { farms, cut }), |_| Err(wrong(FARMS + 2)))
    }
}

/// Reads the line of a farm, which is as many lines down as its number says.
fn farm(number: usize, line: Option<&str>) -> Result<Farm, String> {
    let line = line.ok_or_else(|| format!("'report' has {FARMS} lines, standard input has {}", number - 1))?;
    let counts = line.strip_prefix(&format!("r {number} ")).and_then(counts_of);
    let [s1, s2, s3, s4, s51, s52, starts, faults, denials, stored] = counts.ok_or_else(|| wrong(number))?;
    Ok(Farm { number, cycles: [s1, s2, s3, s4, s51, s52], starts, faults, denials, stored })
}

/// Ten counts, written as `report` writes them.
fn counts_of(words: &str) -> Option<[u64; 10]> {
    let count = |word: &str| word.parse::<u64>().ok().filter(|count| count.to_string() == word);
    let counts: Option<Vec<u64>> = words.split(' ').map(count).collect();
    counts?.try_into().ok()
}

fn wrong(line: usize) -> String {
    format!("line {line} of standard input is none of 'report'")
}

#[cfg(test)]
pub(super) mod tests {
    use super::*;

    /// The lines of a season in which every farm has the same counts.
    pub fn lines_of(counts: &str) -> String {
        (1..=FARMS).map(|number| format!("r {number} {counts}\n")).collect()
    }

    /// Such a season.
    pub fn season_of(counts: &str) -> Season {
        Season::read(lines_of(counts).as_bytes()).expect("sixteen lines")
    }

    /// The worked journal's counts.
    pub fn worked() -> Season {
        Season::read(include_bytes!("../../../crates/report/stdout")).expect("what report prints")
    }

    #[test]
    fn the_worked_counts() {
        let season = worked();
        let first = Farm { number: 1, cycles: [1, 1, 1, 1, 0, 0], starts: 1, faults: 0, denials: 0, stored: 0 };
        assert_eq!((season.farms.len(), season.cut, &season.farms[0]), (16, None, &first));
        assert_eq!((season.farms[1].denials, season.farms[1].all_cycles()), (1, 0));
    }

    #[test]
    fn every_count_has_its_place() {
        let farm = season_of("1 2 3 4 5 6 7 8 9 10").farms.remove(15);
        assert_eq!(STATES.map(|code| farm.cycles_in(code)), [1, 2, 3, 4, 5, 6]);
        assert_eq!((farm.number, farm.starts, farm.faults, farm.denials, farm.stored), (16, 7, 8, 9, 10));
        assert_eq!((farm.all_cycles(), farm.cycles_in(5)), (21, 0));
    }

    #[test]
    fn sums_above_all_counts() {
        let most = u64::MAX;
        let farm = season_of(&format!("{most} {most} {most} {most} {most} {most} 0 0 0 0")).farms.remove(0);
        assert_eq!(farm.all_cycles(), 6 * u128::from(most));
    }

    #[test]
    fn what_cuts_a_count() {
        let cut =
            |last: &str| Season::read((lines_of("0 0 0 0 0 0 0 0 0 0") + last).as_bytes()).map(|season| season.cut);
        assert_eq!(cut(""), Ok(None));
        assert_eq!((cut("bad\n"), cut("x 13")), (Ok(Some(Cut::Bad)), Ok(Some(Cut::Full))));
        assert_eq!(cut("x 14"), Err(wrong(17)));
        assert_eq!(cut("\n"), Err(wrong(17)));
        assert_eq!(cut("bad\nbad\n"), Err(wrong(18)));
    }

    #[test]
    fn what_is_no_line_of_report() {
        let of = |line: &str| Season::read(line.as_bytes()).expect_err(line);
        for line in [
            "r 1 1 1 1 1 0 0 1 0 0",
            "r 1 1 1 1 1 0 0 1 0 0 0 0",
            "r 1 1 1 1 1 0 0 1 0 0 18446744073709551616",
            "r 1 +1 1 1 1 0 0 1 0 0 0",
            "r 1 01 1 1 1 0 0 1 0 0 0",
            "r 1  1 1 1 1 0 0 1 0 0 0",
            "r 1 1 1 1 1 0 0 1 0 0 0 ",
            "r 2 1 1 1 1 0 0 1 0 0 0",
            "r 1 1 1 1 1 0 0 1 0 0 -1",
            "bad",
            "\n",
        ] {
            assert_eq!(of(line), "line 1 of standard input is none of 'report'", "{line}");
        }
        assert_eq!(of(""), "'report' has 16 lines, standard input has 0");
        assert_eq!(of("r 1 1 1 1 1 0 0 1 0 0 0\n"), "'report' has 16 lines, standard input has 1");
        assert_eq!(Season::read(b"r 1 \xFF").expect_err("no text"), "standard input is no text");
    }
}
