//! The table: a line for each row, with a figure of each side and what ours is to the others'.

/// The sides in the order of the columns.
pub const SIDES: [&str; 3] = ["ours", "twin", "C"];

/// What each side costs, where all of them have the row.
pub type Figures = [f64; SIDES.len()];

/// What each side costs, where that side has the row and it was measured.
pub type Costs = [Option<f64>; SIDES.len()];

pub fn head() {
    println!("{:36}|{:^46}|{:^46}", "", "ns", "x86-64 instructions");
    let columns = format!("{:>8} {:>8} {:>8} {:>10} {:>8}", "ours", "twin", "C", "ours/twin", "ours/C");
    print("", [columns.clone(), columns]);
}

pub fn line(name: &str, times: Costs, instructions: Costs) {
    print(name, [times, instructions].map(|costs| columns(costs, ratios(costs))));
}

/// A line of savings. It has no ratios: more is better there, and a side may save nothing.
pub fn saved(name: &str, times: Costs, instructions: Costs) {
    print(name, [times, instructions].map(|costs| columns(costs, [None; 2])));
}

fn print(name: &str, [times, instructions]: [String; 2]) {
    println!("{name:36}|{times}|{instructions}");
}

fn columns(costs: Costs, ratios: [Option<f64>; 2]) -> String {
    let [ours, twin, plain] = costs.map(|cost| cell(cost, if cost < Some(100.0) { 1 } else { 0 }));
    let [to_twin, to_plain] = ratios.map(|ratio| cell(ratio, 2));
    format!("{ours:>8} {twin:>8} {plain:>8} {to_twin:>10} {to_plain:>8}")
}

/// What ours is to each of the others.
fn ratios([ours, twin, plain]: Costs) -> [Option<f64>; 2] {
    [twin, plain].map(|other| Some(ours? / other?))
}

fn cell(figure: Option<f64>, digits: usize) -> String {
    figure.map_or("-".to_string(), |figure| format!("{figure:.digits$}"))
}

/// What one more of something costs: the slope of the line that fits best, by how many there were.
pub fn slope(points: &[(f64, Figures)]) -> Costs {
    std::array::from_fn(|side| {
        let points: Vec<(f64, f64)> = points.iter().map(|(n, figures)| (*n, figures[side])).collect();
        least_squares(&points)
    })
}

fn least_squares(points: &[(f64, f64)]) -> Option<f64> {
    let mean = |of: fn(&(f64, f64)) -> f64| points.iter().map(of).sum::<f64>() / points.len() as f64;
    let (x, y) = (mean(|p| p.0), mean(|p| p.1));
    let up: f64 = points.iter().map(|p| (p.0 - x) * (p.1 - y)).sum();
    let across: f64 = points.iter().map(|p| (p.0 - x) * (p.0 - x)).sum();
    (across > 0.0).then_some(up / across)
}

/// What both cost.
pub fn both(first: Figures, second: Figures) -> Figures {
    std::array::from_fn(|side| first[side] + second[side])
}

/// What the second costs less than the first.
pub fn less(first: Figures, second: Figures) -> Figures {
    std::array::from_fn(|side| first[side] - second[side])
}

/// The lesser of each two figures.
pub fn least<const N: usize>(a: [f64; N], b: [f64; N]) -> [f64; N] {
    std::array::from_fn(|i| a[i].min(b[i]))
}
