//! What the nights cost, as a table for the documents, and as a plot.

use crate::measure::Figure;
use crate::nights::LENGTHS;
use crate::report::{line, text};

/// Figures of one kind: instructions, or nanoseconds.
pub struct NightReport<'a> {
    pub unit: &'a str,
    pub figures: &'a [Figure],
}

impl NightReport<'_> {
    fn cost(&self, name: &str, length: usize, side: &str) -> f64 {
        let wanted = |figure: &&Figure| figure.name == name && figure.length == length && figure.side == side;
        self.figures.iter().find(wanted).map_or(0.0, |figure| figure.cost)
    }

    fn names(&self) -> Vec<&str> {
        self.figures
            .iter()
            .filter(|figure| figure.side == "Jobs" && figure.length == LENGTHS[0])
            .map(|figure| figure.name.as_str())
            .collect()
    }

    /// The ratio to the faster of the two on typed memory.
    fn ratio(&self, name: &str, length: usize) -> f64 {
        let peer = |side: &str| self.cost(name, length, side);
        peer("Proved") / peer("AsRead").min(peer("Skipping")).max(1.0)
    }

    /// A row for each night and length.
    pub fn table(&self) -> String {
        let mut table = format!(
            "| {} | kept | jobs | proved | typed, as the order reads | typed, with the shortcut | to the faster of the two | \
             checked and decoded | to it |\n|---|--:|--:|--:|--:|--:|--:|--:|--:|\n",
            self.unit
        );
        for name in self.names() {
            table.extend(LENGTHS.map(|length| self.row(name, length)));
        }
        table
    }

    fn row(&self, name: &str, length: usize) -> String {
        let [jobs, proved, as_read, skipping, decoded] =
            ["Jobs", "Proved", "AsRead", "Skipping", "Decoded"].map(|side| self.cost(name, length, side));
        let (faster, checked) = (self.ratio(name, length), proved / decoded.max(1.0));
        format!(
            "| {name} | {length} | {jobs:.0} | {proved:.0} | {as_read:.0} | {skipping:.0} | {faster:.2} | {decoded:.0} | \
             {checked:.2} |\n"
        )
    }

    /// A panel for each of two nights: how each side's cost grows with the number of kept changes.
    pub fn plot(&self) -> String {
        let mut svg = String::from(
            "<svg xmlns=\"http://www.w3.org/2000/svg\" width=\"1000\" height=\"400\" font-family=\"sans-serif\" \
             font-size=\"12\">\n<rect width=\"100%\" height=\"100%\" fill=\"white\"/>\n",
        );
        self.growth(&mut svg, 90.0, "waiting, 4 pairs");
        self.growth(&mut svg, 590.0, "applied, all asked to be rolled back");
        svg + "</svg>\n"
    }

    fn growth(&self, svg: &mut String, left: f64, name: &str) {
        let (right, top, bottom) = (left + 380.0, 40.0, 350.0);
        let sides = [
            ("Proved", "proved", "#06c"),
            ("AsRead", "typed, as the order reads", "#c40"),
            ("Skipping", "typed, with the shortcut", "#080"),
        ];
        let most = sides.iter().map(|(side, ..)| self.cost(name, 128, side)).fold(1.0, f64::max);
        let x = |length: usize| left + length as f64 / 128.0 * (right - left);
        let y = |cost: f64| bottom - cost / most * (bottom - top);
        text(svg, (left + right) / 2.0, 20.0, "middle", "#000", &format!("{name} ({})", self.unit));
        text(svg, (left + right) / 2.0, 388.0, "middle", "#000", "kept changes");
        for quarter in 0..=4 {
            let cost = most * f64::from(quarter) / 4.0;
            line(svg, (left, y(cost)), (right, y(cost)), "#ddd");
            text(svg, left - 6.0, y(cost) + 4.0, "end", "#000", &format!("{cost:.0}"));
        }
        for length in LENGTHS {
            text(svg, x(length), bottom + 16.0, "middle", "#000", &length.to_string());
        }
        for (place, (side, shown, colour)) in sides.into_iter().enumerate() {
            for two in LENGTHS.windows(2) {
                let at = |length: usize| (x(length), y(self.cost(name, length, side)));
                line(svg, at(two[0]), at(two[1]), colour);
            }
            text(svg, left + 10.0, top + 14.0 + 16.0 * place as f64, "start", colour, shown);
        }
    }
}
