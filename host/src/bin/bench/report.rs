//! The figures as a table for the documents, and as a plot.

use crate::measure::Figure;
use crate::scenes::LENGTHS;
use std::fmt::Write;

/// Figures of one kind: instructions, or nanoseconds.
pub struct Report<'a> {
    pub unit: &'a str,
    pub figures: &'a [Figure],
}

impl Report<'_> {
    fn cost(&self, name: &str, length: usize, side: &str) -> Option<f64> {
        let wanted = |figure: &&Figure| figure.name == name && figure.length == length && figure.side == side;
        self.figures.iter().find(wanted).map(|figure| figure.cost)
    }

    fn ratio(&self, name: &str, length: usize, over: &str) -> Option<f64> {
        Some(self.cost(name, length, "Proved")? / self.cost(name, length, over)?.max(1.0))
    }

    fn names(&self) -> Vec<&str> {
        let mut names: Vec<&str> = Vec::new();
        for figure in self.figures {
            if !names.contains(&figure.name.as_str()) {
                names.push(&figure.name);
            }
        }
        names
    }

    /// A row for each call and a column for each length: both costs and their ratio. The sums come last.
    pub fn table(&self) -> String {
        let mut table = format!("| {}, proved : independent = ratio |", self.unit);
        table.extend(LENGTHS.map(|length| format!(" log of {length} |")));
        table += "\n|---|--:|--:|--:|--:|\n";
        for name in self.names() {
            let costs = |length| Some((self.cost(name, length, "Proved")?, self.cost(name, length, "Independent")?));
            self.row(&mut table, name, |length| {
                let ((proved, independent), ratio) = (costs(length)?, self.ratio(name, length, "Independent")?);
                Some(format!("{proved:.0} : {independent:.0} = {ratio:.2}"))
            });
        }
        let checked = |length, side| self.cost("well-formed", length, side).map(|cost| format!("{cost:.0}"));
        self.row(&mut table, "sum of the used bytes, one by one", |length| checked(length, "Floor"));
        self.row(&mut table, "the same by words of eight", |length| checked(length, "Words"));
        self.row(&mut table, "well-formed : sum one by one", |length| {
            self.ratio("well-formed", length, "Floor").map(|ratio| format!("{ratio:.2}"))
        });
        table
    }

    fn row(&self, table: &mut String, name: &str, cell: impl Fn(usize) -> Option<String>) {
        *table += &format!("| {name} |");
        table.extend(LENGTHS.map(|length| format!(" {} |", cell(length).unwrap_or_default())));
        *table += "\n";
    }

    /// The highest ratio of the proved call to the independent one, and where it is.
    pub fn worst(&self) -> Option<(f64, &str, usize)> {
        let all = self.names().into_iter().flat_map(|name| LENGTHS.map(|length| (name, length)));
        all.filter_map(|(name, length)| Some((self.ratio(name, length, "Independent")?, name, length)))
            .max_by(|one, other| one.0.total_cmp(&other.0))
    }

    /// Two panels: how the check of a whole image grows with the log, and every call's ratio to the independent one.
    pub fn plot(&self) -> String {
        let names = self.names();
        let height = 90 + 20 * names.len().max(14);
        let mut svg = format!(
            "<svg xmlns=\"http://www.w3.org/2000/svg\" width=\"1000\" height=\"{height}\" font-family=\"sans-serif\" \
             font-size=\"12\">\n<rect width=\"100%\" height=\"100%\" fill=\"white\"/>\n"
        );
        self.growth(&mut svg, height as f64);
        self.ratios(&mut svg, &names, height as f64);
        svg + "</svg>\n"
    }

    fn growth(&self, svg: &mut String, height: f64) {
        let (left, right, top, bottom) = (70.0, 440.0, 40.0, height - 50.0);
        let sides =
            [("Proved", "proved", "#06c"), ("Independent", "independent", "#c40"), ("Floor", "sum of used bytes", "#080")];
        let at = |length: usize, side: &str| self.cost("well-formed", length, side).unwrap_or(0.0);
        let most = sides.iter().map(|(side, ..)| at(128, side)).fold(1.0, f64::max);
        let x = |length: usize| left + length as f64 / 128.0 * (right - left);
        let y = |cost: f64| bottom - cost / most * (bottom - top);
        text(svg, (left + right) / 2.0, 20.0, "middle", "#000", &format!("The check of an image ({})", self.unit));
        text(svg, (left + right) / 2.0, height - 12.0, "middle", "#000", "entries in the log");
        for quarter in 0..=4 {
            let cost = most * f64::from(quarter) / 4.0;
            line(svg, (left, y(cost)), (right, y(cost)), "#ddd");
            text(svg, left - 6.0, y(cost) + 4.0, "end", "#000", &format!("{cost:.0}"));
        }
        for length in LENGTHS {
            text(svg, x(length), bottom + 16.0, "middle", "#000", &length.to_string());
        }
        for (place, (side, shown, colour)) in sides.into_iter().enumerate() {
            for two in LENGTHS.windows(2) {
                line(svg, (x(two[0]), y(at(two[0], side))), (x(two[1]), y(at(two[1], side))), colour);
            }
            text(svg, left + 10.0, top + 14.0 + 16.0 * place as f64, "start", colour, shown);
        }
    }

    fn ratios(&self, svg: &mut String, names: &[&str], height: f64) {
        let (left, right, top, bottom) = (600.0, 970.0, 40.0, height - 50.0);
        let most = self.worst().map_or(1.0, |(ratio, ..)| ratio).max(1.2) * 1.05;
        let x = |ratio: f64| left + ratio / most * (right - left);
        let colours = ["#999", "#6ad", "#06c", "#024"];
        let title = format!("Proved : independent, each call ({})", self.unit);
        text(svg, (left + right) / 2.0, 20.0, "middle", "#000", &title);
        line(svg, (x(1.0), top - 6.0), (x(1.0), bottom), "#c40");
        text(svg, x(1.0), bottom + 16.0, "middle", "#c40", "1.0");
        text(svg, left, bottom + 16.0, "middle", "#000", "0");
        for (place, length) in LENGTHS.into_iter().enumerate() {
            let from = left + 95.0 * place as f64;
            dot(svg, from, height - 16.0, colours[place]);
            text(svg, from + 8.0, height - 12.0, "start", "#000", &format!("log of {length}"));
        }
        for (row, name) in names.iter().enumerate() {
            let y = top + 8.0 + 20.0 * row as f64;
            text(svg, left - 10.0, y + 4.0, "end", "#000", name);
            line(svg, (left, y), (right, y), "#eee");
            for (length, colour) in LENGTHS.into_iter().zip(colours) {
                if let Some(ratio) = self.ratio(name, length, "Independent") {
                    dot(svg, x(ratio), y, colour);
                }
            }
        }
    }
}

pub fn text(svg: &mut String, x: f64, y: f64, anchor: &str, colour: &str, shown: &str) {
    let _ = writeln!(svg, "<text x=\"{x:.1}\" y=\"{y:.1}\" text-anchor=\"{anchor}\" fill=\"{colour}\">{shown}</text>");
}

pub fn line(svg: &mut String, from: (f64, f64), to: (f64, f64), colour: &str) {
    let _ = writeln!(
        svg,
        "<path d=\"M{:.1} {:.1}L{:.1} {:.1}\" stroke=\"{colour}\" stroke-width=\"1.5\"/>",
        from.0, from.1, to.0, to.1
    );
}

fn dot(svg: &mut String, x: f64, y: f64, colour: &str) {
    let _ = writeln!(svg, "<circle cx=\"{x:.1}\" cy=\"{y:.1}\" r=\"4\" fill=\"{colour}\"/>");
}
