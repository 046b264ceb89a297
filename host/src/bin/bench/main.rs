//! What each call costs: the proved controller, the independent one on the same image, and a sum of the used bytes.
//!
//! - `bench times ROUNDS`: nanoseconds, as lines of figures
//! - `bench marks`: makes each call once between marks, under an instruction counter that notes its count at each
//! - `bench counts NOTES`: the figures from the counter's notes
//! - `bench table UNIT FIGURES`, `bench plot UNIT FIGURES`: what is shown of such lines
//!
//! The same of nights, `bench nights times ROUNDS` and so on, and of imports, without a plot.

mod imports;
mod measure;
mod night_report;
mod nights;
mod report;
mod scenes;

use imports::{imports, Import};
use measure::Figure;
use night_report::NightReport;
use nights::{nights, Night};
use report::Report;
use scenes::{scenes, Scene, LENGTHS};
use std::fs;

fn every_scene() -> impl Iterator<Item = Scene> {
    LENGTHS.into_iter().flat_map(scenes)
}

fn every_night() -> impl Iterator<Item = Night> {
    nights::LENGTHS.into_iter().flat_map(nights)
}

fn every_import() -> impl Iterator<Item = Import> {
    imports::LENGTHS.into_iter().flat_map(imports)
}

fn print_lines(figures: &[Figure]) {
    for figure in figures {
        println!("{}", figure.line());
    }
}

fn read_figures(file: &str) -> Vec<Figure> {
    let text = fs::read_to_string(file).expect(file);
    text.lines().map(|line| Figure::read(line).expect(line)).collect()
}

fn read_notes(file: &str) -> impl Iterator<Item = u64> {
    let text = fs::read_to_string(file).expect(file);
    text.lines().map(|line| line.parse().expect(line)).collect::<Vec<_>>().into_iter()
}

fn number(rounds: &str) -> usize {
    rounds.parse().expect("a number of rounds")
}

const TWO_NOTES: &str = "two notes for each side of each call";

/// Answers whether the arguments are some of these.
fn of_calls(arguments: &[&str]) -> bool {
    match *arguments {
        ["times", rounds] => every_scene().for_each(|scene| {
            scene.check();
            print_lines(&measure::times(&scene, number(rounds)));
        }),
        ["marks"] => every_scene().for_each(|scene| {
            scene.check();
            measure::marked(&scene);
        }),
        ["counts", file] => {
            let mut notes = read_notes(file);
            every_scene().for_each(|scene| print_lines(&measure::counted(&scene, &mut notes).expect(TWO_NOTES)));
            assert!(notes.next().is_none(), "more notes than calls");
        }
        ["table", unit, file] => {
            let figures = read_figures(file);
            let report = Report { unit, figures: &figures };
            print!("{}", report.table());
            if let Some((ratio, name, length)) = report.worst() {
                println!("\nHighest ratio to the independent controller: {ratio:.2} ({name}, log of {length}).");
            }
        }
        ["plot", unit, file] => print!("{}", Report { unit, figures: &read_figures(file) }.plot()),
        _ => return false,
    }
    true
}

/// The same of nights.
fn of_nights(arguments: &[&str]) -> bool {
    match *arguments {
        ["nights", "times", rounds] => every_night().for_each(|night| {
            print_lines(&[night.check()]);
            print_lines(&measure::times(&night, number(rounds)));
        }),
        ["nights", "marks"] => every_night().for_each(|night| measure::marked(&night)),
        ["nights", "counts", file] => {
            let mut notes = read_notes(file);
            every_night().for_each(|night| {
                print_lines(&[night.check()]);
                print_lines(&measure::counted(&night, &mut notes).expect(TWO_NOTES));
            });
            assert!(notes.next().is_none(), "more notes than nights");
        }
        ["nights", "table", unit, file] => print!("{}", NightReport { unit, figures: &read_figures(file) }.table()),
        ["nights", "plot", unit, file] => print!("{}", NightReport { unit, figures: &read_figures(file) }.plot()),
        _ => return false,
    }
    true
}

/// The same of imports.
fn of_imports(arguments: &[&str]) -> bool {
    match *arguments {
        ["imports", "times", rounds] => every_import().for_each(|import| {
            print_lines(&[import.check()]);
            print_lines(&measure::times(&import, number(rounds)));
        }),
        ["imports", "marks"] => every_import().for_each(|import| measure::marked(&import)),
        ["imports", "counts", file] => {
            let mut notes = read_notes(file);
            every_import().for_each(|import| {
                print_lines(&[import.check()]);
                print_lines(&measure::counted(&import, &mut notes).expect(TWO_NOTES));
            });
            assert!(notes.next().is_none(), "more notes than imports");
        }
        ["imports", "table", unit, file] => print!("{}", imports::table(unit, &read_figures(file))),
        _ => return false,
    }
    true
}

fn main() {
    let arguments: Vec<String> = std::env::args().skip(1).collect();
    let arguments: Vec<&str> = arguments.iter().map(String::as_str).collect();
    if !of_calls(&arguments) && !of_nights(&arguments) && !of_imports(&arguments) {
        eprintln!("usage: bench [nights | imports] times ROUNDS | marks | counts NOTES | table UNIT FIGURES | plot UNIT FIGURES");
        std::process::exit(2);
    }
}
