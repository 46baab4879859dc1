//! The strip of cuts as a picture: a cell for each cut, coloured by outcome, with the stages below.

use super::report::{Cut, Report};

const LEFT: f64 = 20.0;
const WIDTH: f64 = 960.0;
const WIDEST_CELL: f64 = 48.0;
/// The least width of a stage, so that its label has room.
const LEAST_STAGE: f64 = 28.0;
/// The most cells of a stage.
const CROWD: usize = 400;
const STRIP: f64 = 44.0;
const ROW: f64 = 130.0;

/// Colours that a colour-blind reader tells apart, and their meanings.
const LEGEND: [(&str, &str); 4] = [
    ("#7f9fc4", "old: as before the operation"),
    ("#f0b429", "new: as after it"),
    ("#b3123c", "mismatch"),
    ("#b9bec4", "BOOT: to be formatted again"),
];

fn outcome(cut: &Cut) -> usize {
    match cut {
        Cut { mismatch: 1.., .. } => 2,
        Cut { refused: 1.., .. } => 3,
        Cut { new: 1.., .. } => 1,
        _ => 0,
    }
}

pub fn draw(reports: &[Report]) -> String {
    let height = ROW * reports.len() as f64 + 50.0;
    let mut svg = format!(
        "<svg xmlns=\"http://www.w3.org/2000/svg\" width=\"1000\" height=\"{height}\" \
         viewBox=\"0 0 1000 {height}\" font-family=\"sans-serif\" font-size=\"13\">\n\
         <rect width=\"1000\" height=\"{height}\" fill=\"white\"/>\n"
    );
    for (index, report) in reports.iter().enumerate() {
        svg += &strip(report, ROW * index as f64 + 30.0);
    }
    let y = height - 30.0;
    // The last is found of formats only.
    let cuts = || reports.iter().flat_map(|report| &report.cuts);
    let shown = match cuts().any(|cut| cut.refused > 0) {
        true => LEGEND.len(),
        false => LEGEND.len() - 1,
    };
    for (index, (colour, words)) in LEGEND[..shown].iter().enumerate() {
        let x = LEFT + 900.0 / shown as f64 * index as f64;
        svg += &format!(
            "<rect x=\"{x}\" y=\"{y}\" width=\"14\" height=\"14\" fill=\"{colour}\"/>\n\
             <text x=\"{}\" y=\"{}\">{words}</text>\n",
            x + 20.0,
            y + 12.0
        );
    }
    svg + "</svg>\n"
}

/// A title, a cell for each cut and a label for each stage.
fn strip(report: &Report, y: f64) -> String {
    let stages: Vec<&[Cut]> = report.cuts.chunk_by(|a, b| a.last == b.last).collect();
    let room = WIDTH - LEAST_STAGE * stages.len() as f64;
    let widest = (room / report.cuts.len() as f64).min(WIDEST_CELL);
    let mut svg = format!(
        "<text x=\"{LEFT}\" y=\"{y}\" font-weight=\"bold\">{}</text>\n",
        report.title().replace('&', "&amp;")
    );
    let top = y + 12.0;
    let base = top + STRIP;
    let mut x = LEFT;
    for cuts in stages {
        let width = (widest * cuts.len() as f64).max(LEAST_STAGE);
        svg += &cells(cuts, x, top, width / cuts.len() as f64);
        svg += &format!(
            "<line x1=\"{x:.2}\" y1=\"{base}\" x2=\"{x:.2}\" y2=\"{}\" stroke=\"black\"/>\n\
             <text transform=\"translate({:.2} {}) rotate(25)\" font-size=\"11\">{}</text>\n",
            base + 8.0,
            x + 3.0,
            base + 14.0,
            cuts[0].stage()
        );
        x += width;
    }
    svg
}

/// The cells of one stage. Where there are very many, neighbours of one outcome share a cell.
fn cells(cuts: &[Cut], left: f64, top: f64, width: f64) -> String {
    let gap = if width > 4.0 { 1.0 } else { 0.0 };
    let is_crowded = cuts.len() > CROWD;
    let mut svg = String::new();
    let mut x = left;
    for cell in cuts.chunk_by(|a, b| is_crowded && outcome(a) == outcome(b)) {
        let sum = |of: fn(&Cut) -> usize| cell.iter().map(of).sum::<usize>();
        svg += &format!(
            "<rect x=\"{x:.2}\" y=\"{top}\" width=\"{:.2}\" height=\"{STRIP}\" fill=\"{}\">\
             <title>cut after {} to {} stores, the last: {}; {} old, {}{} new, {} mismatch</title></rect>\n",
            width * cell.len() as f64 - gap,
            LEGEND[outcome(&cell[0])].0,
            cell[0].made,
            cell[cell.len() - 1].made,
            cell[0].stage(),
            sum(|cut| cut.old),
            match sum(|cut| cut.refused) {
                0 => String::new(),
                count => format!("{count} BOOT, "),
            },
            sum(|cut| cut.new),
            sum(|cut| cut.mismatch)
        );
        x += width * cell.len() as f64;
    }
    svg
}
