//! Lines for the terminal, and CSV for the plots and tables.
use crate::timing::Figures;
use std::fmt::Write;

/// One measurement. `section` is `calls`, `one qubit`, `growth`, `many`, `claims`, `windows`, `numbers` or `matrices`. In `many`, `claims` and
/// `numbers`, and in `windows` beside a roll, both times are ours, `theirs` that of the many elements, of the claim, of the high numbers or of the
/// window. In `windows` the `generators` are the checks inside. In `matrices` the `generators` are rows and `qubits` half of the columns.
pub struct Row {
    pub section: &'static str,
    pub name: &'static str,
    pub case: &'static str,
    pub generators: usize,
    pub qubits: usize,
    pub kind: &'static str,
    pub figures: Figures,
}

impl Row {
    fn title(&self) -> String {
        if self.case.is_empty() { self.name.into() } else { format!("{}, {}", self.name, self.case) }
    }
}

pub fn heading() {
    println!(
        "{:<40} {:>4} {:>4} {:<10} {:>12} {:>12} {:>9}  quartiles",
        "call", "gens", "qb", "kind", "ours us", "theirs us", "ratio"
    );
}

pub fn line(row: &Row) {
    let f = &row.figures;
    println!(
        "{:<40} {:>4} {:>4} {:<10} {:>12.3} {:>12.3} {:>9.2}  {:.2} to {:.2}",
        row.title(), row.generators, row.qubits, row.kind, 1e6 * f.ours, 1e6 * f.theirs, f.ratio, f.low, f.high
    );
}

/// Ours alone: what one costs in times of another.
pub fn cost(row: &Row) {
    let f = &row.figures;
    let size = format!("{} generators, {} qubits, {}", row.generators, row.qubits, row.kind);
    let times = format!("{:.3} and {:.3} us", 1e6 * f.theirs, 1e6 * f.ours);
    println!("{}, {size}: {:.2} ({:.2} to {:.2}), ours {times}", row.title(), f.ratio, f.low, f.high);
}

pub fn csv(rows: &[Row]) -> String {
    let mut text = String::from("section,call,case,generators,qubits,kind,ours_us,theirs_us,ratio,low,high\n");
    for row in rows {
        let f = &row.figures;
        let Row { section, name, case, generators, qubits, kind, .. } = row;
        let (ours, theirs) = (1e6 * f.ours, 1e6 * f.theirs);
        writeln!(
            text,
            "{section},{name},{case},{generators},{qubits},{kind},{ours:.4},{theirs:.4},{:.4},{:.4},{:.4}",
            f.ratio, f.low, f.high
        )
        .unwrap();
    }
    text
}
