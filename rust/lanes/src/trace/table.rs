//! A trace as a table: a line a step, a column a lane.

use crate::routine::Routine;
use crate::steps::{Step, Subject};
use crate::values;
use std::collections::BTreeMap;
use std::io::{self, Write};

/// The fewest columns for a statement.
const NARROWEST: usize = 14;

/// A lane that the mask leaves out.
const MASKED: &str = ". ";

/// The name of the column of what has one lane.
const SCALAR: &str = "scalar ";

/// What stands before the numbers of the lanes.
const LANE: &str = " lane";

/// What the signs in the cells mean.
const SIGNS: [&str; 3] = [
    ".  the mask leaves this lane out",
    "*  written",
    "=  written with the value it had",
];

/// What the numbers mean where many lanes stand on several lines.
const NUMBERED: [&str; 2] = [
    "[16]  the line begins with lane 16",
    "+3  the third lane after its first",
];

/// What is shown beside each step of another run: by step.
pub type Beside = (String, BTreeMap<u32, String>);

/// A line of the table.
struct Row {
    step: String,
    at: String,
    statement: String,
    /// What has one lane.
    one: String,
    /// What stands before the lanes.
    label: String,
    /// The lanes of what the step is about.
    lanes: Vec<String>,
    /// What stands before the lanes of each variable that is watched.
    names: Vec<String>,
    /// The lanes of the variables that are watched.
    watched: Vec<Vec<String>>,
    beside: String,
}

/// A table that is being made.
pub struct Table<'a> {
    routine: &'a Routine,
    watched: Vec<usize>,
    beside: Option<Beside>,
    width: usize,
    rows: Vec<Row>,
    /// Whether a part that is written had lines with numbers.
    numbered: bool,
}

/// How wide the columns are, and how many lanes stand on a line.
struct Layout {
    step: usize,
    at: usize,
    statement: usize,
    /// The column of what has one lane; 0 where there is none.
    one: usize,
    lane: usize,
    /// The variables that are watched.
    watched: Vec<Group>,
    beside: usize,
    lanes: usize,
    most: usize,
    /// Whether each line of lanes has the number of its first.
    numbered: bool,
}

/// The columns of a variable that is watched.
struct Group {
    /// How wide its name is.
    name: usize,
    /// How wide a lane is.
    lane: usize,
    /// How many lanes it has.
    length: usize,
}

impl<'a> Table<'a> {
    /// A table without rows.
    pub fn new(
        routine: &'a Routine,
        watched: Vec<usize>,
        beside: Option<Beside>,
        width: usize,
    ) -> Self {
        Table {
            routine,
            watched,
            beside,
            width,
            rows: Vec::new(),
            numbered: false,
        }
    }

    /// How many rows it has.
    pub fn rows(&self) -> usize {
        self.rows.len()
    }

    /// One more step.
    pub fn add(&mut self, step: &Step) {
        let source = &self.routine.source;
        let cells = cells(self.routine, step);
        let single = cells.len() == 1 && step.subject != Subject::Nothing;
        let (one, lanes) = match single {
            true => (cells[0].clone(), mask_cells(step)),
            false => (String::new(), cells),
        };
        let beside = self.beside.as_ref();
        let beside = beside.and_then(|(_, beside)| beside.get(&step.number).cloned());
        let watched = self.watched.iter();
        let watched = watched.map(|variable| watched_cells(self.routine, *variable, step));
        let row = Row {
            step: step.number.to_string(),
            at: source.position(step.head.start).to_string(),
            statement: source.shown(step.head.clone()),
            one,
            label: String::new(),
            lanes,
            names: Vec::new(),
            watched: watched.collect(),
            beside: beside.unwrap_or_default(),
        };
        self.rows.push(row);
    }

    /// Writes the rows so far, if there are any, and forgets them.
    pub fn write(&mut self, out: &mut dyn Write) -> io::Result<()> {
        if self.rows.is_empty() {
            return Ok(());
        }
        let layout = self.layout();
        self.numbered |= layout.numbered;
        self.write_head(&layout, out)?;
        for row in &self.rows {
            row.write(&layout, out)?;
        }
        self.rows.clear();
        Ok(())
    }

    /// Writes what the signs in the cells mean, and the numbers where there are any.
    pub fn write_signs(&self, out: &mut dyn Write) -> io::Result<()> {
        writeln!(out)?;
        self.write_meanings(&SIGNS, out)?;
        match self.numbered {
            true => self.write_meanings(&NUMBERED, out),
            false => Ok(()),
        }
    }

    /// Writes what some signs mean, on one line where it fits.
    fn write_meanings(&self, meanings: &[&str], out: &mut dyn Write) -> io::Result<()> {
        let line = meanings.join("   ");
        match line.len() + 2 <= self.width {
            true => writeln!(out, "  {line}"),
            false => writeln!(out, "  {}", meanings.join("\n  ")),
        }
    }

    /// The widths that the rows need, within the width that there is.
    fn layout(&self) -> Layout {
        let widest = |cell: &dyn Fn(&Row) -> usize| self.rows.iter().map(cell).max().unwrap_or(0);
        let cells = |cells: &[String]| cells.iter().map(String::len).max().unwrap_or(0);
        let watched = self.watched.iter().enumerate().map(|(number, variable)| {
            let variable = &self.routine.variables[*variable];
            Group {
                name: variable.name.len(),
                lane: widest(&|row| cells(&row.watched[number])).max(3),
                length: variable.length,
            }
        });
        let beside = self.beside.as_ref().map_or(0, |(head, _)| head.len());
        let longest = |row: &Row| row.watched.iter().map(Vec::len).max().unwrap_or(0);
        let most = widest(&|row| row.lanes.len().max(longest(row)));
        let one = widest(&|row| row.one.len());
        let mut layout = Layout {
            step: widest(&|row| row.step.len()).max(4),
            at: widest(&|row| row.at.len()),
            statement: widest(&|row| row.statement.chars().count()).max(9),
            one: if one > 0 { one.max(SCALAR.len()) } else { 0 },
            lane: widest(&|row| cells(&row.lanes)).max(3),
            watched: watched.collect(),
            beside: widest(&|row| row.beside.len()).max(beside),
            lanes: most.max(1),
            most,
            numbered: false,
        };
        let wanted = layout.statement.min(NARROWEST);
        while layout.lanes > 1 && layout.room(self.width) < wanted {
            layout.lanes = (layout.lanes + 1) / 2;
        }
        let room = layout.room(self.width);
        layout.statement = layout.statement.min(room.max(wanted));
        layout.numbered = most > values::COUNTED && layout.lanes < most;
        layout
    }

    /// Writes the names of the columns.
    fn write_head(&self, layout: &Layout, out: &mut dyn Write) -> io::Result<()> {
        let numbers = |length: usize| -> Vec<String> {
            let behind = 0..length.min(layout.lanes);
            match layout.numbered {
                true => behind.map(|lane| format!("+{lane} ")).collect(),
                false => (0..length).map(|lane| format!("{lane} ")).collect(),
            }
        };
        let groups = self.watched.iter().map(|variable| {
            let length = self.routine.variables[*variable].length;
            if length == 1 {
                vec![String::new()]
            } else {
                numbers(length)
            }
        });
        let lanes = self.rows.iter().map(|row| row.lanes.len()).max();
        let row = Row {
            step: "step".into(),
            at: "at".into(),
            statement: "statement".into(),
            one: if layout.one > 0 {
                SCALAR.into()
            } else {
                String::new()
            },
            label: LANE.into(),
            lanes: numbers(lanes.unwrap_or(0)),
            names: self
                .watched
                .iter()
                .map(|v| self.routine.variables[*v].name.clone())
                .collect(),
            watched: groups.collect(),
            beside: self
                .beside
                .as_ref()
                .map_or(String::new(), |(head, _)| head.clone()),
        };
        row.write(layout, out)
    }
}

impl Layout {
    /// How many columns are left for the statement.
    fn room(&self, width: usize) -> usize {
        let one = if self.one > 0 { self.one + 1 } else { 0 };
        let beside = if self.beside > 0 { self.beside + 3 } else { 0 };
        let lanes = self.lanes * (self.lane + 1);
        let watched = self.watched.iter();
        let watched: usize = watched
            .map(|group| 3 + group.name + self.cells(group) * (group.lane + 1))
            .sum();
        let taken = self.step + self.at + 4 + one + LANE.len() + lanes + watched + beside;
        width.saturating_sub(taken)
    }

    /// How many lanes of a variable that is watched have a column; beside many lanes it has no more
    /// than its own.
    fn cells(&self, group: &Group) -> usize {
        match self.most > values::COUNTED {
            true => self.lanes.min(group.length),
            false => self.lanes,
        }
    }
}

impl Row {
    /// Writes the row, on as many lines as the lanes take.
    fn write(&self, layout: &Layout, out: &mut dyn Write) -> io::Result<()> {
        let lines = (layout.most + layout.lanes - 1) / layout.lanes;
        for line in 0..lines.max(1) {
            let lanes = line * layout.lanes..(line + 1) * layout.lanes;
            if line > 0 && layout.numbered && !self.has(lanes.start) {
                break;
            }
            let text = self.line(line == 0, lanes, layout);
            if line == 0 || text.chars().any(|character| !" |".contains(character)) {
                writeln!(out, "{}", text.trim_end())?;
            }
        }
        Ok(())
    }

    /// Whether something of several lanes has this one.
    fn has(&self, lane: usize) -> bool {
        let mut watched = self.watched.iter();
        let in_watched = watched.any(|cells| cells.len() > lane.max(1));
        in_watched || self.lanes.len() > lane
    }

    /// What stands before these lanes.
    fn label(&self, lanes: &std::ops::Range<usize>, layout: &Layout) -> String {
        match lanes.start {
            0 if !self.label.is_empty() => self.label.clone(),
            start if layout.numbered && self.has(start) => format!("[{start}]"),
            _ => String::new(),
        }
    }

    /// One line of the row, with these lanes; the first has all that is not a lane.
    fn line(&self, first: bool, lanes: std::ops::Range<usize>, layout: &Layout) -> String {
        let once = |text: &str| {
            if first {
                text.to_string()
            } else {
                String::new()
            }
        };
        let (step, at) = (once(&self.step), once(&self.at));
        let mut text = format!("{step:>0$}  {at:>1$}  ", layout.step, layout.at);
        text.push_str(&fitted(&once(&self.statement), layout.statement));
        if layout.one > 0 {
            text.push_str(&format!(" {:>1$}", once(&self.one), layout.one));
        }
        text.push_str(&format!("{:>1$}", self.label(&lanes, layout), LANE.len()));
        text.push_str(&group(&self.lanes, lanes.clone(), layout.lane));
        let watched = self.watched.iter().zip(&layout.watched).enumerate();
        for (number, (cells, columns)) in watched {
            let shown = self
                .names
                .get(number)
                .map_or(String::new(), |name| once(name));
            let name = columns.name;
            text.push_str(&format!(" | {shown:name$}"));
            let lanes = lanes.start..lanes.start + layout.cells(columns);
            text.push_str(&group(cells, lanes, columns.lane));
        }
        if layout.beside > 0 {
            text.push_str(&format!(" | {}", once(&self.beside)));
        }
        text
    }
}

/// These lanes, each in its column.
fn group(cells: &[String], lanes: std::ops::Range<usize>, width: usize) -> String {
    let cells = lanes.map(|lane| cells.get(lane).map_or("", |cell| &cell[..]));
    cells.map(|cell| format!(" {cell:>width$}")).collect()
}

/// A text in so many columns, cut where it is longer.
fn fitted(text: &str, width: usize) -> String {
    match text.chars().count() {
        length if length > width => {
            let start: String = text.chars().take(width.saturating_sub(3)).collect();
            format!("{start}...")
        }
        length => format!("{text}{}", " ".repeat(width - length)),
    }
}

/// The mask alone: a bar for a lane that is active; nothing where there is one lane.
fn mask_cells(step: &Step) -> Vec<String> {
    let length = step.mask.length;
    let cell = |lane| match step.active(length, lane) {
        true => "- ".to_string(),
        false => MASKED.to_string(),
    };
    match length {
        1 => Vec::new(),
        _ => (0..length).map(cell).collect(),
    }
}

/// What a step does in each lane, a sign behind each value.
pub fn cells(routine: &Routine, step: &Step) -> Vec<String> {
    let (length, cell): (usize, Box<dyn Fn(usize) -> String>) = match &step.subject {
        Subject::Nothing => return mask_cells(step),
        Subject::Tested(lanes) => {
            let word = move |lane: usize| if lanes[lane] { "yes " } else { "no " }.to_string();
            (lanes.len(), Box::new(word))
        }
        Subject::Kept(variable) | Subject::Written(variable) => {
            let variable = *variable;
            let value = move |lane| value_cell(routine, variable, lane, step);
            (routine.variables[variable].length, Box::new(value))
        }
    };
    let cell = |lane| match step.active(length, lane) {
        true => cell(lane),
        false => MASKED.to_string(),
    };
    (0..length).map(cell).collect()
}

/// One lane's value after the step, and a sign where it was written.
fn value_cell(routine: &Routine, variable: usize, lane: usize, step: &Step) -> String {
    let of = &routine.variables[variable];
    let (before, after) = (&step.before[of.lane(lane)], &step.after[of.lane(lane)]);
    let sign = match step.writes(routine, variable, lane) {
        true if before == after => '=',
        true => '*',
        false => ' ',
    };
    format!("{}{sign}", values::shown(of.kind, after))
}

/// All lanes of a variable after the step.
fn watched_cells(routine: &Routine, variable: usize, step: &Step) -> Vec<String> {
    let length = routine.variables[variable].length;
    let cells = (0..length).map(|lane| value_cell(routine, variable, lane, step));
    cells.collect()
}
