//! Tables as they are printed.

use crate::contenders::{better, Each, TUNED};
use crate::loads::Load;

#[derive(Clone, Copy)]
pub enum Form {
    Text,
    Markdown,
}

impl Form {
    /// The tuned peers' numbers; the better stands out.
    pub fn tuned(self, numbers: &Each<f64>) -> Vec<String> {
        let better = better(numbers);
        let shown = |it: usize| match self {
            _ if it != better => format!("{:.1}", numbers[it]),
            Form::Text => format!("*{:.1}", numbers[it]),
            Form::Markdown => format!("**{:.1}**", numbers[it]),
        };
        TUNED.map(shown).to_vec()
    }

    /// The names of a table's columns behind the first, which has the group's name; a row for each load.
    pub fn print(self, columns: &[&str], loads: &[Load], cells: &[Vec<String>]) {
        let rows: Vec<(&Load, &Vec<String>)> = loads.iter().zip(cells).collect();
        for group in rows.chunk_by(|(a, _), (b, _)| a.group == b.group) {
            let columns = columns.iter().map(|column| column.to_string()).collect();
            let mut lines = vec![line(&group[0].0.group, columns)];
            lines.extend(group.iter().map(|(load, cells)| line(&load.name, cells.to_vec())));
            self.print_table(&lines);
        }
    }

    /// A line with the names of the columns, then the rows.
    pub fn print_table(self, lines: &[Vec<String>]) {
        println!();
        match self {
            Form::Text => print_text(lines),
            Form::Markdown => print_markdown(lines),
        }
    }
}

pub fn line(name: &str, cells: Vec<String>) -> Vec<String> {
    [vec![name.to_string()], cells].concat()
}

fn print_text(lines: &[Vec<String>]) {
    let widths: Vec<usize> =
        (0..lines[0].len()).map(|i| lines.iter().map(|line| line[i].chars().count()).max().unwrap_or(0)).collect();
    for line in lines {
        print!("{:<width$}", line[0], width = widths[0]);
        for (cell, width) in line.iter().zip(&widths).skip(1) {
            print!("  {cell:>width$}");
        }
        println!();
    }
}

fn print_markdown(lines: &[Vec<String>]) {
    println!("| {} |", lines[0].join(" | "));
    println!("|---|{}", "---:|".repeat(lines[0].len() - 1));
    for line in &lines[1..] {
        println!("| {} |", line.join(" | "));
    }
}
