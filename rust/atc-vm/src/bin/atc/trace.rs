//! `atc trace`: a run, operation by operation.

use crate::args::Arguments;
use crate::failure::Failure;
use crate::json::Json;
use crate::paint::Paint;
use crate::program::{word, Program};
use crate::report::Report;
use crate::setting::Setting;
use crate::slots::{changes_in_words, changes_json, list};
use crate::step::{State, Step};
use crate::walk::{self, End, Whole};
use crate::{complain_all, program, setting};
use atc_vm::Vm;
use std::io::{self, BufWriter, Write};

pub fn trace(arguments: &Arguments) -> Result<u8, Failure> {
    let program = program::load(arguments)?;
    let setting = setting::of(arguments, setting::GAS)?;
    if !arguments.json {
        complain_all(&program.notes);
    }
    let paint = Paint::on(&io::stdout());
    let mut out = BufWriter::new(io::stdout().lock());
    if arguments.json {
        out.write_all(b"{\"steps\":[").map_err(Failure::output)?;
    }
    let end = if verified(&program, &setting) {
        steps(arguments, &program, &setting, &mut out, paint)?
    } else {
        None
    };
    let whole = walk::whole(&program.ops, &setting);
    held_against(end.as_ref(), &whole, &setting)?;
    let report = Report {
        program: &program,
        setting: &setting,
        whole: &whole,
        end: end.as_ref(),
    };
    let rest = if arguments.json {
        let members = Json::Object(report.json(arguments.name, &program.notes)).to_string();
        format!("],{}\n", &members[1..])
    } else {
        report.text(paint)
    };
    let written = out.write_all(rest.as_bytes()).and_then(|()| out.flush());
    if !arguments.json {
        complain_all(report.refused().iter().map(|refused| &refused.message));
    }
    match written.map_err(Failure::output) {
        Ok(()) | Err(Failure::ClosedPipe) => Ok(report.status()),
        Err(failure) => Err(failure),
    }
}

fn verified(program: &Program, setting: &Setting) -> bool {
    let vm = Vm::with_context(program.ops.clone(), setting.caller, setting.storage.clone());
    vm.verify().is_ok()
}

fn held_against(end: Option<&End>, whole: &Whole, setting: &Setting) -> Result<(), Failure> {
    match end.and_then(|end| walk::difference(end, whole, setting)) {
        Some(difference) => Err(Failure::Bug(difference)),
        None => Ok(()),
    }
}

// Writes a line for each step as it is made, so that a long trace takes no memory.
fn steps(
    arguments: &Arguments,
    program: &Program,
    setting: &Setting,
    out: &mut impl Write,
    paint: Paint,
) -> Result<Option<End>, Failure> {
    let table = Table::of(program, setting);
    if !arguments.json {
        writeln!(out, "{}", paint.bold(&table.head())).map_err(Failure::output)?;
    }
    let mut between = "";
    let end = walk::walk(&program.ops, setting, |before, step| {
        let line = if arguments.json {
            let line = format!("{between}{}", in_json(program, before, step));
            between = ",";
            line
        } else {
            table.line(program, before, step, paint) + "\n"
        };
        out.write_all(line.as_bytes()).map_err(Failure::output)?;
        Ok(true)
    })?;
    if !arguments.json {
        writeln!(out).map_err(Failure::output)?;
    }
    Ok(end)
}

// How wide the columns are.
struct Table {
    at: usize,
    operation: usize,
    gas: usize,
}

impl Table {
    fn of(program: &Program, setting: &Setting) -> Table {
        let longest = program.ops.iter().map(|op| word(op).len()).max();
        Table {
            at: program.ops.len().to_string().len().max(2),
            operation: longest.unwrap_or(0).max("operation".len()),
            gas: setting.gas.to_string().len().max("gas before".len()),
        }
    }

    fn row(&self, cells: [&str; 5], rest: &str) -> String {
        let [at, operation, price, before, after] = cells;
        let Table {
            at: a,
            operation: o,
            gas: g,
        } = *self;
        let row =
            format!("{at:>a$}  {operation:<o$}  {price:>5}  {before:>g$}  {after:>g$}  {rest}");
        row.trim_end().to_string()
    }

    fn head(&self) -> String {
        self.row(
            ["at", "operation", "price", "gas before", "gas after"],
            "stack (top right)",
        )
    }

    fn line(&self, program: &Program, before: &State, step: &Step, paint: Paint) -> String {
        let op = word(&program.ops[before.position]);
        let at = before.position.to_string();
        let left = before.gas.to_string();
        match step {
            Step::Done { price, after, .. } => {
                let changed = changes_in_words(&before.storage, &after.storage);
                let gap = if changed.is_empty() { "" } else { "   " };
                let rest = format!("{}{gap}{}", list(&after.stack), paint.yellow(&changed));
                self.row(
                    [&at, &op, &price.to_string(), &left, &after.gas.to_string()],
                    &rest,
                )
            }
            Step::Refused { price, error } => {
                let refused = paint.red(&format!("refused with {}", error.number()));
                let rest = format!("{}   {refused}", list(&before.stack));
                self.row([&at, &op, &price.to_string(), &left, "-"], &rest)
            }
        }
    }
}

fn in_json(program: &Program, before: &State, step: &Step) -> Json {
    let (price, after, refused) = match step {
        Step::Done { price, after, .. } => (*price, after, None),
        Step::Refused { price, error } => (*price, before, Some(error.number())),
    };
    let gas_after = refused.is_none().then_some(after.gas);
    Json::Object(vec![
        ("position", before.position.into()),
        ("operation", word(&program.ops[before.position]).into()),
        ("price", price.into()),
        ("gas_before", before.gas.into()),
        ("gas_after", gas_after.into()),
        ("refused", refused.into()),
        ("stack", Json::from(&after.stack[..])),
        ("changes", changes_json(&before.storage, &after.storage)),
        ("slots", after.storage.len().into()),
    ])
}
