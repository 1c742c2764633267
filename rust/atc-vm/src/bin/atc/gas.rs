//! `atc gas`: the least limit under which a run succeeds, and what each `let` of a rule costs.

use crate::args::Arguments;
use crate::blame::Blame;
use crate::failure::{Failure, Refused};
use crate::json::Json;
use crate::lets::{self, Let};
use crate::message::notes_json;
use crate::program::{self, Program};
use crate::report::{counted, head_json, row, Report};
use crate::setting::{self, Setting};
use crate::walk::{self, Whole};
use crate::{complain_all, files};
use atc_vm::{Receipt, VmError};

// Runs are tried under this limit, unless another is given.
const BOUND: u64 = 10_000_000;

// What the assembler tells about a rule.
struct Figures {
    k: u64,
    p: u64,
    value: u64,
    lets: Vec<Let>,
}

pub fn gas(arguments: &Arguments) -> Result<u8, Failure> {
    let setting = setting::of(arguments, BOUND)?;
    let (program, figures) = match &arguments.operands[..] {
        [rule, vector] => {
            let rule = program::assemble(rule, vector)?;
            let figures = Figures {
                k: rule.assembled.k,
                p: rule.assembled.p,
                value: rule.assembled.value,
                lets: lets::lets(&rule),
            };
            (program::of_rule(rule)?, Some(figures))
        }
        _ => (program::load(arguments)?, None),
    };
    let whole = walk::whole(&program.ops, &setting);
    if let Some(receipt) = whole.receipt {
        shown_least(&program, &setting, receipt)?;
    }
    let refused = refused(&program, &setting, &whole);
    let status = u8::from(refused.is_some());
    if arguments.json {
        let members = json(
            arguments,
            &program,
            figures,
            &whole,
            refused.as_ref(),
            &setting,
        );
        return files::tell(&format!("{}\n", Json::Object(members)), status);
    }
    complain_all(&program.notes);
    let told = files::tell(&text(figures.as_ref(), &whole, &setting), status);
    complain_all(refused.iter().map(|refused| &refused.message));
    told
}

// Under one less than was spent a run must be refused with 46.
fn shown_least(program: &Program, setting: &Setting, receipt: Receipt) -> Result<(), Failure> {
    let Some(gas) = receipt.gas_spent.checked_sub(1) else {
        return Ok(());
    };
    let less = Setting {
        gas,
        ..setting.clone()
    };
    match walk::whole(&program.ops, &less).result {
        Err(VmError::OutOfGas { .. }) => Ok(()),
        other => Err(Failure::Bug(format!(
            "a run spends {} gas, and under {gas} it ends with {other:?}",
            receipt.gas_spent
        ))),
    }
}

fn refused(program: &Program, setting: &Setting, whole: &Whole) -> Option<Refused> {
    let error = whole.result.as_ref().err()?;
    if let VmError::OutOfGas {
        required,
        remaining,
    } = *error
    {
        let label = format!("No success within {} gas.", setting.gas);
        let blame = Blame::nowhere(label).help("`--gas N` sets another bound.");
        return Some(blame.refused(46, vec![required, remaining]));
    }
    let end = if error.number() > 46 {
        walk::end(&program.ops, setting)
    } else {
        None
    };
    let report = Report {
        program,
        setting,
        whole,
        end: end.as_ref(),
    };
    report.refused()
}

fn text(figures: Option<&Figures>, whole: &Whole, setting: &Setting) -> String {
    let mut text = String::new();
    if let Some(figures) = figures {
        text += &row("k", &format!("{} pushed", counted(figures.k, "number")));
        text += &row("p", &format!("{} needed", counted(figures.p, "stack item")));
        text += &row("value", &figures.value.to_string());
    }
    match (&whole.result, whole.receipt) {
        (Ok(_), Some(receipt)) => {
            text += &row("operations", &receipt.operations.to_string());
            text += &row("least limit", &least(receipt.gas_spent, figures));
        }
        (Err(error), _) => {
            let number = error.number();
            let none = format!(
                "none up to {} gas: the run is refused with {number}",
                setting.gas
            );
            text += &row("least limit", &none);
        }
        _ => (),
    }
    let lets = figures.map_or(&[][..], |figures| &figures.lets);
    if !lets.is_empty() {
        text += "\n";
        text += &lets::table(lets);
    }
    text
}

fn least(spent: u64, figures: Option<&Figures>) -> String {
    let formula = figures.is_some_and(|figures| 3 * figures.k - 2 == spent);
    let formula = if formula { " (3k - 2)" } else { "" };
    match spent.checked_sub(1) {
        Some(less) => {
            format!("{spent} gas{formula}; under a limit of {less} the run is refused with 46")
        }
        None => format!("{spent} gas{formula}"),
    }
}

fn json(
    arguments: &Arguments,
    program: &Program,
    figures: Option<Figures>,
    whole: &Whole,
    refused: Option<&Refused>,
    setting: &Setting,
) -> Vec<(&'static str, Json)> {
    let number = refused.map_or(0, |refused| refused.number);
    let mut members = head_json(arguments.name, number, refused);
    if let Some(figures) = figures {
        members.extend([
            ("k", figures.k.into()),
            ("p", figures.p.into()),
            ("value", figures.value.into()),
            (
                "lets",
                Json::List(figures.lets.iter().map(Let::json).collect()),
            ),
        ]);
    }
    members.extend([
        (
            "least_limit",
            whole.receipt.map(|receipt| receipt.gas_spent).into(),
        ),
        (
            "operations",
            whole.receipt.map(|receipt| receipt.operations).into(),
        ),
        ("bound", setting.gas.into()),
        ("notes", notes_json(&program.notes)),
    ]);
    members
}
