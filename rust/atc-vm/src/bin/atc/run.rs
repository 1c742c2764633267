//! `atc run`: what a run answers, and the storage before and after it.

use crate::args::Arguments;
use crate::failure::Failure;
use crate::json::Json;
use crate::paint::Paint;
use crate::report::Report;
use crate::{complain_all, files, program, setting, walk};
use std::io;

pub fn run(arguments: &Arguments) -> Result<u8, Failure> {
    let program = program::load(arguments)?;
    let setting = setting::of(arguments, setting::GAS)?;
    let whole = walk::whole(&program.ops, &setting);
    let stopped = whole
        .result
        .as_ref()
        .is_err_and(|error| error.number() >= 46);
    let end = if stopped {
        walk::end(&program.ops, &setting)
    } else {
        None
    };
    if let Some(difference) = end
        .as_ref()
        .and_then(|end| walk::difference(end, &whole, &setting))
    {
        return Err(Failure::Bug(difference));
    }
    let report = Report {
        program: &program,
        setting: &setting,
        whole: &whole,
        end: end.as_ref(),
    };
    let status = report.status();
    if arguments.json {
        let object = Json::Object(report.json(arguments.name, &program.notes));
        return files::tell(&format!("{object}\n"), status);
    }
    complain_all(&program.notes);
    let told = files::tell(&report.text(Paint::on(&io::stdout())), status);
    complain_all(report.refused().iter().map(|refused| &refused.message));
    told
}
