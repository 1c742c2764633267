//! What a run ended with, for a person and for a machine.

use crate::args::Name;
use crate::blame::Blame;
use crate::failure::Refused;
use crate::json::Json;
use crate::message::{notes_json, Message};
use crate::paint::Paint;
use crate::program::{word, Program};
use crate::setting::Setting;
use crate::slots::{changes, changes_in_words, changes_json, list};
use crate::step::aimed;
use crate::walk::{End, Whole};
use atc_vm::{Op, Vm, VmError};
use std::collections::BTreeMap;

/// A run that has ended.
pub struct Report<'a> {
    pub program: &'a Program,
    pub setting: &'a Setting,
    pub whole: &'a Whole,
    /// Where it stopped, if it was refused and followed so far.
    pub end: Option<&'a End>,
}

impl Report<'_> {
    pub fn status(&self) -> u8 {
        u8::from(self.whole.result.is_err())
    }

    fn number(&self) -> u64 {
        self.whole
            .result
            .as_ref()
            .map_or_else(VmError::number, |_| 0)
    }

    /// The refusal, with the operation's place in the text.
    pub fn refused(&self) -> Option<Refused> {
        let error = self.whole.result.as_ref().err()?;
        let number = error.number();
        if number < 46 {
            return Some(self.program.unverified(error));
        }
        let blame = match self.end {
            Some(end) => {
                let span = self.program.span(end.state.position);
                let stack = format!("The stack was {} (top right).", list(&end.state.stack));
                Blame::at(
                    &self.program.source,
                    span,
                    sentence(self.program, end, error),
                )
                .help(stack)
            }
            None => Blame::nowhere(format!("Of the last operation: {error}.")).help(
                "It comes too late to be found here; `atc trace` gets there, operation by operation.",
            ),
        };
        Some(blame.refused(number, carried(error)))
    }

    pub fn text(&self, paint: Paint) -> String {
        match &self.whole.result {
            Ok(stack) => self.success(stack),
            Err(error) => self.refusal(error, paint),
        }
    }

    fn success(&self, stack: &[u64]) -> String {
        let (before, after) = (&self.setting.storage[..], &self.whole.storage[..]);
        let (spent, operations) = self.spent();
        let limit = self.setting.gas;
        let mut text = row("answer", "0, success");
        text += &row(
            "gas",
            &format!("{spent} of {limit} spent, {} left", limit - spent),
        );
        text += &row("operations", &operations.to_string());
        text += &row("stack", &format!("{} (top right)", list(stack)));
        text += &row("storage before", &list(before));
        if before == after {
            text += &row("storage after", &format!("{}, as before", list(after)));
        } else {
            text += &row("storage after", &list(after));
            text += &row("  changed", &changes_in_words(before, after));
        }
        text
    }

    fn spent(&self) -> (u64, u64) {
        let receipt = self.whole.receipt;
        receipt.map_or((0, 0), |receipt| (receipt.gas_spent, receipt.operations))
    }

    fn refusal(&self, error: &VmError, paint: Paint) -> String {
        let number = error.number();
        let words = atc_vm::atc_refusal_text(number).unwrap_or_default();
        let mut text = row("answer", &paint.red(&format!("{number}, {words}")));
        if let Some(end) = self.end {
            text += &row("stopped at", &sentence(self.program, end, error));
            let done = counted(end.operations, "operation");
            let (limit, left) = (self.setting.gas, end.state.gas);
            let before = format!("{done}, for {} of {limit} gas", limit - left);
            text += &row("done before", &before);
        } else {
            text += &row("gas limit", &self.setting.gas.to_string());
        }
        let stack = if number < 46 {
            "none: nothing has run"
        } else {
            "nothing is left of it"
        };
        text += &row("stack", stack);
        text += &row("storage before", &list(&self.setting.storage));
        text + &self.storage_kept(paint)
    }

    // After a refusal: every slot as before, and what had been stored meanwhile. The first slots are shown, and those.
    fn storage_kept(&self, paint: Paint) -> String {
        const FIRST: usize = 8;
        const MOST: usize = 16;
        let before = &self.setting.storage;
        let meanwhile = self.end.map_or(before, |end| &end.state.storage);
        let first = (0..before.len().min(FIRST)).map(|slot| (slot, None));
        let undone = changes(before, meanwhile).into_iter();
        let slots: BTreeMap<usize, Option<u64>> = first
            .chain(undone.map(|change| (change.slot, Some(change.after))))
            .collect();
        let mut text = row(
            "storage after",
            &format!("{}, as before", list(&self.whole.storage)),
        );
        for (&slot, &stored) in slots.iter().take(MOST) {
            let value = before
                .get(slot)
                .map_or("unused".to_string(), u64::to_string);
            let undone = stored.map_or(String::new(), |stored| {
                paint.yellow(&format!("{stored} had been stored meanwhile: undone"))
            });
            let line = format!("{value:<8}  {undone}");
            text += &row(&format!("  slot {slot}"), line.trim_end());
        }
        if slots.len() > MOST {
            text += &row("  ..", "and more; `--json` has them all");
        }
        let added = meanwhile.len().saturating_sub(before.len());
        if added > 0 {
            let used = before.len().to_string();
            let line = format!("{used:<8}  {added} had been added meanwhile: undone");
            text += &row("  slots used", &line);
        }
        text
    }

    /// The members that a run and a trace have in common.
    pub fn json(&self, name: Name, notes: &[Message]) -> Vec<(&'static str, Json)> {
        let number = self.number();
        let success = number == 0;
        let (spent, operations) = self.spent();
        let limit = self.setting.gas;
        let only = |value: u64| success.then_some(value);
        let before = &self.setting.storage;
        let undone = self
            .end
            .filter(|_| !success)
            .map_or(Json::List(vec![]), |end| {
                changes_json(before, &end.state.storage)
            });
        let mut members = head_json(name, number, self.refused().as_ref());
        members.extend([
            (
                "position",
                self.stopped_at().map(|end| end.state.position).into(),
            ),
            (
                "operation",
                self.stopped_at()
                    .map(|end| word(&self.program.ops[end.state.position]))
                    .into(),
            ),
            ("gas_limit", limit.into()),
            ("gas_spent", only(spent).into()),
            ("operations", only(operations).into()),
            (
                "stack",
                self.whole
                    .result
                    .as_ref()
                    .ok()
                    .map(|stack| Json::from(&stack[..]))
                    .into(),
            ),
            ("storage_before", Json::from(&before[..])),
            ("storage_after", Json::from(&self.whole.storage[..])),
            ("undone", undone),
            ("notes", notes_json(notes)),
        ]);
        members
    }

    fn stopped_at(&self) -> Option<&End> {
        self.end.filter(|end| end.refused.is_some())
    }
}

/// The members that every answer begins with.
pub fn head_json(name: Name, number: u64, refused: Option<&Refused>) -> Vec<(&'static str, Json)> {
    let refusal = refused.map(|refused| {
        let named = atc_vm::refusal(refused.number).map(|refusal| refusal.name);
        let mut members = vec![
            ("number", refused.number.into()),
            ("name", named.into()),
            ("carries", refused.carries.clone().into()),
        ];
        members.extend(refused.message.json());
        Json::Object(members)
    });
    vec![
        ("command", name.word().into()),
        ("number", number.into()),
        ("refusal", refusal.into()),
    ]
}

/// A number of things, as `1 item` or `2 items`.
pub fn counted(number: u64, what: &str) -> String {
    let plural = if number == 1 { "" } else { "s" };
    format!("{number} {what}{plural}")
}

pub fn row(title: &str, what: &str) -> String {
    format!("{title:<14}  {what}\n")
}

fn carried(error: &VmError) -> Vec<u64> {
    match *error {
        VmError::OutOfGas {
            required,
            remaining,
        } => vec![required, remaining],
        VmError::StorageLimitExceeded { requested, .. } => vec![requested as u64],
        _ => vec![],
    }
}

/// The operation that stopped, what it needed, and what it had.
pub fn sentence(program: &Program, end: &End, error: &VmError) -> String {
    let position = end.state.position;
    let op = &program.ops[position];
    let items = end.state.stack.len();
    let what = match error {
        VmError::OutOfGas {
            required,
            remaining,
        } => format!("costs {required} gas, and {remaining} is left"),
        VmError::StackUnderflow => {
            format!("needs {}, and the stack has {items}", needed(op, items))
        }
        VmError::StackLimitExceeded => format!("meets {items} items, and no more fit on the stack"),
        VmError::DivisionByZero => "has the divisor 0".to_string(),
        VmError::StorageLimitExceeded { limit, .. } => format!("names a slot above {}", limit - 1),
        other => other.to_string(),
    };
    format!("`{}`, operation {position}, {what}.", word(op))
}

// How many items an operation needs: with so many it isn't refused with 47.
fn needed(op: &Op, items: usize) -> String {
    let lacks = |n: usize| {
        let mut ops = vec![Op::Push(1); n];
        ops.extend([aimed(op, n + 1), Op::Halt]);
        Vm::new(ops).run_with_gas(u64::MAX) == Err(VmError::StackUnderflow)
    };
    let most = items + 8;
    match (items..most).find(|n| !lacks(*n)) {
        Some(n) => counted(n as u64, "item"),
        None => "more items".to_string(),
    }
}
