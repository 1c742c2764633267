//! What `--help` says.

use crate::args::Name;

const ALL: &str = "\
atc, for people who write rules: it assembles, runs and explains them, over the
proved library.

usage:
  atc assemble RULE VECTOR [-o FILE]   a rule and its vector to operations
  atc run RULE VECTOR | OPS            a run's answer, storage before and after
  atc trace RULE VECTOR | OPS          a run, operation by operation
  atc gas RULE VECTOR | OPS            the least limit, and what each `let` costs
  atc explain [NUMBER | NAME]          a refusal in words
  atc help COMMAND                     more on one of these

One file is read as operations (`-` is standard input), two as a rule and its
vector. Options may stand anywhere; `--gas 5` and `--gas=5` are the same; behind
`--` all are files. `--json` prints one JSON object to standard output, and
`--version` the version.

exit status:
  0  success
  1  refused by the library; `atc explain` has more on the message's number
  2  the command line or a file is at fault
  3  atc contradicts the library: a bug of atc, please report it
A reader that closes the pipe ends atc silently, with 1 where a refusal is known
by then and else with 0.

Colour is for terminals alone; NO_COLOR turns it off.
";

const ASSEMBLE: &str = "\
usage: atc assemble RULE VECTOR [-o FILE] [--json]

Prints the operations of a rule under its vector, or writes them to FILE, whole
or not at all.

  -o, --output FILE  where to write them; `-` is standard output
  --json             one object: command, number (0, or the refusal's), refusal,
                     k, p, value, text, output, notes. refusal is null, or has
                     number, name, carries, headline, place (null, or file, line,
                     column), message, helps; notes have the last four. A refusal
                     has the first three and notes alone
";

const RUN: &str = "\
usage: atc run RULE VECTOR [options]
       atc run OPS [options]

Runs operations, or those of a rule, and tells the answer, the stack, and the
storage before and after.

  --gas N      the gas limit; 1000 if it isn't given
  --caller N   what `Caller` pushes; 7 if it isn't given
  --storage S  the slots, as in `--storage 50,90`; none if it isn't given. What
               isn't digits, commas and spaces is the name of a file of numbers,
               with commas or white space between them, and remarks from `#` on
  --json       one object: command, number, refusal (as in `atc help assemble`),
               position and operation that stopped, gas_limit, gas_spent,
               operations, stack (bottom first), storage_before, storage_after,
               undone (slot, before, after: what had been stored before a
               refusal), notes. What isn't known, or isn't there, is null
";

const TRACE: &str = "\
usage: atc trace RULE VECTOR [options]
       atc trace OPS [options]

A line an operation: its position, the operation, its price, the gas before and
after, the stack after it with the top on the right, and the slots that change.
Then what `atc run` prints. Each step is worked out by the proved library, and
the steps are held against the whole run.

  --gas N, --caller N, --storage S
               as in `atc help run`
  --json       the object of `atc run`, and steps: position, operation, price,
               gas_before, gas_after, refused (null, or the number), stack,
               changes (slot, before, after), slots (how many are used)
";

const GAS: &str = "\
usage: atc gas RULE VECTOR [options]
       atc gas OPS [options]

The least limit under which the run succeeds. Of a rule also k, p and the value,
and for each `let` how often it is copied into the return expression and what
that costs. A `let` that stands in another is paid for with it, and shown in both.

  --gas N      the limit up to which it is tried; 10000000 if it isn't given
  --caller N, --storage S
               as in `atc help run`
  --json       one object: command, number, refusal, least_limit, operations,
               bound, notes; of a rule also k, p, value and lets: name, line,
               copies, k, gas_a_copy, gas, why_unknown
";

const EXPLAIN: &str = "\
usage: atc explain [NUMBER | NAME] [--json]

A refusal in words: what it carries, what it leaves, the commonest cause, an
example. By its number, as 46, or by its name, as ATC_OUT_OF_GAS or out-of-gas.
Without either, all of them in a line each.

  --json       one object: command, number (0), refusal (null), and refusals:
               number, name, text, carries, leaves, cause, example
";

pub fn text(name: Option<Name>) -> &'static str {
    match name {
        None => ALL,
        Some(Name::Assemble) => ASSEMBLE,
        Some(Name::Run) => RUN,
        Some(Name::Trace) => TRACE,
        Some(Name::Gas) => GAS,
        Some(Name::Explain) => EXPLAIN,
    }
}

/// The line, or two, on how a command is used.
pub fn usage(name: Option<Name>) -> String {
    let Some(name) = name else {
        return "usage: atc assemble|run|trace|gas|explain ..; `atc --help` tells more\n"
            .to_string();
    };
    let lines = text(Some(name)).lines().take_while(|line| !line.is_empty());
    lines.map(|line| format!("{line}\n")).collect()
}
