//! The atc-vm rule machine: an assembler for contract texts, a reader of operation texts, a chain gate, a verifier and a
//! gas-metered stack machine.
//!
//! All of it is computed by a static library that is written in Rattle and proved to meet its contracts; this crate is
//! the safe Rust over it, with the standard library alone. The names are those of the Rust original
//! (A-TownChain-Okosystems/atc-vm), in the same modules, and at the root too.
//!
//! ```
//! use atc_vm::{assemble_text, parse_ops, ChainContext, Vm};
//!
//! let contract = "fn total (a, b) {\n  let s = a + b\n  return s * 2\n}\n";
//! let vector = r#"{"a": 5, "b": 7, "expected": 24}"#;
//! let assembled = assemble_text(contract, vector, "tally")?;
//! assert_eq!(assembled.text, "# contract: tally\n# expected: 24\nPush 5\nPush 7\nAdd\nPush 2\nMul\nHalt\n");
//!
//! let program = parse_ops(&assembled.text)?;
//! let context = ChainContext {
//!     chain_id: "atc".into(),
//!     network_id: "devnet".into(),
//!     genesis_id: "0".repeat(64),
//!     protocol_version: "1".into(),
//!     vm_version: "1".into(),
//! };
//! let mut vm = Vm::with_context(program, 7, vec![]);
//! let stack = vm.execute_state_transition_with_gas(&context, &"0".repeat(64), "1", "1", 1_000)?;
//! assert_eq!(stack, [24]);
//! # Ok::<(), Box<dyn std::error::Error>>(())
//! ```
//!
//! A rule chooses by `<` and `==`, which are 1 or 0: here a blank of 65 mm below 4 dioptres, else one of 70 mm.
//!
//! ```
//! use atc_vm::{assemble_text, parse_ops, Vm};
//!
//! let rule = "fn blank (power) {\n  return (power < 400) * 65 + (400 < power + 1) * 70\n}\n";
//! for (power, blank) in [(399, 65), (400, 70)] {
//!     let vector = format!(r#"{{"power": {power}, "expected": {blank}}}"#);
//!     let assembled = assemble_text(rule, vector, "blank")?;
//!     let mut vm = Vm::with_context(parse_ops(&assembled.text)?, 7, vec![]);
//!     assert_eq!(vm.run_with_gas(3 * assembled.k - 2)?, [blank]);
//! }
//! # Ok::<(), Box<dyn std::error::Error>>(())
//! ```
//!
//! # Refusals
//!
//! Each error has a method `number`, which gives the number of the refusal in document 01; [`REFUSALS`] has them all with
//! names and words, as `include/atc_vm.h` has them. The ones that come from lent memory (26, 32, 34, 51) never reach a caller of the modules
//! [`assembler`], [`ops`], [`context`] and [`vm`], which lend enough of it; nor does 44, for an [`Op`] has no other kind.
//! The module [`sys`] has the calls with buffers that the caller lends.
//!
//! # What is not as in the original
//!
//! - `Vm::run` and `VmError::InvalidJump` are left out.
//! - [`assemble`] gives an [`AssembleFileError`] and not a `String`; there is a `From` to `String`.
//!   It makes the output's folder only once the contract is accepted.
//! - [`OpsError::NotUtf8`] is new, and given by [`parse_ops_bytes`] alone.
//! - [`VmError::StateTooLarge`] is new: it tells a storage that was too large before the run (43) from a `Store` past
//!   the limit (50), which is [`VmError::StorageLimitExceeded`] alone.
//! - Document 01 adds refusals 18, 20 and 21, and limits on the length of texts and stems (1, 2, 25).
//! - Expressions have `<` and `==` (document 02, request 101).

#![deny(unsafe_code)]
#![deny(missing_docs)]

#[cfg(not(target_pointer_width = "64"))]
compile_error!("the proved library is made for machines with a usize of 64 bits");

pub mod assembler;
pub mod context;
pub mod ops;
pub mod refusal;
#[allow(unsafe_code)]
pub mod sys;
pub mod vm;

pub use assembler::{assemble, assemble_text, AssembleError, AssembleFileError, Assembled};
pub use context::{execution_gate, ChainContext, ContextError};
pub use ops::{parse_ops, parse_ops_bytes, trimmed_line, OpsError};
pub use refusal::{atc_refusal_text, refusal, Refusal, REFUSALS};
pub use vm::{Op, Receipt, Vm, VmError};
