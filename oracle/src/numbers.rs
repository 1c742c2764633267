//! Document 01's numbers of what the original says.
use crate::context::ContextError;

pub fn message_number(message: &str) -> u64 {
    let starts = [
        ("cannot read contract: stream did not contain valid UTF-8", 1),
        ("cannot read vector: stream did not contain valid UTF-8", 2),
        ("no function definition found", 3),
        ("function parameter list missing", 4),
        ("function parameter list is unclosed", 5),
        ("function body missing", 6),
        ("function body is unclosed", 7),
        ("vector missing key: ", 8),
        ("vector key has no value: ", 9),
        ("invalid let statement: ", 12),
        ("invalid character in expression: ", 13),
        ("unexpected end of expression", 14),
        ("unbalanced parenthesis", 15),
        ("invalid u64 literal: ", 16),
        ("unknown identifier in expression: ", 17),
        ("unconsumed expression tokens in: ", 19),
        ("unconsumed return expression tokens in: ", 19),
        ("no return statement in EXEC-GATE subset", 22),
        ("DivisionByZero in native assembler simulation", 23),
        ("native assembly simulation ", 24),
        ("invalid contract filename", 25),
    ];
    if message.starts_with("vector value for ") {
        return if message.ends_with(" is not u64") { 11 } else { 10 };
    }
    let found = starts.iter().find(|(start, _)| message.starts_with(start));
    found.unwrap_or_else(|| panic!("no refusal of document 01: {message}")).1
}

pub fn context_number(e: &ContextError) -> u64 {
    match e {
        ContextError::InvalidChainId => 35,
        ContextError::InvalidNetworkId => 36,
        ContextError::InvalidGenesisId => 37,
        ContextError::ProtocolMismatch => 38,
        ContextError::VmMismatch => 39,
        ContextError::GenesisMismatch => 40,
    }
}
