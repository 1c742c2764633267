//! The refusals of document 01: number, name, words, and what an answer carries.
//!
//! This table is that of `include/atc_vm.h`; tests/refusals.rs holds the two to each other, and the numbers to the
//! definitions in crates/.

/// A refusal of document 01.
#[derive(Debug, Clone, Copy, PartialEq, Eq)]
pub struct Refusal {
    /// Its number, from 1.
    pub number: u64,
    /// Its name in `include/atc_vm.h`.
    pub name: &'static str,
    /// What it says, as a clause without a full stop.
    pub text: &'static str,
    /// What the first words of the answer are, in order. The words behind them are 0.
    pub carries: &'static [&'static str],
}

macro_rules! refusals {
    ($($number:literal $name:ident $text:literal [$($carried:literal),*])*) => {
        /// Every refusal, in the order of the numbers.
        pub const REFUSALS: [Refusal; [$($number),*].len()] = [$(Refusal {
            number: $number,
            name: stringify!($name),
            text: $text,
            carries: &[$($carried),*],
        }),*];
    };
}

// Key's place: 0 for `expected`, n for the contract's n-th parameter. Lines of 12 to 20 count from 1, the first being
// the one that the body's `{` stands on; those of 28 to 32 are the text's. Place and length are in bytes of the text.
// 50 carries 2^64 - 1 for slot 2^64 - 1.
refusals! {
     1 ATC_BAD_CONTRACT "the contract exceeds 65,536 bytes or isn't UTF-8" []
     2 ATC_BAD_VECTOR "the vector exceeds 65,536 bytes or isn't UTF-8" []
     3 ATC_NO_FUNCTION "`fn ` is absent" []
     4 ATC_NO_PARAMETERS "no `(` follows `fn `" []
     5 ATC_UNCLOSED_PARAMETERS "no `)` follows the `(`" []
     6 ATC_NO_BODY "no `{` follows the `)`" []
     7 ATC_UNCLOSED_BODY "no `}` follows the `{`" []
     8 ATC_NO_KEY "the key in double quotes is absent from the vector" ["key's place"]
     9 ATC_NO_COLON "no `:` follows the key" ["key's place"]
    10 ATC_NO_DIGIT "no ASCII digit comes next after White_Space" ["key's place"]
    11 ATC_VALUE_TOO_LARGE "the digit run exceeds 2^64 - 1" ["key's place"]
    12 ATC_NO_EQUALS "a `let` line has no `=`" ["line"]
    13 ATC_INVALID_CHARACTER "a character of the expression is in no token" ["line"]
    14 ATC_UNEXPECTED_END "the expression ends where a factor or `)` is due" ["line"]
    15 ATC_UNBALANCED_PARENTHESIS "another token is where `)` is due" ["line"]
    16 ATC_INVALID_LITERAL "a literal met as a factor exceeds 2^64 - 1" ["line"]
    17 ATC_UNKNOWN_IDENTIFIER "the token met as a factor is no `(`, literal or bound name" ["line"]
    18 ATC_EXPRESSION_TOO_DEEP "a 65th parenthesis is open" ["line"]
    19 ATC_UNCONSUMED_TOKENS "tokens are left over" ["line"]
    20 ATC_EXPRESSION_TOO_LONG "k of this expression exceeds 32,768" ["line"]
    21 ATC_TOO_MANY_BINDINGS "a 257th binding is made" []
    22 ATC_NO_RETURN "no `return ` line stands in the body" []
    23 ATC_NO_VALUE "the return value is none (a division by 0)" []
    24 ATC_VALUE_NOT_EXPECTED "the return value differs from `expected`" []
    25 ATC_BAD_STEM "the stem is empty, over 255 bytes, not UTF-8 or holds a line feed" []
    26 ATC_OUTPUT_TOO_LONG "the output is longer than the lent buffer" []
    27 ATC_OPS_NOT_UTF8 "the text isn't UTF-8" []
    28 ATC_BAD_PUSH "a `Push ` value isn't a number" ["line", "place", "length"]
    29 ATC_BAD_SLOT "a `Load ` or `Store ` slot isn't a number" ["line", "place", "length"]
    30 ATC_UNKNOWN_OP "the line is no operation" ["line", "place", "length"]
    31 ATC_BAD_TARGET "a jump target isn't a number" ["line", "place", "length"]
    32 ATC_OPS_FULL "the operation is good but the shorter of the lent kind and operand buffers is full" ["line"]
    33 ATC_OPS_EMPTY "no operation was read" []
    34 ATC_BUFFER_LENGTHS "kinds and operands differ in length, the stack buffer is below 4,096, work and storage \
        buffers differ in length, or the used length exceeds the storage buffer" []
    35 ATC_INVALID_CHAIN_ID "the chain id isn't `atc`" []
    36 ATC_INVALID_NETWORK_ID "the network isn't `devnet`, `testnet` or `mainnet`" []
    37 ATC_INVALID_GENESIS_ID "the genesis id isn't 64 ASCII hex digits" []
    38 ATC_PROTOCOL_MISMATCH "the protocol differs from the expected one" []
    39 ATC_VM_MISMATCH "the VM version differs from the expected one" []
    40 ATC_GENESIS_MISMATCH "the genesis id differs bytewise from the computed one" []
    41 ATC_EMPTY_PROGRAM "the program is empty" []
    42 ATC_PROGRAM_TOO_LARGE "the program exceeds 65,536 operations" ["size"]
    43 ATC_STORAGE_TOO_LARGE "the used storage exceeds 65,536" ["used length"]
    44 ATC_UNKNOWN_KIND "an operation has a kind above 15" []
    45 ATC_JUMP_OUT_OF_RANGE "a jump target is not below the program's length" []
    46 ATC_OUT_OF_GAS "the price exceeds the gas left" ["price", "gas left"]
    47 ATC_STACK_UNDERFLOW "the stack has too few items" []
    48 ATC_STACK_LIMIT_EXCEEDED "a push meets 4,096 items" []
    49 ATC_DIVISION_BY_ZERO "the divisor is 0" []
    50 ATC_STORAGE_LIMIT_EXCEEDED "a stored slot is 65,536 or more" ["slot + 1"]
    51 ATC_OUTSIDE_STORAGE "the slot is beyond the lent storage" []
}

/// The refusal of a number; none for 0 and for a number that document 01 doesn't have.
///
/// ```
/// let refusal = atc_vm::refusal(46).unwrap();
/// assert_eq!(refusal.name, "ATC_OUT_OF_GAS");
/// assert_eq!(refusal.text, "the price exceeds the gas left");
/// assert_eq!(refusal.carries, ["price", "gas left"]);
/// assert_eq!(atc_vm::refusal(0), None);
/// ```
pub fn refusal(number: u64) -> Option<&'static Refusal> {
    let all: &'static [Refusal] = &REFUSALS;
    all.iter().find(|refusal| refusal.number == number)
}

/// What a number says: `success` for 0, a refusal's words, none for any other.
///
/// ```
/// assert_eq!(atc_vm::atc_refusal_text(0), Some("success"));
/// assert_eq!(atc_vm::atc_refusal_text(49), Some("the divisor is 0"));
/// assert_eq!(atc_vm::atc_refusal_text(99), None);
/// ```
pub fn atc_refusal_text(number: u64) -> Option<&'static str> {
    if number == 0 {
        return Some("success");
    }
    refusal(number).map(|refusal| refusal.text)
}

// The words of an error, which has a number of the table.
pub(crate) fn text(number: u64) -> &'static str {
    atc_refusal_text(number).unwrap_or_default()
}
