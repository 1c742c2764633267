/*
 * The atc-vm rule machine: assembler, ops reader, chain gate, verifier and metered stack machine.
 *
 * `tools/library` proves crates/atc_vm_c and writes target/staticlib/libatc_vm.a, for x86-64. For every input that
 * keeps what is asked below, the number, the answer and the contents of every buffer are proved to be those of document
 * 01; the contracts stand in crates/atc_vm_c/src/lib.rt. Tests of rust/atc-vm hold these declarations to the functions
 * there (tests/header.rs) and the refusals to the definitions (tests/refusals.rs). rust/atc-vm/tests/abi.c is an
 * example: a contract assembled, read and run.
 *
 * RESULT AND ANSWER. Every function returns a number: 0 for success, or a refusal of document 01. `answer` points to
 * eight words. A function that takes it writes all eight on every call, whatever it returns: the values that the
 * refusals' list or the function's comment names, from answer[0] on, and zeros behind them.
 *
 * WHAT A CALLER KEEPS. The proofs take the following for granted, and no function can test it.
 *   - A pointer and the count behind it are one array: the pointer is valid for that many elements, for reading
 *     where it is const, for reading and writing where it isn't. Counts are elements, not bytes. The elements of
 *     buffers that are written have been given some value before, whatever it is.
 *   - A pointer to uint64_t is aligned for uint64_t (8 bytes); `answer` too.
 *   - In one call, `answer` and the buffers that aren't const overlap neither each other nor any other argument.
 *     Const arguments may overlap each other, and be the same.
 *   - NULL stands only before a count of 0. An array of count 0 is neither read nor written, so there the pointer may
 *     be NULL or any other. `answer` is never NULL.
 *   - While a call runs, nothing else writes its arguments or reads the buffers it writes.
 *   - The calling thread has 512 KiB of stack left.
 *
 * The library allocates nothing, keeps no pointer and no state from one call to the next, and makes no system call.
 * Calls on different buffers may run at the same time on different threads.
 *
 * THE NUMBERS are named, and said in words, by ATC_REFUSALS below. What the answer carries stands behind each, in the
 * answer's order. A key's place is 0 for `expected` and n for the contract's n-th parameter. Lines count from 1: in
 * assembly the first is the one that the body's `{` stands on, in reading it is the text's first. Place and length are
 * in bytes of the text, those of the trimmed line for 30, and of what follows the operation's word, trimmed, for 28, 29
 * and 31. 50 carries 2^64 - 1 for slot 2^64 - 1.
 *
 * Where several apply, the first in the list is given; but 8 to 11 are tried for `expected` and then for each parameter
 * in order, with 21 after its value; 12 to 20 line by line, with 21 last on a `let` line, 13 sought over a whole
 * expression first, and 14 to 18 as met from left to right; 28 to 32 line by line; 44 and 45 by position; 46 to 51 as
 * the run meets them, 46 before the others of the same operation.
 *
 * Refusals 1 to 45 leave every buffer but the answer unchanged. After 46 to 51 the storage buffer is as before, and the
 * stack and work buffers are all zero.
 *
 * A PROGRAM is two arrays of one length: a kind from 0 to 15 and an operand for each operation. The operand is the
 * value for ATC_PUSH, the slot for ATC_LOAD and ATC_STORE, the target (a position from 0) for the jumps; the other
 * kinds don't look at it, and reading makes it 0. docs/RULES.md says what each kind does and costs.
 */
#ifndef ATC_VM_H
#define ATC_VM_H

#include <stddef.h>
#include <stdint.h>

#ifdef __cplusplus
extern "C" {
#endif

/* That of the Rust crate and of the release. */
#define ATC_VM_VERSION "0.3.0"
#define ATC_VM_VERSION_MAJOR 0
#define ATC_VM_VERSION_MINOR 3
#define ATC_VM_VERSION_PATCH 0

/*
 * X(number, name, words) for each refusal. The library holds no texts; a caller makes what it needs of the list:
 *
 *     #define CASE(number, name, words) case name: return words;
 *     switch (number) { ATC_REFUSALS(CASE) default: return "no refusal"; }
 */
#define ATC_REFUSALS(X)                                                                                                \
    /* assembly */                                                                                                     \
    X(1,  ATC_BAD_CONTRACT,            "the contract exceeds 65,536 bytes or isn't UTF-8")                             \
    X(2,  ATC_BAD_VECTOR,              "the vector exceeds 65,536 bytes or isn't UTF-8")                               \
    X(3,  ATC_NO_FUNCTION,             "`fn ` is absent")                                                              \
    X(4,  ATC_NO_PARAMETERS,           "no `(` follows `fn `")                                                         \
    X(5,  ATC_UNCLOSED_PARAMETERS,     "no `)` follows the `(`")                                                       \
    X(6,  ATC_NO_BODY,                 "no `{` follows the `)`")                                                       \
    X(7,  ATC_UNCLOSED_BODY,           "no `}` follows the `{`")                                                       \
    X(8,  ATC_NO_KEY,                  "the key in double quotes is absent from the vector") /* key's place */         \
    X(9,  ATC_NO_COLON,                "no `:` follows the key")                             /* key's place */         \
    X(10, ATC_NO_DIGIT,                "no ASCII digit comes next after White_Space")        /* key's place */         \
    X(11, ATC_VALUE_TOO_LARGE,         "the digit run exceeds 2^64 - 1")                     /* key's place */         \
    X(12, ATC_NO_EQUALS,               "a `let` line has no `=`")                            /* line */                \
    X(13, ATC_INVALID_CHARACTER,       "a character of the expression is in no token")       /* line */                \
    X(14, ATC_UNEXPECTED_END,          "the expression ends where a factor or `)` is due")   /* line */                \
    X(15, ATC_UNBALANCED_PARENTHESIS,  "another token is where `)` is due")                  /* line */                \
    X(16, ATC_INVALID_LITERAL,         "a literal met as a factor exceeds 2^64 - 1")         /* line */                \
    X(17, ATC_UNKNOWN_IDENTIFIER,      "the token met as a factor is no `(`, literal or bound name") /* line */        \
    X(18, ATC_EXPRESSION_TOO_DEEP,     "a 65th parenthesis is open")                         /* line */                \
    X(19, ATC_UNCONSUMED_TOKENS,       "tokens are left over")                               /* line */                \
    X(20, ATC_EXPRESSION_TOO_LONG,     "k of this expression exceeds 32,768")                /* line */                \
    X(21, ATC_TOO_MANY_BINDINGS,       "a 257th binding is made")                                                      \
    X(22, ATC_NO_RETURN,               "no `return ` line stands in the body")                                         \
    X(23, ATC_NO_VALUE,                "the return value is none (a division by 0)")                                   \
    X(24, ATC_VALUE_NOT_EXPECTED,      "the return value differs from `expected`")                                     \
    X(25, ATC_BAD_STEM,                "the stem is empty, over 255 bytes, not UTF-8 or holds a line feed")            \
    X(26, ATC_OUTPUT_TOO_LONG,         "the output is longer than the lent buffer")                                    \
    /* reading */                                                                                                      \
    X(27, ATC_OPS_NOT_UTF8,            "the text isn't UTF-8")                                                         \
    X(28, ATC_BAD_PUSH,                "a `Push ` value isn't a number")                     /* line, place, length */ \
    X(29, ATC_BAD_SLOT,                "a `Load ` or `Store ` slot isn't a number")          /* line, place, length */ \
    X(30, ATC_UNKNOWN_OP,              "the line is no operation")                           /* line, place, length */ \
    X(31, ATC_BAD_TARGET,              "a jump target isn't a number")                       /* line, place, length */ \
    X(32, ATC_OPS_FULL,                "the operation is good but the shorter of the lent kind and operand buffers "   \
                                       "is full")                                            /* line */                \
    X(33, ATC_OPS_EMPTY,               "no operation was read")                                                        \
    /* gate, verifier and run */                                                                                       \
    X(34, ATC_BUFFER_LENGTHS,          "kinds and operands differ in length, the stack buffer is below 4,096, work "   \
                                       "and storage buffers differ in length, or the used length exceeds the "         \
                                       "storage buffer")                                                               \
    X(35, ATC_INVALID_CHAIN_ID,        "the chain id isn't `atc`")                                                     \
    X(36, ATC_INVALID_NETWORK_ID,      "the network isn't `devnet`, `testnet` or `mainnet`")                           \
    X(37, ATC_INVALID_GENESIS_ID,      "the genesis id isn't 64 ASCII hex digits")                                     \
    X(38, ATC_PROTOCOL_MISMATCH,       "the protocol differs from the expected one")                                   \
    X(39, ATC_VM_MISMATCH,             "the VM version differs from the expected one")                                 \
    X(40, ATC_GENESIS_MISMATCH,        "the genesis id differs bytewise from the computed one")                        \
    X(41, ATC_EMPTY_PROGRAM,           "the program is empty")                                                         \
    X(42, ATC_PROGRAM_TOO_LARGE,       "the program exceeds 65,536 operations")              /* size */                \
    X(43, ATC_STORAGE_TOO_LARGE,       "the used storage exceeds 65,536")                    /* used length */         \
    X(44, ATC_UNKNOWN_KIND,            "an operation has a kind above 15")                                             \
    X(45, ATC_JUMP_OUT_OF_RANGE,       "a jump target is not below the program's length")                              \
    X(46, ATC_OUT_OF_GAS,              "the price exceeds the gas left")                     /* price, gas left */     \
    X(47, ATC_STACK_UNDERFLOW,         "the stack has too few items")                                                  \
    X(48, ATC_STACK_LIMIT_EXCEEDED,    "a push meets 4,096 items")                                                     \
    X(49, ATC_DIVISION_BY_ZERO,        "the divisor is 0")                                                             \
    X(50, ATC_STORAGE_LIMIT_EXCEEDED,  "a stored slot is 65,536 or more")                    /* slot + 1 */            \
    X(51, ATC_OUTSIDE_STORAGE,         "the slot is beyond the lent storage")

#define ATC_NAMED(number, name, words) , name = number
enum { ATC_SUCCESS = 0 ATC_REFUSALS(ATC_NAMED) };
#undef ATC_NAMED

enum {
    ATC_PUSH = 0,
    ATC_ADD = 1,
    ATC_SUB = 2,
    ATC_MUL = 3,
    ATC_DIV = 4,
    ATC_DUP = 5,
    ATC_SWAP = 6,
    ATC_JUMP = 7,
    ATC_JUMP_IF_NOT_ZERO = 8,
    ATC_EQ = 9,
    ATC_LT = 10,
    ATC_LOAD = 11,
    ATC_STORE = 12,
    ATC_CALLER = 13,
    ATC_JUMP_IF_ZERO = 14,
    ATC_HALT = 15
};

enum {
    ATC_ANSWER_WORDS = 8,
    ATC_MAX_TEXT = 65536,          /* bytes of a contract or a vector */
    ATC_MAX_OUTPUT = 983440,       /* with this much room atc_assemble never gives 26 */
    ATC_MAX_PROGRAM_OPS = 65536,
    ATC_MAX_STACK_ITEMS = 4096,    /* the least length of a stack buffer */
    ATC_MAX_STORAGE_SLOTS = 65536  /* with this much work and storage a run never gives 51 */
};

/*
 * Assembles a contract and its vector to ops text in `out`.
 * Gives 0 to 26. On 0 the answer is [bytes written, k, p, value]: k is how many literals and parameters the operations
 * push (they are 2k with Halt), p how many stack items their run needs, the value that of the last `return ` line.
 * `out` past the bytes written is untouched; on a refusal all of it is.
 * `stem` is the name that the first line of the output gives.
 */
uint64_t atc_assemble(const uint8_t *contract, size_t contract_len,
                      const uint8_t *vector, size_t vector_len,
                      const uint8_t *stem, size_t stem_len,
                      uint8_t *out, size_t out_len,
                      uint64_t *answer);

/*
 * Reads ops text into kinds and operands.
 * Gives 0, 27 to 33. On 0 the answer is [operations]; both buffers past them are untouched, and on a refusal all of
 * both is. The two buffers may differ in length: there is room for the shorter. A text of n bytes has at most
 * (n + 1) / 3 operations.
 */
uint64_t atc_parse_ops(const uint8_t *text, size_t text_len,
                       uint8_t *kinds, size_t kinds_len,
                       uint64_t *operands, size_t operands_len,
                       uint64_t *answer);

/*
 * Where the trimmed text of a line stands; lines count from 1.
 * Always gives 0. The answer is [place, length], in bytes of the text: [0, 0] where there is no such line or the text
 * isn't UTF-8; of a blank line its end without the line ending, and 0.
 */
uint64_t atc_trimmed_line(const uint8_t *text, size_t text_len, uint64_t line, uint64_t *answer);

/*
 * The chain gate: the first five describe the context, the sixth is the genesis id that the node has computed, the last
 * two are what the node expects. It compares bytes and tests no UTF-8.
 * Gives 0, 35 to 40. It has no answer.
 */
uint64_t atc_execution_gate(const uint8_t *chain_id, size_t chain_id_len,
                            const uint8_t *network_id, size_t network_id_len,
                            const uint8_t *genesis_id, size_t genesis_id_len,
                            const uint8_t *protocol_version, size_t protocol_version_len,
                            const uint8_t *vm_version, size_t vm_version_len,
                            const uint8_t *computed_genesis_id, size_t computed_genesis_id_len,
                            const uint8_t *expected_protocol, size_t expected_protocol_len,
                            const uint8_t *expected_vm, size_t expected_vm_len);

/*
 * The verifier, of a program and a used length.
 * Gives 0, 34 (for kinds and operands), 41 to 45. On 0 the answer is eight zeros.
 */
uint64_t atc_verify(const uint8_t *kinds, size_t kinds_len,
                    const uint64_t *operands, size_t operands_len,
                    uint64_t used,
                    uint64_t *answer);

/*
 * Verifies a program and runs it under a gas limit, on the first `used` slots of the storage buffer.
 * Gives 0, 34, 41 to 51. On 0 the answer is [gas spent, operations executed, items, used length after]: the stack
 * buffer holds the items, bottom first, then zeros; the work buffer is zero; the storage buffer holds the slots, and is
 * untouched past the used length after. What the stack and work buffers hold before doesn't matter, nor what the
 * storage buffer holds past `used`. After a refusal the storage buffer is word by word what it was, and the used length
 * is still `used`: don't take it from answer[3], which is 0 then.
 * `stack` needs ATC_MAX_STACK_ITEMS or more, `work` and `storage` one length, no less than `used`. All of `stack` and
 * `work` is cleared, so short ones are faster.
 */
uint64_t atc_run_with_gas(const uint8_t *kinds, size_t kinds_len,
                          const uint64_t *operands, size_t operands_len,
                          uint64_t caller,
                          uint64_t gas_limit,
                          uint64_t *stack, size_t stack_len,
                          uint64_t *work, size_t work_len,
                          uint64_t *storage, size_t storage_len,
                          uint64_t used,
                          uint64_t *answer);

/*
 * The chain gate, then atc_run_with_gas behind it. 34 comes before the gate.
 * Gives 0, 34 to 51. Answer and buffers are as for atc_run_with_gas.
 */
uint64_t atc_execute_state_transition_with_gas(
    const uint8_t *chain_id, size_t chain_id_len,
    const uint8_t *network_id, size_t network_id_len,
    const uint8_t *genesis_id, size_t genesis_id_len,
    const uint8_t *protocol_version, size_t protocol_version_len,
    const uint8_t *vm_version, size_t vm_version_len,
    const uint8_t *computed_genesis_id, size_t computed_genesis_id_len,
    const uint8_t *expected_protocol, size_t expected_protocol_len,
    const uint8_t *expected_vm, size_t expected_vm_len,
    const uint8_t *kinds, size_t kinds_len,
    const uint64_t *operands, size_t operands_len,
    uint64_t caller,
    uint64_t gas_limit,
    uint64_t *stack, size_t stack_len,
    uint64_t *work, size_t work_len,
    uint64_t *storage, size_t storage_len,
    uint64_t used,
    uint64_t *answer);

/*
 * The same with a gas limit of 0, under which only a program that starts with Halt succeeds; another that verifies is
 * ATC_OUT_OF_GAS. Gives 0, 34 to 46. Answer and buffers are as for atc_run_with_gas.
 */
uint64_t atc_execute_state_transition(
    const uint8_t *chain_id, size_t chain_id_len,
    const uint8_t *network_id, size_t network_id_len,
    const uint8_t *genesis_id, size_t genesis_id_len,
    const uint8_t *protocol_version, size_t protocol_version_len,
    const uint8_t *vm_version, size_t vm_version_len,
    const uint8_t *computed_genesis_id, size_t computed_genesis_id_len,
    const uint8_t *expected_protocol, size_t expected_protocol_len,
    const uint8_t *expected_vm, size_t expected_vm_len,
    const uint8_t *kinds, size_t kinds_len,
    const uint64_t *operands, size_t operands_len,
    uint64_t caller,
    uint64_t *stack, size_t stack_len,
    uint64_t *work, size_t work_len,
    uint64_t *storage, size_t storage_len,
    uint64_t used,
    uint64_t *answer);

#ifdef __cplusplus
}
#endif

#endif
