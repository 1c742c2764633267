/*
 * The tally of document 01 through include/atc_vm.h: assembled, read and run; then refusals with their names and
 * words, a storage that stays as it was, and NULL before every count of 0. tests/header.rs compiles it as C99 and as
 * C++ and runs it. By hand, from the repository's root:
 *
 *     gcc -std=c99 -Wall -Wextra -Iinclude rust/atc-vm/tests/abi.c target/staticlib/libatc_vm.a -o target/abi
 *     target/abi
 */
#include <stdio.h>
#include <string.h>

#include "atc_vm.h"

static int failed = 0;

#define EXPECT(name, got, due)                                                            \
    do {                                                                                  \
        uint64_t got_ = (uint64_t)(got), due_ = (uint64_t)(due);                          \
        if (got_ != due_) {                                                               \
            printf("%s: %llu, not %llu\n", name, (unsigned long long)got_,                \
                   (unsigned long long)due_);                                             \
            failed = 1;                                                                   \
        }                                                                                 \
    } while (0)

/* The words of a number, from the header's list. */
static const char *text_of(uint64_t number) {
    switch (number) {
    case ATC_SUCCESS:
        return "success";
#define CASE(number, name, text) \
    case name:                   \
        return text;
        ATC_REFUSALS(CASE)
#undef CASE
    default:
        return "no number of document 01";
    }
}

#define GIVES(name, call, due)                                                            \
    do {                                                                                  \
        uint64_t number_ = (call);                                                        \
        if (number_ != (uint64_t)(due)) {                                                 \
            printf("%s: %llu (%s), not %s\n", name, (unsigned long long)number_,          \
                   text_of(number_), #due);                                               \
            failed = 1;                                                                   \
        }                                                                                 \
    } while (0)

static const uint8_t *bytes(const char *text) { return (const uint8_t *)text; }

static void words(const char *name, const uint64_t *answer, uint64_t a, uint64_t b, uint64_t c, uint64_t d) {
    EXPECT(name, answer[0], a);
    EXPECT(name, answer[1], b);
    EXPECT(name, answer[2], c);
    EXPECT(name, answer[3], d);
    EXPECT(name, answer[4] | answer[5] | answer[6] | answer[7], 0);
}

static uint8_t out[ATC_MAX_OUTPUT];
static uint64_t stack[ATC_MAX_STACK_ITEMS];

static void names(void) {
    char version[64];
    sprintf(version, "%d.%d.%d", ATC_VM_VERSION_MAJOR, ATC_VM_VERSION_MINOR, ATC_VM_VERSION_PATCH);
    EXPECT("name", ATC_OUT_OF_GAS, 46);
    EXPECT("words", strcmp(text_of(46), "the price exceeds the gas left"), 0);
    EXPECT("no words", strcmp(text_of(999), "no number of document 01"), 0);
    EXPECT("version", strcmp(version, ATC_VM_VERSION), 0);
}

static void tally(void) {
    const char *contract = "fn total (a, b) {\n  let s = a + b\n  return s * 2\n}\n";
    const char *vector = "{\"a\": 5, \"b\": 7, \"expected\": 24}";
    const char *due = "# contract: tally\n# expected: 24\nPush 5\nPush 7\nAdd\nPush 2\nMul\nHalt\n";
    const uint8_t kinds_due[6] = {ATC_PUSH, ATC_PUSH, ATC_ADD, ATC_PUSH, ATC_MUL, ATC_HALT};
    const uint64_t operands_due[6] = {5, 7, 0, 2, 0, 0};
    uint64_t answer[ATC_ANSWER_WORDS];
    uint64_t storage[4] = {1, 2, 3, 4}, work[4] = {0, 0, 0, 0}, operands[8];
    uint8_t kinds[8];
    size_t written, count, i;

    memset(answer, 0xff, sizeof answer);
    memset(out, 0xee, sizeof out);
    memset(kinds, 0xee, sizeof kinds);
    memset(operands, 0xee, sizeof operands);
    memset(stack, 0xee, sizeof stack);

    GIVES("assemble", atc_assemble(bytes(contract), strlen(contract), bytes(vector), strlen(vector), bytes("tally"), 5,
                                   out, sizeof out, answer), ATC_SUCCESS);
    words("assemble", answer, strlen(due), 3, 2, 24);
    written = (size_t)answer[0];
    EXPECT("output", memcmp(out, due, strlen(due)), 0);
    EXPECT("past the output", out[written], 0xee);
    GIVES("one byte too few", atc_assemble(bytes(contract), strlen(contract), bytes(vector), strlen(vector),
                                           bytes("tally"), 5, out, written - 1, answer), ATC_OUTPUT_TOO_LONG);
    words("one byte too few", answer, 0, 0, 0, 0);

    GIVES("parse_ops", atc_parse_ops(out, written, kinds, 8, operands, 8, answer), ATC_SUCCESS);
    words("parse_ops", answer, 6, 0, 0, 0);
    count = (size_t)answer[0];
    EXPECT("kinds", memcmp(kinds, kinds_due, sizeof kinds_due), 0);
    EXPECT("operands", memcmp(operands, operands_due, sizeof operands_due), 0);
    EXPECT("past the kinds", kinds[6], 0xee);
    GIVES("five kinds for six", atc_parse_ops(out, written, kinds, 5, operands, 8, answer), ATC_OPS_FULL);
    words("five kinds for six", answer, 8, 0, 0, 0);

    GIVES("trimmed_line", atc_trimmed_line(out, written, 3, answer), ATC_SUCCESS);
    words("trimmed_line", answer, 33, 6, 0, 0);
    GIVES("verify", atc_verify(kinds, count, operands, count, 2, answer), ATC_SUCCESS);
    words("verify", answer, 0, 0, 0, 0);

    GIVES("run_with_gas", atc_run_with_gas(kinds, count, operands, count, 7, 1000, stack, ATC_MAX_STACK_ITEMS, work, 4,
                                           storage, 4, 2, answer), ATC_SUCCESS);
    words("run_with_gas", answer, 7, 6, 1, 2);
    EXPECT("the item", stack[0], 24);
    for (i = 1; i < ATC_MAX_STACK_ITEMS; i++) {
        EXPECT("past the item", stack[i], 0);
    }
    for (i = 0; i < 4; i++) {
        EXPECT("storage", storage[i], i + 1);
    }
    GIVES("gas 6", atc_run_with_gas(kinds, count, operands, count, 7, 6, stack, ATC_MAX_STACK_ITEMS, work, 4, storage,
                                    4, 2, answer), ATC_OUT_OF_GAS);
    words("gas 6", answer, 2, 1, 0, 0);
    GIVES("a short stack", atc_run_with_gas(kinds, count, operands, count, 7, 6, stack, ATC_MAX_STACK_ITEMS - 1, work,
                                            4, storage, 4, 2, answer), ATC_BUFFER_LENGTHS);
}

static void transition(void) {
    const char *genesis = "0123456789abcdef0123456789ABCDEF0123456789abcdef0123456789ABCDEF";
    const uint8_t kinds[2] = {ATC_CALLER, ATC_STORE}, halt[1] = {ATC_HALT};
    const uint64_t operands[2] = {0, 1}, none[1] = {0};
    uint64_t answer[ATC_ANSWER_WORDS], work[2] = {9, 9}, storage[2] = {5, 6};

#define GATE(chain, protocol)                                                                                    \
    bytes(chain), strlen(chain), bytes("devnet"), 6, bytes(genesis), 64, bytes("p"), 1, bytes("v"), 1,           \
        bytes(genesis), 64, bytes(protocol), strlen(protocol), bytes("v"), 1
    GIVES("gate", atc_execution_gate(GATE("atc", "p")), ATC_SUCCESS);
    GIVES("gate", atc_execution_gate(GATE("atc", "q")), ATC_PROTOCOL_MISMATCH);
    GIVES("with gas", atc_execute_state_transition_with_gas(GATE("atc", "p"), kinds, 2, operands, 2, 7, 4, stack,
                                                            ATC_MAX_STACK_ITEMS, work, 2, storage, 2, 1, answer),
          ATC_SUCCESS);
    words("with gas", answer, 4, 2, 0, 2);
    EXPECT("stored", storage[0], 5);
    EXPECT("stored", storage[1], 7);
    GIVES("gate before gas", atc_execute_state_transition_with_gas(GATE("btc", "p"), kinds, 2, operands, 2, 7, 0, stack,
                                                                   ATC_MAX_STACK_ITEMS, work, 2, storage, 2, 1,
                                                                   answer), ATC_INVALID_CHAIN_ID);
    GIVES("no gas", atc_execute_state_transition(GATE("atc", "p"), kinds, 2, operands, 2, 7, stack,
                                                 ATC_MAX_STACK_ITEMS, work, 2, storage, 2, 1, answer),
          ATC_OUT_OF_GAS);
    words("no gas", answer, 1, 0, 0, 0);
    GIVES("halt", atc_execute_state_transition(GATE("atc", "p"), halt, 1, none, 1, 7, stack, ATC_MAX_STACK_ITEMS, work,
                                               2, storage, 2, 1, answer), ATC_SUCCESS);
    words("halt", answer, 0, 1, 0, 1);
}

/* A new cylinder is stored, then gas ends or a divisor is 0: under every limit the storage is as it was. */
static void rollback(void) {
    const uint8_t kinds[5] = {ATC_PUSH, ATC_STORE, ATC_PUSH, ATC_PUSH, ATC_DIV};
    const uint64_t operands[5] = {75, 0, 180, 0, 0};
    const uint64_t before[4] = {50, 90, 5, 6};
    uint64_t answer[ATC_ANSWER_WORDS], work[4], storage[4];
    uint64_t limit;

    memcpy(storage, before, sizeof before);
    for (limit = 0; limit <= 9; limit++) {
        memset(work, 0xee, sizeof work);
        GIVES("rollback", atc_run_with_gas(kinds, 5, operands, 5, 7, limit, stack, ATC_MAX_STACK_ITEMS, work, 4,
                                           storage, 4, 2, answer), limit < 8 ? ATC_OUT_OF_GAS : ATC_DIVISION_BY_ZERO);
        EXPECT("storage as before", memcmp(storage, before, sizeof before), 0);
        EXPECT("work cleared", work[0] | work[1] | work[2] | work[3] | stack[0] | stack[1], 0);
    }
}

/* NULL before every count of 0 that a call can go on from, and before all of them. */
static void nothing(void) {
    const char *contract = "fn f () {\n return 1 \n}";
    const char *vector = "\"expected\": 1";
    const uint8_t push[1] = {ATC_PUSH};
    const uint64_t one[1] = {1};
    uint64_t answer[ATC_ANSWER_WORDS];
    GIVES("contract", atc_assemble(NULL, 0, NULL, 0, NULL, 0, NULL, 0, answer), ATC_NO_FUNCTION);
    GIVES("vector", atc_assemble(bytes(contract), strlen(contract), NULL, 0, NULL, 0, NULL, 0, answer), ATC_NO_KEY);
    GIVES("stem", atc_assemble(bytes(contract), strlen(contract), bytes(vector), strlen(vector), NULL, 0, NULL, 0,
                               answer), ATC_BAD_STEM);
    GIVES("out", atc_assemble(bytes(contract), strlen(contract), bytes(vector), strlen(vector), bytes("s"), 1, NULL, 0,
                              answer), ATC_OUTPUT_TOO_LONG);
    GIVES("text", atc_parse_ops(NULL, 0, NULL, 0, NULL, 0, answer), ATC_OPS_EMPTY);
    GIVES("buffers", atc_parse_ops(bytes("Eq\n"), 3, NULL, 0, NULL, 0, answer), ATC_OPS_FULL);
    GIVES("line", atc_trimmed_line(NULL, 0, 1, answer), ATC_SUCCESS);
    words("line", answer, 0, 0, 0, 0);
    GIVES("gate", atc_execution_gate(NULL, 0, NULL, 0, NULL, 0, NULL, 0, NULL, 0, NULL, 0, NULL, 0, NULL, 0),
          ATC_INVALID_CHAIN_ID);
    GIVES("versions", atc_execution_gate(bytes("atc"), 3, bytes("devnet"), 6,
                                         bytes("0000000000000000000000000000000000000000000000000000000000000000"), 64,
                                         NULL, 0, NULL, 0, NULL, 0, NULL, 0, NULL, 0), ATC_GENESIS_MISMATCH);
    GIVES("verify", atc_verify(NULL, 0, NULL, 0, 0, answer), ATC_EMPTY_PROGRAM);
    GIVES("all", atc_run_with_gas(NULL, 0, NULL, 0, 0, 0, NULL, 0, NULL, 0, NULL, 0, 0, answer), ATC_BUFFER_LENGTHS);
    GIVES("program", atc_run_with_gas(NULL, 0, NULL, 0, 0, 0, stack, ATC_MAX_STACK_ITEMS, NULL, 0, NULL, 0, 0, answer),
          ATC_EMPTY_PROGRAM);
    GIVES("storage", atc_run_with_gas(push, 1, one, 1, 0, 1, stack, ATC_MAX_STACK_ITEMS, NULL, 0, NULL, 0, 0, answer),
          ATC_SUCCESS);
    words("storage", answer, 1, 1, 1, 0);
    GIVES("storage, refused", atc_run_with_gas(push, 1, one, 1, 0, 0, stack, ATC_MAX_STACK_ITEMS, NULL, 0, NULL, 0, 0,
                                               answer), ATC_OUT_OF_GAS);
}

int main(void) {
    names();
    tally();
    transition();
    rollback();
    nothing();
    if (!failed) {
        puts("abi: all as due");
    }
    return failed;
}
