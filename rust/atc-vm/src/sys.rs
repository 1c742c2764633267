//! The eight calls of `include/atc_vm.h`, safe: every buffer is a slice that the caller lends.
//!
//! The other modules are made of these. Use them directly to choose the buffers' lengths, to keep buffers from call
//! to call, or to read document 01's numbers and values as they are.
//!
//! The header asks five things of a caller, and slices keep all five:
//!
//! - Each pointer is valid for its count, and what it points to has been written: a slice is its pointer and its
//!   length, and all of it is initialized. The pointer of an empty slice dangles, and nothing goes through it.
//! - A pointer to `u64` is aligned: a `[u64]` is.
//! - Mutable buffers overlap nothing: `&mut` slices that live at the same time don't.
//! - Nothing else writes the arguments or reads the buffers during the call: that is what `&` and `&mut` mean.
//! - `answer` points to eight words: it is an array of eight, made here.
//!
//! The sixth is 512 KiB of the calling thread's stack. A thread's default in Rust is 2 MiB. Where there is less, the call
//! may end the process at the stack's guard page, as Rust code does.

/// Document 01's number, 0 for success, and the values that go with it, then zeros.
#[derive(Debug, Clone, Copy, PartialEq, Eq)]
pub struct Answer {
    /// 0, or the refusal.
    pub number: u64,
    /// What the header's table, or the call's own description, names for this number.
    pub words: [u64; 8],
}

// What an answer holds before its call, which writes all eight words. Were one left out, it would show.
const UNWRITTEN: [u64; 8] = [u64::MAX; 8];

impl Answer {
    // A usize has 64 bits where this compiles.
    pub(crate) fn word(&self, i: usize) -> usize {
        self.words[i] as usize
    }
}

/// The chain gate's eight texts, in the order of the header.
#[derive(Debug, Clone, Copy, PartialEq, Eq)]
#[allow(missing_docs)]
pub struct Gate<'a> {
    pub chain_id: &'a [u8],
    pub network_id: &'a [u8],
    pub genesis_id: &'a [u8],
    pub protocol_version: &'a [u8],
    pub vm_version: &'a [u8],
    pub computed_genesis_id: &'a [u8],
    pub expected_protocol: &'a [u8],
    pub expected_vm: &'a [u8],
}

/// What a run is given: the program, the caller, and the lent buffers with the used length of the storage.
#[derive(Debug)]
#[allow(missing_docs)]
pub struct Run<'a> {
    pub kinds: &'a [u8],
    pub operands: &'a [u64],
    pub caller: u64,
    pub stack: &'a mut [u64],
    pub work: &'a mut [u64],
    pub storage: &'a mut [u64],
    pub used: u64,
}

mod c {
    // As include/atc_vm.h declares them; tests/header.rs compares the two, and both with crates/atc_vm_c.
    extern "C" {
        pub fn atc_assemble(
            contract: *const u8,
            contract_len: usize,
            vector: *const u8,
            vector_len: usize,
            stem: *const u8,
            stem_len: usize,
            out: *mut u8,
            out_len: usize,
            answer: *mut u64,
        ) -> u64;

        pub fn atc_parse_ops(
            text: *const u8,
            text_len: usize,
            kinds: *mut u8,
            kinds_len: usize,
            operands: *mut u64,
            operands_len: usize,
            answer: *mut u64,
        ) -> u64;

        pub fn atc_trimmed_line(
            text: *const u8,
            text_len: usize,
            line: u64,
            answer: *mut u64,
        ) -> u64;

        pub fn atc_execution_gate(
            chain_id: *const u8,
            chain_id_len: usize,
            network_id: *const u8,
            network_id_len: usize,
            genesis_id: *const u8,
            genesis_id_len: usize,
            protocol_version: *const u8,
            protocol_version_len: usize,
            vm_version: *const u8,
            vm_version_len: usize,
            computed_genesis_id: *const u8,
            computed_genesis_id_len: usize,
            expected_protocol: *const u8,
            expected_protocol_len: usize,
            expected_vm: *const u8,
            expected_vm_len: usize,
        ) -> u64;

        pub fn atc_verify(
            kinds: *const u8,
            kinds_len: usize,
            operands: *const u64,
            operands_len: usize,
            used: u64,
            answer: *mut u64,
        ) -> u64;

        pub fn atc_run_with_gas(
            kinds: *const u8,
            kinds_len: usize,
            operands: *const u64,
            operands_len: usize,
            caller: u64,
            gas_limit: u64,
            stack: *mut u64,
            stack_len: usize,
            work: *mut u64,
            work_len: usize,
            storage: *mut u64,
            storage_len: usize,
            used: u64,
            answer: *mut u64,
        ) -> u64;

        pub fn atc_execute_state_transition_with_gas(
            chain_id: *const u8,
            chain_id_len: usize,
            network_id: *const u8,
            network_id_len: usize,
            genesis_id: *const u8,
            genesis_id_len: usize,
            protocol_version: *const u8,
            protocol_version_len: usize,
            vm_version: *const u8,
            vm_version_len: usize,
            computed_genesis_id: *const u8,
            computed_genesis_id_len: usize,
            expected_protocol: *const u8,
            expected_protocol_len: usize,
            expected_vm: *const u8,
            expected_vm_len: usize,
            kinds: *const u8,
            kinds_len: usize,
            operands: *const u64,
            operands_len: usize,
            caller: u64,
            gas_limit: u64,
            stack: *mut u64,
            stack_len: usize,
            work: *mut u64,
            work_len: usize,
            storage: *mut u64,
            storage_len: usize,
            used: u64,
            answer: *mut u64,
        ) -> u64;

        pub fn atc_execute_state_transition(
            chain_id: *const u8,
            chain_id_len: usize,
            network_id: *const u8,
            network_id_len: usize,
            genesis_id: *const u8,
            genesis_id_len: usize,
            protocol_version: *const u8,
            protocol_version_len: usize,
            vm_version: *const u8,
            vm_version_len: usize,
            computed_genesis_id: *const u8,
            computed_genesis_id_len: usize,
            expected_protocol: *const u8,
            expected_protocol_len: usize,
            expected_vm: *const u8,
            expected_vm_len: usize,
            kinds: *const u8,
            kinds_len: usize,
            operands: *const u64,
            operands_len: usize,
            caller: u64,
            stack: *mut u64,
            stack_len: usize,
            work: *mut u64,
            work_len: usize,
            storage: *mut u64,
            storage_len: usize,
            used: u64,
            answer: *mut u64,
        ) -> u64;
    }
}

/// `atc_assemble`: 0 with `[bytes written, k, p, value]`, or 1 to 26.
#[inline]
pub fn assemble(contract: &[u8], vector: &[u8], stem: &[u8], out: &mut [u8]) -> Answer {
    let mut words = UNWRITTEN;
    // SAFETY: three shared slices with their lengths, one mutable slice with its length, and an array of eight that
    // nothing else points to.
    let number = unsafe {
        c::atc_assemble(
            contract.as_ptr(),
            contract.len(),
            vector.as_ptr(),
            vector.len(),
            stem.as_ptr(),
            stem.len(),
            out.as_mut_ptr(),
            out.len(),
            words.as_mut_ptr(),
        )
    };
    Answer { number, words }
}

/// `atc_parse_ops`: 0 with `[operations]`, or 27 to 33.
#[inline]
pub fn parse_ops(text: &[u8], kinds: &mut [u8], operands: &mut [u64]) -> Answer {
    let mut words = UNWRITTEN;
    // SAFETY: a shared slice and two mutable ones, each with its length, and an array of eight that nothing else
    // points to.
    let number = unsafe {
        c::atc_parse_ops(
            text.as_ptr(),
            text.len(),
            kinds.as_mut_ptr(),
            kinds.len(),
            operands.as_mut_ptr(),
            operands.len(),
            words.as_mut_ptr(),
        )
    };
    Answer { number, words }
}

/// `atc_trimmed_line`: always 0, with `[place, length]`.
#[inline]
pub fn trimmed_line(text: &[u8], line: u64) -> Answer {
    let mut words = UNWRITTEN;
    // SAFETY: a shared slice with its length, and an array of eight that nothing else points to.
    let number =
        unsafe { c::atc_trimmed_line(text.as_ptr(), text.len(), line, words.as_mut_ptr()) };
    Answer { number, words }
}

/// `atc_execution_gate`: 0, or 35 to 40.
#[inline]
pub fn execution_gate(gate: Gate<'_>) -> u64 {
    // SAFETY: eight shared slices, each with its length; nothing is written.
    unsafe {
        c::atc_execution_gate(
            gate.chain_id.as_ptr(),
            gate.chain_id.len(),
            gate.network_id.as_ptr(),
            gate.network_id.len(),
            gate.genesis_id.as_ptr(),
            gate.genesis_id.len(),
            gate.protocol_version.as_ptr(),
            gate.protocol_version.len(),
            gate.vm_version.as_ptr(),
            gate.vm_version.len(),
            gate.computed_genesis_id.as_ptr(),
            gate.computed_genesis_id.len(),
            gate.expected_protocol.as_ptr(),
            gate.expected_protocol.len(),
            gate.expected_vm.as_ptr(),
            gate.expected_vm.len(),
        )
    }
}

/// `atc_verify`: 0, 34, or 41 to 45.
#[inline]
pub fn verify(kinds: &[u8], operands: &[u64], used: u64) -> Answer {
    let mut words = UNWRITTEN;
    // SAFETY: two shared slices, each with its length, and an array of eight that nothing else points to.
    let number = unsafe {
        c::atc_verify(
            kinds.as_ptr(),
            kinds.len(),
            operands.as_ptr(),
            operands.len(),
            used,
            words.as_mut_ptr(),
        )
    };
    Answer { number, words }
}

/// `atc_run_with_gas`: 0 with `[gas spent, operations, items, used length after]`, or 34, 41 to 51.
#[inline]
pub fn run_with_gas(run: Run<'_>, gas_limit: u64) -> Answer {
    let mut words = UNWRITTEN;
    // SAFETY: two shared slices and three mutable ones, each with its length, and an array of eight that nothing else
    // points to.
    let number = unsafe {
        c::atc_run_with_gas(
            run.kinds.as_ptr(),
            run.kinds.len(),
            run.operands.as_ptr(),
            run.operands.len(),
            run.caller,
            gas_limit,
            run.stack.as_mut_ptr(),
            run.stack.len(),
            run.work.as_mut_ptr(),
            run.work.len(),
            run.storage.as_mut_ptr(),
            run.storage.len(),
            run.used,
            words.as_mut_ptr(),
        )
    };
    Answer { number, words }
}

/// `atc_execute_state_transition_with_gas`: as [`run_with_gas`], or 35 to 40.
#[inline]
pub fn execute_state_transition_with_gas(gate: Gate<'_>, run: Run<'_>, gas_limit: u64) -> Answer {
    let mut words = UNWRITTEN;
    // SAFETY: ten shared slices and three mutable ones, each with its length, and an array of eight that nothing else
    // points to.
    let number = unsafe {
        c::atc_execute_state_transition_with_gas(
            gate.chain_id.as_ptr(),
            gate.chain_id.len(),
            gate.network_id.as_ptr(),
            gate.network_id.len(),
            gate.genesis_id.as_ptr(),
            gate.genesis_id.len(),
            gate.protocol_version.as_ptr(),
            gate.protocol_version.len(),
            gate.vm_version.as_ptr(),
            gate.vm_version.len(),
            gate.computed_genesis_id.as_ptr(),
            gate.computed_genesis_id.len(),
            gate.expected_protocol.as_ptr(),
            gate.expected_protocol.len(),
            gate.expected_vm.as_ptr(),
            gate.expected_vm.len(),
            run.kinds.as_ptr(),
            run.kinds.len(),
            run.operands.as_ptr(),
            run.operands.len(),
            run.caller,
            gas_limit,
            run.stack.as_mut_ptr(),
            run.stack.len(),
            run.work.as_mut_ptr(),
            run.work.len(),
            run.storage.as_mut_ptr(),
            run.storage.len(),
            run.used,
            words.as_mut_ptr(),
        )
    };
    Answer { number, words }
}

/// `atc_execute_state_transition`: the same with no gas; 0, or 34 to 46.
#[inline]
pub fn execute_state_transition(gate: Gate<'_>, run: Run<'_>) -> Answer {
    let mut words = UNWRITTEN;
    // SAFETY: as for the call with gas.
    let number = unsafe {
        c::atc_execute_state_transition(
            gate.chain_id.as_ptr(),
            gate.chain_id.len(),
            gate.network_id.as_ptr(),
            gate.network_id.len(),
            gate.genesis_id.as_ptr(),
            gate.genesis_id.len(),
            gate.protocol_version.as_ptr(),
            gate.protocol_version.len(),
            gate.vm_version.as_ptr(),
            gate.vm_version.len(),
            gate.computed_genesis_id.as_ptr(),
            gate.computed_genesis_id.len(),
            gate.expected_protocol.as_ptr(),
            gate.expected_protocol.len(),
            gate.expected_vm.as_ptr(),
            gate.expected_vm.len(),
            run.kinds.as_ptr(),
            run.kinds.len(),
            run.operands.as_ptr(),
            run.operands.len(),
            run.caller,
            run.stack.as_mut_ptr(),
            run.stack.len(),
            run.work.as_mut_ptr(),
            run.work.len(),
            run.storage.as_mut_ptr(),
            run.storage.len(),
            run.used,
            words.as_mut_ptr(),
        )
    };
    Answer { number, words }
}
