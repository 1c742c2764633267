//! The chain context and its gate.

use crate::{refusal, sys};
use std::fmt;

/// The one chain id that passes the gate.
pub const CHAIN_ID: &str = "atc";
/// The domain of transactions, as the original has it. Nothing here uses it.
pub const TX_DOMAIN: &str = "ATC-TX-DOMAIN";

/// What a transition says about the chain that it is for.
#[derive(Debug, Clone, PartialEq, Eq)]
pub struct ChainContext {
    /// `atc`.
    pub chain_id: String,
    /// `devnet`, `testnet` or `mainnet`.
    pub network_id: String,
    /// 64 ASCII hex digits.
    pub genesis_id: String,
    /// The protocol's version.
    pub protocol_version: String,
    /// The machine's version.
    pub vm_version: String,
}

/// Why a context does not pass.
#[derive(Debug, Clone, PartialEq, Eq)]
pub enum ContextError {
    /// 35: the chain id isn't `atc`.
    InvalidChainId,
    /// 36: the network isn't `devnet`, `testnet` or `mainnet`.
    InvalidNetworkId,
    /// 37: the genesis id isn't 64 ASCII hex digits.
    InvalidGenesisId,
    /// 38: the protocol differs from the expected one.
    ProtocolMismatch,
    /// 39: the machine's version differs from the expected one.
    VmMismatch,
    /// 40: the genesis id differs from the computed one.
    GenesisMismatch,
}

impl ContextError {
    /// Document 01's number.
    pub fn number(&self) -> u64 {
        match self {
            ContextError::InvalidChainId => 35,
            ContextError::InvalidNetworkId => 36,
            ContextError::InvalidGenesisId => 37,
            ContextError::ProtocolMismatch => 38,
            ContextError::VmMismatch => 39,
            ContextError::GenesisMismatch => 40,
        }
    }

    pub(crate) fn of(number: u64) -> Option<ContextError> {
        match number {
            35 => Some(ContextError::InvalidChainId),
            36 => Some(ContextError::InvalidNetworkId),
            37 => Some(ContextError::InvalidGenesisId),
            38 => Some(ContextError::ProtocolMismatch),
            39 => Some(ContextError::VmMismatch),
            40 => Some(ContextError::GenesisMismatch),
            _ => None,
        }
    }
}

impl fmt::Display for ContextError {
    fn fmt(&self, f: &mut fmt::Formatter<'_>) -> fmt::Result {
        f.write_str(refusal::text(self.number()))
    }
}

impl std::error::Error for ContextError {}

impl ChainContext {
    /// The gate without its comparison with a computed genesis id: 35 to 39.
    pub fn validate(&self, expected_protocol: &str, expected_vm: &str) -> Result<(), ContextError> {
        execution_gate(self, &self.genesis_id, expected_protocol, expected_vm)
    }

    /// The comparison alone: 40.
    pub fn verify_genesis_id(&self, computed: &str) -> Result<(), ContextError> {
        if self.genesis_id == computed {
            Ok(())
        } else {
            Err(ContextError::GenesisMismatch)
        }
    }

    pub(crate) fn gate<'a>(
        &'a self,
        computed_genesis_id: &'a str,
        expected_protocol: &'a str,
        expected_vm: &'a str,
    ) -> sys::Gate<'a> {
        sys::Gate {
            chain_id: self.chain_id.as_bytes(),
            network_id: self.network_id.as_bytes(),
            genesis_id: self.genesis_id.as_bytes(),
            protocol_version: self.protocol_version.as_bytes(),
            vm_version: self.vm_version.as_bytes(),
            computed_genesis_id: computed_genesis_id.as_bytes(),
            expected_protocol: expected_protocol.as_bytes(),
            expected_vm: expected_vm.as_bytes(),
        }
    }
}

/// The chain gate, which stands before every state transition: 35 to 40.
///
/// ```
/// use atc_vm::{execution_gate, ChainContext, ContextError};
///
/// let context = ChainContext {
///     chain_id: "atc".into(),
///     network_id: "testnet".into(),
///     genesis_id: "A".repeat(64),
///     protocol_version: "1.0".into(),
///     vm_version: "0.3".into(),
/// };
/// assert_eq!(execution_gate(&context, &"A".repeat(64), "1.0", "0.3"), Ok(()));
/// let refused = execution_gate(&context, &"a".repeat(64), "1.0", "0.3").unwrap_err();
/// assert_eq!(refused, ContextError::GenesisMismatch);
/// assert_eq!(refused.number(), 40);
/// ```
pub fn execution_gate(
    context: &ChainContext,
    computed_genesis_id: &str,
    expected_protocol: &str,
    expected_vm: &str,
) -> Result<(), ContextError> {
    let number =
        sys::execution_gate(context.gate(computed_genesis_id, expected_protocol, expected_vm));
    if number == 0 {
        return Ok(());
    }
    // Proved: crates/relied, `gate_gives`.
    Err(ContextError::of(number)
        .unwrap_or_else(|| unreachable!("the gate gives 35 to 40, not {number}")))
}
