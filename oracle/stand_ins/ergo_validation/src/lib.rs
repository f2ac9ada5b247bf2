//! Stand-in for ergo-validation: the validator asks whoever made the context.

use ergo_lib::chain::transaction::Transaction;
use ergo_lib::ergotree_ir::chain::ergo_box::ErgoBox;

pub struct PreHeader {
    pub height: u32,
}

/// What the validator says of a transaction: a cost, or a reason against it.
/// The function may unwind instead, where there is no verdict yet.
pub type Judge = Box<dyn Fn(&Transaction) -> Result<u64, String>>;

/// The context that the pool hands through without reading more of it than
/// the preheader's height.
pub struct ErgoStateContext {
    pub pre_header: PreHeader,
    pub judge: Judge,
}

pub fn validate_single_transaction(
    tx: &Transaction,
    _inputs: Vec<ErgoBox>,
    _data_inputs: Vec<ErgoBox>,
    context: &ErgoStateContext,
) -> Result<u64, String> {
    (context.judge)(tx)
}
