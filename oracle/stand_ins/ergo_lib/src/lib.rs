//! Stand-ins for the ergo-lib types that the pool touches: a transaction is an
//! id, input box ids and outputs. Ids are given, not computed; boxes have no
//! contents but value, guard (fee or not) and creation height.
//!
//! Whoever walks a transaction's inputs leaves its id in `turn`: that is how
//! the driver's box reader, which is asked for a box and not told by whom,
//! knows which candidate of a pass is being looked at.

pub mod turn {
    use std::cell::Cell;

    thread_local! {
        static OWNER: Cell<[u8; 32]> = const { Cell::new([0; 32]) };
    }

    pub(crate) fn note(id: [u8; 32]) {
        OWNER.with(|o| o.set(id));
    }

    /// The transaction whose inputs were walked last.
    pub fn owner() -> [u8; 32] {
        OWNER.with(|o| o.get())
    }
}

pub mod ergotree_ir {
    pub mod ergo_tree {
        /// A guard is either the fee proposition or not.
        #[derive(Clone, Debug, PartialEq, Eq)]
        pub struct ErgoTree {
            pub pays_fee: bool,
        }

        #[derive(Clone, Copy, Debug, PartialEq, Eq)]
        pub struct ErgoTreeVersion;
    }

    pub mod chain {
        pub mod ergo_box {
            use crate::ergotree_ir::ergo_tree::ErgoTree;

            #[derive(Clone, Copy, Debug, PartialEq, Eq)]
            pub struct BoxId(pub [u8; 32]);

            impl AsRef<[u8]> for BoxId {
                fn as_ref(&self) -> &[u8] {
                    &self.0
                }
            }

            #[derive(Clone, Copy, Debug)]
            pub struct BoxValue(pub u64);

            impl BoxValue {
                pub fn as_u64(&self) -> &u64 {
                    &self.0
                }
            }

            #[derive(Clone, Debug)]
            pub struct ErgoBox {
                pub id: BoxId,
                pub value: BoxValue,
                pub ergo_tree: ErgoTree,
                pub creation_height: u32,
            }

            impl ErgoBox {
                pub fn box_id(&self) -> BoxId {
                    self.id
                }
            }
        }
    }
}

pub mod chain {
    pub mod ergo_tree_predef {
        use crate::ergotree_ir::ergo_tree::ErgoTree;

        pub fn fee_proposition(_reward_delay: i32) -> Result<ErgoTree, String> {
            Ok(ErgoTree { pays_fee: true })
        }
    }

    pub mod transaction {
        use crate::ergotree_ir::chain::ergo_box::{BoxId, ErgoBox};
        use crate::ergotree_ir::ergo_tree::ErgoTreeVersion;
        use crate::turn;

        #[derive(Clone, Copy, Debug, PartialEq, Eq)]
        pub struct TxId(pub [u8; 32]);

        impl AsRef<[u8]> for TxId {
            fn as_ref(&self) -> &[u8] {
                &self.0
            }
        }

        #[derive(Clone, Copy, Debug)]
        pub struct Input {
            pub box_id: BoxId,
        }

        #[derive(Clone, Copy, Debug)]
        pub struct DataInput {
            pub box_id: BoxId,
        }

        /// A list that may be empty and knows the id of its transaction. The
        /// latter lets `new_from_vec_at` give back the id it was taken from,
        /// which an assertion of the pool asks for.
        #[derive(Clone, Debug)]
        pub struct Part<T> {
            owner: [u8; 32],
            items: Vec<T>,
        }

        impl<T> Default for Part<T> {
            fn default() -> Self {
                Part { owner: [0; 32], items: Vec::new() }
            }
        }

        impl<T> Part<T> {
            pub fn len(&self) -> usize {
                self.items.len()
            }

            pub fn is_empty(&self) -> bool {
                self.items.is_empty()
            }

            pub fn iter(&self) -> std::slice::Iter<'_, T> {
                self.items.iter()
            }

            pub fn as_vec(&self) -> &Part<T> {
                self
            }
        }

        /// The inputs: walking them says whose they are.
        #[derive(Clone, Debug)]
        pub struct Inputs(Part<Input>);

        impl Inputs {
            pub fn len(&self) -> usize {
                self.0.len()
            }

            pub fn is_empty(&self) -> bool {
                self.0.is_empty()
            }

            pub fn iter(&self) -> std::slice::Iter<'_, Input> {
                turn::note(self.0.owner);
                self.0.iter()
            }

            pub fn as_vec(&self) -> &Part<Input> {
                &self.0
            }
        }

        #[derive(Clone, Debug)]
        pub struct Transaction {
            id: TxId,
            pub inputs: Inputs,
            /// Never there: positions of inputs are then positions of reads.
            pub data_inputs: Option<Part<DataInput>>,
            pub outputs: Part<ErgoBox>,
            pub output_candidates: Part<ErgoBox>,
        }

        impl Transaction {
            pub fn stand_in(id: [u8; 32], inputs: &[[u8; 32]], outputs: Vec<ErgoBox>) -> Self {
                let inputs = inputs.iter().map(|b| Input { box_id: BoxId(*b) }).collect();
                Transaction {
                    id: TxId(id),
                    inputs: Inputs(Part { owner: id, items: inputs }),
                    data_inputs: None,
                    outputs: Part { owner: id, items: outputs },
                    output_candidates: Part { owner: id, items: Vec::new() },
                }
            }

            pub fn id(&self) -> TxId {
                self.id
            }

            /// Only for the assertion mentioned at `Part`.
            pub fn new_from_vec_at(
                inputs: Part<Input>,
                data_inputs: Part<DataInput>,
                outputs: Part<ErgoBox>,
                _version: ErgoTreeVersion,
            ) -> Result<Transaction, String> {
                Ok(Transaction {
                    id: TxId(outputs.owner),
                    inputs: Inputs(inputs),
                    data_inputs: Some(data_inputs),
                    outputs: outputs.clone(),
                    output_candidates: outputs,
                })
            }
        }
    }
}
