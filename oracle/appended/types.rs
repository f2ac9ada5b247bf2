
// --- Appended for the oracle's driver: copying, nothing else. ---

impl UnconfirmedTx {
    pub(crate) fn deep_clone(&self) -> Self {
        UnconfirmedTx {
            tx: self.tx.clone(),
            tx_bytes: Arc::clone(&self.tx_bytes),
            ..*self
        }
    }
}
