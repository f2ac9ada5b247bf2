
// --- Appended for the oracle's driver: copying, nothing else. ---

impl OrderedPool {
    pub(crate) fn deep_clone(&self) -> Self {
        let index = TxBytesIndex::default();
        for (key, utx) in &self.ordered {
            index.insert(key.tx_id, Arc::clone(&utx.tx_bytes));
        }
        let copy = |(key, utx): (&TxWeight, &UnconfirmedTx)| (key.clone(), utx.deep_clone());
        OrderedPool {
            ordered: self.ordered.iter().map(copy).collect(),
            by_id: self.by_id.clone(),
            by_input: self.by_input.clone(),
            by_output: self.by_output.clone(),
            index,
            capacity: self.capacity,
        }
    }
}
