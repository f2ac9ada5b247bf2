
// --- Appended for the oracle's driver: reading and copying, nothing else. ---

impl Mempool {
    /// A copy that shares nothing with this pool.
    pub fn deep_clone(&self) -> Mempool {
        Mempool {
            pool: self.pool.deep_clone(),
            invalidated: self.invalidated.deep_clone(),
            stats: self.stats.deep_clone(),
            config: MempoolConfig { ..self.config },
            fee_proposition: self.fee_proposition.clone(),
            interblock_cost: self.interblock_cost,
            per_peer_cost: self.per_peer_cost.clone(),
        }
    }

    /// The key under which a pooled transaction stands.
    pub fn weight_of(&self, tx_id: &[u8; 32]) -> Option<&TxWeight> {
        self.pool.by_id.get(tx_id)
    }

    /// `OrderedPool::spending_tx`.
    pub fn spending_tx(&self, box_id: &[u8; 32]) -> Option<&TxWeight> {
        self.pool.spending_tx(box_id)
    }

    /// `OrderedPool::lowest_weight`.
    pub fn lowest_weight(&self) -> Option<u64> {
        self.pool.lowest_weight()
    }

    pub fn interblock_cost(&self) -> u64 {
        self.interblock_cost
    }

    pub fn per_peer_cost(&self) -> &HashMap<u64, u64> {
        &self.per_peer_cost
    }

    pub fn config(&self) -> &MempoolConfig {
        &self.config
    }

    /// `revalidate_within`, which only this crate may call.
    pub fn revalidate_with_limit(
        &mut self,
        now: Instant,
        limit: u64,
        utxo_reader: &dyn types::UtxoReader,
        state_context: &ergo_validation::ErgoStateContext,
    ) -> Vec<[u8; 32]> {
        self.revalidate_within(now, limit, utxo_reader, state_context)
    }
}
