
// --- Appended for the oracle's driver: copying, nothing else. ---

impl<K: Eq + std::hash::Hash + Copy> ExpiringCache<K> {
    pub(crate) fn deep_clone(&self) -> Self {
        ExpiringCache {
            entries: self.entries.clone(),
            insertion_order: self.insertion_order.clone(),
            ttl: self.ttl,
            capacity: self.capacity,
        }
    }
}
