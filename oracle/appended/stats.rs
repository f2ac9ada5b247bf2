
// --- Appended for the oracle's driver: copying, nothing else. ---

impl FeeStats {
    pub(crate) fn deep_clone(&self) -> Self {
        FeeStats { ..*self }
    }
}
