//! Stand-in for hex: `encode` only, which the pool uses in messages.

pub fn encode<T: AsRef<[u8]>>(data: T) -> String {
    data.as_ref().iter().map(|b| format!("{b:02x}")).collect()
}
