//! What both sides can be asked.

/// Answers as `crates/bridge` packs them. A call that writes answers how many bytes it needs; it writes where there are so many.
pub trait Side {
    fn name(&self) -> &'static str;

    /// Opens and examines: 0, or the refusal.
    fn open(&self, sheet: &[u8]) -> u64;

    /// How many instances are marked, or the refusal.
    fn mark_count(&self, sheet: &[u8]) -> u64;

    /// The listing of the marks, or the line of the refusal.
    fn marks(&self, sheet: &[u8], out: &mut [u8]) -> u64;

    /// The closed sheet, or the refusal.
    fn close(&self, sheet: &[u8], out: &mut [u8]) -> u64;

    /// A sum over every edge of the closed table, or the refusal.
    fn closed_edges(&self, sheet: &[u8]) -> u64;

    /// The answers to steps from the start on, and the end; or the refusal.
    fn trace(&self, sheet: &[u8], steps: &[u8], out: &mut [u8]) -> u64;

    /// The answers to calls on a new book, the book, and what closing it means.
    fn book(&self, calls: &[u8], out: &mut [u8]) -> u64;
}
