//! A command's operands: their values, their range test, and the first operand that fails it.
//! Assumes of a command's tests that each operand has one of its own, in the order of the file, before the relation has one.

/// A command whose operands have ranges.
pub trait Operands {
    /// The values in the order of the file, without a joint's id; a soil value by its bits.
    fn values(&self) -> Vec<i64>;

    /// Gives `test` the name of an operand and whether it is in range, operand by operand in the order of the file; then, where a
    /// relation holds between operands, the name of the one that breaks it and whether it holds. Stops at the first that
    /// `test` does not pass, and tells whether all passed.
    fn each(&self, test: impl FnMut(&'static str, bool) -> bool) -> bool;

    fn in_range(&self) -> bool {
        self.each(|_, holds| holds)
    }

    /// The place of the operand at fault, counted from 0; none in a command in range.
    fn at_fault(&self) -> Option<usize> {
        let mut names = Vec::new();
        let passed = self.each(|name, holds| {
            names.push(name);
            holds
        });
        let last = names.last().filter(|_| !passed)?;
        names.iter().position(|name| name == last)
    }
}
