//! The reference of document 02's change 2: engine.rs 'with its `+ 10` taken out', and no other edit.

/// The one line of engine.rs that differs, as it was published and as the reference has it.
const PUBLISHED: &str = "let delay_ms = (self.random_seed % max_delay_ms) + 10;";
const REFERENCE: &str = "let delay_ms = self.random_seed % max_delay_ms;";

/// The reference of a published engine.rs, which must have that line exactly once.
pub fn reference(published: &str) -> Result<String, String> {
    let edited = |line: &str| if line.trim() == PUBLISHED { line.replace(PUBLISHED, REFERENCE) } else { line.into() };
    match published.lines().filter(|line| line.trim() == PUBLISHED).count() {
        1 => Ok(published.split_inclusive('\n').map(edited).collect()),
        count => Err(format!("no reference can be made: engine.rs has the line `{PUBLISHED}` {count} times, not once")),
    }
}
