//! Scenarios whose answers were worked out by hand from document 01.

mod adding;
mod blocks;
mod finding;
mod limits;
mod runs;

use crate::scenario::Scenario;

/// Scenarios about one subject. `name` is the name of the script that they
/// make.
pub struct Suite {
    pub name: &'static str,
    pub scenarios: Vec<Scenario>,
}

pub fn suites() -> Vec<Suite> {
    let suite = |name, scenarios| Suite { name, scenarios };
    vec![
        suite("books-opening", adding::opening()),
        suite("books-adding", adding::adding()),
        suite("books-fields", adding::fields()),
        suite("books-guids", adding::guids()),
        suite("books-finding", finding::places()),
        suite("books-resolving", finding::resolving()),
        suite("books-limits", limits::texts()),
        suite("books-allowances", limits::allowances()),
        suite("runs-fields", runs::fields()),
        suite("runs-guids", runs::guids()),
        suite("blocks-reading", blocks::reading()),
        suite("blocks-writing", blocks::writing()),
        suite("blocks-tally", blocks::tally()),
    ]
}

/// Scenarios that need more bytes than a stored script should.
pub fn large() -> Vec<Scenario> {
    limits::windows()
}
