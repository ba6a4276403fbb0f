//! What a policy or a record means, apart from how it is spelled.

/// One symbol of an entry.
#[derive(Debug, Clone, Copy, PartialEq, Eq)]
pub enum Piece {
    Plain(char),
    /// The wildcard `*`.
    Star,
    /// The wildcard `?`.
    One,
}

/// The pieces of an entry. In StringEquals all are plain.
pub type Pattern = Vec<Piece>;

#[derive(Debug, Clone, Copy, PartialEq, Eq)]
pub enum Test {
    Equals,
    Like,
    AtMost,
}

impl Test {
    pub fn name(self) -> &'static str {
        match self {
            Test::Equals => "StringEquals",
            Test::Like => "StringLike",
            Test::AtMost => "NumericLessThanEquals",
        }
    }
}

#[derive(Debug, Clone, PartialEq, Eq)]
pub enum PlannedEntry {
    Text(Pattern),
    Number(u64),
}

#[derive(Debug, Clone, PartialEq, Eq)]
pub struct PlannedRow {
    pub key: String,
    pub entries: Vec<PlannedEntry>,
}

#[derive(Debug, Clone, PartialEq, Eq)]
pub struct PlannedStatement {
    pub sid: Option<String>,
    pub allow: bool,
    pub actions: Vec<PlannedEntry>,
    pub resources: Vec<PlannedEntry>,
    /// Rows under their operators, both in reading order.
    pub condition: Vec<(Test, Vec<PlannedRow>)>,
}

#[derive(Debug, Clone, PartialEq, Eq)]
pub struct PlannedPolicy {
    pub statements: Vec<PlannedStatement>,
}

#[derive(Debug, Clone, PartialEq, Eq)]
pub enum PlannedValue {
    Text(String),
    Number(u64),
}

#[derive(Debug, Clone, PartialEq, Eq)]
pub struct PlannedRecord {
    pub action: String,
    /// Absent means `*`.
    pub resource: Option<String>,
    pub context: Vec<(String, PlannedValue)>,
}

/// Where an entry stands.
#[derive(Debug, Clone, Copy, PartialEq, Eq)]
pub enum Spot {
    Action,
    Resource,
    Under(Test),
}

/// One list of a statement: Action, Resource or a condition row.
pub struct PlannedList<'a> {
    pub spot: Spot,
    /// Empty for Action and Resource.
    pub key: &'a str,
    pub entries: &'a [PlannedEntry],
}

impl PlannedStatement {
    /// The lists in reading order.
    pub fn lists(&self) -> Vec<PlannedList<'_>> {
        let plain = |spot, entries| PlannedList {
            spot,
            key: "",
            entries,
        };
        let mut lists = vec![
            plain(Spot::Action, self.actions.as_slice()),
            plain(Spot::Resource, self.resources.as_slice()),
        ];
        for (test, rows) in &self.condition {
            lists.extend(rows.iter().map(|row| PlannedList {
                spot: Spot::Under(*test),
                key: &row.key,
                entries: &row.entries,
            }));
        }
        lists
    }
}

impl PlannedPolicy {
    /// All lists in reading order.
    pub fn lists(&self) -> impl Iterator<Item = PlannedList<'_>> {
        self.statements
            .iter()
            .flat_map(|statement| statement.lists())
    }
}

/// Pieces that all are plain.
pub fn plain(text: &str) -> Pattern {
    text.chars().map(Piece::Plain).collect()
}
