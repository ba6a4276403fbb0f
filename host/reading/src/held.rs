//! From the numbers of a held run back to a policy or a record, as
//! crates/held/specs/Held.antt lays them. Every number has to be used.

use second::layouts::*;
use std::fmt;

/// Why a run holds nothing of the kind.
#[derive(Debug, PartialEq, Eq)]
pub enum Misheld {
    /// It ends inside something.
    Short,
    /// So many numbers are left behind the last thing.
    Left(usize),
    /// A number that nothing of this kind begins with.
    No(&'static str, u32),
}

type Taken<T> = Result<T, Misheld>;

/// What marks the upper half of a number.
const MARK: u32 = 1 << 31;

/// Upper halves go up to 2^21 - 1, since numbers are below 2^53.
const UPPER_HALVES: u32 = 1 << 21;

/// The policy that a whole run holds.
pub fn policy(held: &[u32]) -> Taken<Policy> {
    whole(held, |numbers| {
        let statements = numbers.list(Numbers::statement)?;
        Ok(Policy { statements })
    })
}

/// The record that a whole run holds.
pub fn record(held: &[u32]) -> Taken<Record> {
    whole(held, |numbers| {
        Ok(Record {
            action: numbers.text()?,
            resource: numbers.text()?,
            context: numbers.list(Numbers::context_entry)?,
        })
    })
}

fn whole<T>(held: &[u32], take: impl Fn(&mut Numbers) -> Taken<T>) -> Taken<T> {
    let mut numbers = Numbers { rest: held };
    let taken = take(&mut numbers)?;
    match numbers.rest.len() {
        0 => Ok(taken),
        left => Err(Misheld::Left(left)),
    }
}

/// The numbers not yet used.
struct Numbers<'a> {
    rest: &'a [u32],
}

impl Numbers<'_> {
    fn next(&mut self) -> Taken<u32> {
        let (&first, rest) = self.rest.split_first().ok_or(Misheld::Short)?;
        self.rest = rest;
        Ok(first)
    }

    /// Its length, then its characters.
    fn text(&mut self) -> Taken<Text> {
        let length = self.next()? as usize;
        let parts = self.rest.split_at_checked(length);
        let (text, rest) = parts.ok_or(Misheld::Short)?;
        self.rest = rest;
        Ok(text.to_vec())
    }

    /// Its length, then its parts.
    fn list<T>(&mut self, part: impl Fn(&mut Self) -> Taken<T>) -> Taken<Vec<T>> {
        let length = self.next()?;
        (0..length).map(|_| part(self)).collect()
    }

    /// Its upper half, marked, then its lower.
    fn number(&mut self) -> Taken<u64> {
        let first = self.next()?;
        let upper = first.wrapping_sub(MARK);
        if upper >= UPPER_HALVES {
            return Err(Misheld::No("number", first));
        }
        Ok(u64::from(upper) << 32 | u64::from(self.next()?))
    }

    fn statement(&mut self) -> Taken<Statement> {
        let effect = match self.next()? {
            1 => Effect::Allow,
            2 => Effect::Deny,
            other => return Err(Misheld::No("effect", other)),
        };
        let sid = self.text()?;
        Ok(Statement {
            sid: (!sid.is_empty()).then_some(sid),
            effect,
            actions: self.list(Self::text)?,
            resources: self.list(Self::text)?,
            rows: self.list(Self::row)?,
        })
    }

    fn row(&mut self) -> Taken<Row> {
        let operator = match self.next()? {
            1 => Operator::StringEquals,
            2 => Operator::StringLike,
            3 => Operator::NumericLessThanEquals,
            other => return Err(Misheld::No("operator", other)),
        };
        let numeric = operator == Operator::NumericLessThanEquals;
        Ok(Row {
            operator,
            key: self.text()?,
            entries: self.list(|numbers| numbers.value(numeric))?,
        })
    }

    fn context_entry(&mut self) -> Taken<ContextEntry> {
        let numeric = match self.next()? {
            1 => false,
            2 => true,
            other => return Err(Misheld::No("type", other)),
        };
        Ok(ContextEntry {
            key: self.text()?,
            value: self.value(numeric)?,
        })
    }

    fn value(&mut self, numeric: bool) -> Taken<Value> {
        if numeric {
            self.number().map(Value::Number)
        } else {
            self.text().map(Value::Text)
        }
    }
}

impl fmt::Display for Misheld {
    fn fmt(&self, to: &mut fmt::Formatter<'_>) -> fmt::Result {
        match self {
            Misheld::Short => write!(to, "the run ends inside something"),
            Misheld::Left(count) => write!(to, "{count} numbers are left"),
            Misheld::No(kind, number) => write!(to, "no {kind} begins with {number}"),
        }
    }
}

#[cfg(test)]
mod tests {
    use super::*;

    /// Allow, Sid "S", two actions, a resource, a row of each kind of value.
    const POLICY: [u32; 28] = [
        1,
        1,
        1,
        83,
        2,
        1,
        ANY_RUN,
        3,
        97,
        58,
        98,
        1,
        1,
        ANY_RUN,
        2,
        2,
        1,
        107,
        1,
        0,
        3,
        1,
        110,
        1,
        MARK + 5,
        6,
        0,
        0,
    ];
    const POLICY_LENGTH: usize = 26;

    #[test]
    fn every_number_of_a_policy_is_used() {
        let decoded = policy(&POLICY[..POLICY_LENGTH]).unwrap();
        let [statement] = &decoded.statements[..] else {
            panic!("{decoded:?}");
        };
        assert_eq!(statement.sid, Some(vec![83]));
        assert_eq!(statement.actions, [vec![ANY_RUN], vec![97, 58, 98]]);
        assert_eq!(statement.resources, [[ANY_RUN]]);
        assert_eq!(statement.rows[0].entries, [Value::Text(Vec::new())]);
        assert_eq!(statement.rows[1].entries, [Value::Number((5 << 32) + 6)]);
        for length in 0..POLICY_LENGTH {
            assert_eq!(policy(&POLICY[..length]), Err(Misheld::Short), "{length}");
        }
        assert_eq!(policy(&POLICY), Err(Misheld::Left(2)));
    }

    #[test]
    fn every_number_of_a_record_is_used() {
        let held = [3, 97, 58, 98, 1, 42, 2, 1, 1, 107, 0, 2, 1, 110, MARK, 7];
        let decoded = record(&held).unwrap();
        assert_eq!(
            (&decoded.action[..], &decoded.resource[..]),
            (&[97, 58, 98][..], &[42][..])
        );
        assert_eq!(decoded.context[0].value, Value::Text(Vec::new()));
        assert_eq!(decoded.context[1].value, Value::Number(7));
        for length in 0..held.len() {
            assert_eq!(record(&held[..length]), Err(Misheld::Short), "{length}");
        }
        assert_eq!(record(&[&held[..], &[0]].concat()), Err(Misheld::Left(1)));
    }

    #[test]
    fn kinds_are_told_by_their_numbers() {
        let mut held = POLICY[..POLICY_LENGTH].to_vec();
        for (place, wrong, kind) in [
            (1, 0, "effect"),
            (1, 3, "effect"),
            (15, 0, "operator"),
            (15, 4, "operator"),
            (24, 5, "number"),
            (24, MARK - 1, "number"),
            (24, MARK + UPPER_HALVES, "number"),
        ] {
            let right = std::mem::replace(&mut held[place], wrong);
            assert_eq!(policy(&held), Err(Misheld::No(kind, wrong)));
            held[place] = right;
        }
        let untyped = [0, 0, 1, 3, 0, 0];
        assert_eq!(record(&untyped), Err(Misheld::No("type", 3)));
    }
}
