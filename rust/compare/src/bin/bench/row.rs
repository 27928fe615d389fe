//! One line of the table, as it was timed.

/// What is kept of a line for a later run, times in nanoseconds.
#[derive(Clone, Debug, PartialEq)]
pub struct Record {
    pub name: String,
    /// None where tiles are taken or given up, which goes by no length.
    pub vector_bytes: Option<usize>,
    pub archive: f64,
    pub copy: Option<f64>,
    pub strided: Option<f64>,
}

impl Record {
    /// What tells a line from all others.
    pub fn key(&self) -> (&str, Option<usize>) {
        (&self.name, self.vector_bytes)
    }
}

/// The most that something is to be.
#[derive(Clone, Copy, Debug, PartialEq)]
pub enum Goal {
    /// The ratio to the copy.
    Copies(f64),
    /// The ratio to the strided loop.
    Loops(f64),
    /// The ratio to the call that the line is beside.
    Beside(f64),
    /// The archive's time.
    Nanoseconds(f64),
}

/// Where in the table a line stands.
#[derive(Clone, Copy, Debug, PartialEq, Eq)]
pub enum Part {
    /// The executions of words, but for those that stand apart.
    Words,
    /// Rows of one operation and size, by which elements are active.
    Predicates,
    /// Where the buffers are for longer vectors.
    LongBuffers,
    /// Listings, whose times are of a word.
    Listings,
    Tiles,
}

/// A line.
#[derive(Clone, Debug, PartialEq)]
pub struct Row {
    pub record: Record,
    /// What it is counted under where runs are compared.
    pub kind: String,
    pub second: Option<f64>,
    pub part: Part,
    /// The archive's time for the same call with room to spare; or with all
    /// elements active, among rows by predicate; or, where the buffers are for
    /// longer vectors, in buffers for its own; or, for a listing, that of its
    /// words by single calls.
    pub room: Option<f64>,
    pub goal: Option<Goal>,
}

impl Row {
    /// The archive's time over that of the copy, of the strided loop, and of
    /// the call that it is beside, where there are such.
    pub fn ratios(&self) -> [Option<f64>; 3] {
        let Record {
            archive,
            copy,
            strided,
            ..
        } = &self.record;
        [*copy, *strided, self.room].map(|other| other.map(|other| archive / other))
    }

    /// Whether the goal is met, if there is one.
    pub fn meets_goal(&self) -> Option<bool> {
        let [copies, loops, beside] = self.ratios();
        let (reached, most) = match self.goal? {
            Goal::Copies(most) => (copies, most),
            Goal::Loops(most) => (loops, most),
            Goal::Beside(most) => (beside, most),
            Goal::Nanoseconds(most) => (Some(self.record.archive), most),
        };
        reached.map(|reached| reached <= most)
    }
}

#[cfg(test)]
mod tests {
    use super::*;

    /// A line whose archive takes 30 ns.
    fn row(copy: Option<f64>, strided: Option<f64>, room: Option<f64>, goal: Goal) -> Row {
        Row {
            record: Record {
                name: "load".to_string(),
                vector_bytes: Some(16),
                archive: 30.0,
                copy,
                strided,
            },
            kind: "load".to_string(),
            second: None,
            part: Part::Words,
            room,
            goal: Some(goal),
        }
    }

    #[test]
    fn goals_are_for_the_ratio_that_they_name() {
        let meets = |goal| row(Some(3.0), Some(20.0), Some(5.0), goal).meets_goal();
        assert_eq!(meets(Goal::Copies(10.0)), Some(true));
        assert_eq!(meets(Goal::Copies(9.9)), Some(false));
        assert_eq!(meets(Goal::Loops(1.5)), Some(true));
        assert_eq!(meets(Goal::Loops(1.4)), Some(false));
        assert_eq!(meets(Goal::Beside(6.0)), Some(true));
        assert_eq!(meets(Goal::Beside(5.0)), Some(false));
        for goal in [Goal::Copies(5.0), Goal::Loops(5.0), Goal::Beside(5.0)] {
            assert_eq!(row(None, None, None, goal).meets_goal(), None);
        }
    }

    #[test]
    fn goals_may_be_nanoseconds() {
        let meets = |most| row(Some(1.0), None, None, Goal::Nanoseconds(most)).meets_goal();
        assert_eq!(meets(30.0), Some(true));
        assert_eq!(meets(29.0), Some(false));
    }
}
