//! Lines that are timed in turns: one alone, or several of which all but the
//! first are the first's call without its room to spare, with other elements
//! active, or in long buffers.

use crate::contest::Contest;
use crate::row::{Record, Row};
use crate::task::Task;
use crate::timing::{Timed, Times, Turn};

pub struct Group {
    contests: Vec<Contest>,
}

impl Group {
    /// An error if the archive does not answer one of the calls as it must.
    pub fn new(tasks: Vec<Task>) -> Result<Group, String> {
        let mut contests: Vec<_> = tasks.into_iter().map(Contest::new).collect();
        contests.iter_mut().try_for_each(Contest::check)?;
        Ok(Group { contests })
    }
}

impl Timed for Group {
    fn run(&mut self, turn: Turn) {
        for _ in 0..turn.batches {
            self.contests.iter_mut().for_each(Contest::turn);
        }
    }

    fn rows(&self) -> Vec<Row> {
        let rows = self.contests.iter().map(row);
        let mut rows: Vec<_> = rows.collect();
        if let Some((first, others)) = rows.split_first_mut() {
            for other in others {
                other.room = Some(first.record.archive);
            }
        }
        rows
    }
}

fn row(contest: &Contest) -> Row {
    let Contest { task, .. } = contest;
    let least = |times: &Option<Times>| times.as_ref().map(Times::least);
    Row {
        record: Record {
            name: task.name.clone(),
            vector_bytes: Some(task.vector_bytes),
            archive: contest.archive.least(),
            copy: least(&contest.copy),
            strided: least(&contest.strided),
        },
        kind: task.kind.clone(),
        second: least(&contest.second),
        part: task.part,
        room: None,
        goal: task.goal,
    }
}

#[cfg(test)]
mod tests {
    use super::*;
    use crate::list;

    /// The group whose first line has this name.
    fn group(name: &str) -> Vec<Task> {
        let mut groups = list::groups(16).into_iter();
        let found = groups.find(|tasks| tasks[0].name == name);
        found.expect("there is such a line")
    }

    #[test]
    fn a_wrong_answer_is_told() {
        let mut tasks = group("load, m=1, horizontal, all");
        tasks[0].answer = 7;
        let error = Group::new(tasks).err();
        let expected = "load, m=1, horizontal, all, vector length 16: \
                        the archive answers 0, not 7";
        assert_eq!(error, Some(expected.to_string()));
    }

    #[test]
    fn all_but_the_first_are_beside_the_first() {
        let tasks = group("load, m=4, vertical, first half");
        let mut group = Group::new(tasks).expect("it is answered as it must be");
        let turn = Turn {
            batches: 1,
            long: false,
        };
        group.run(turn);
        let rows = group.rows();
        let [room, cliff] = &rows[..] else {
            panic!("{} rows", rows.len());
        };
        assert_eq!(room.room, None);
        assert_eq!(cliff.room, Some(room.record.archive));
        for row in &rows {
            let Record { copy, strided, .. } = row.record;
            let times = [Some(row.record.archive), row.second, copy, strided];
            assert!(times.iter().flatten().all(|time| *time > 0.0));
            assert!(times.iter().all(Option::is_some));
        }
    }
}
