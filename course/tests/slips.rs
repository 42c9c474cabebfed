//! Sheets made by a registry with one rule broken: the first wrong row names that slip, mostly no other.

mod common;

use common::hall_folder;
use course::hall::make;
use course::mark::marks;
use course::mark::sheet::Row;
use course::mark::slips::Expected;
use course::session::Session;
use plain::orders::code_of;
use plain::registry::{Answer, Registry};
use plain::slips::{Blocking, Slips};

/// The rows of a trainee who makes one slip all along, without the longest stays.
fn sheet(session: &Session, slips: Slips) -> Vec<Row> {
    let mut registry = Registry::slipping(session.registry.queues.clone(), slips);
    let mut rows = Vec::new();
    for step in &session.steps {
        let (answer, work) = match &step.order {
            Ok(order) => registry.perform(order),
            Err(faults) => (Answer::plain(code_of(faults)), None),
        };
        let own = Expected::of(&answer, work.as_ref(), &registry);
        rows.push(Row {
            at: step.number,
            line: step.number as u64,
            answer: own.answer,
            bounds: [own.bounds[0], own.bounds[1], None],
        });
    }
    rows
}

#[test]
fn each_slip_is_recognised() {
    let each = Slips::EACH;
    let mut by_answer = vec![0; each.len()];
    let mut by_bounds = vec![0; each.len()];
    let mut alone = vec![0; each.len()];
    for seed in 0..120 {
        let made = make(seed);
        let folder = hall_folder(&made.table, &made.orders);
        let session = Session::run(&folder).unwrap_or_else(|failed| panic!("{}", failed.errors));
        let right = sheet(&session, Slips::NONE);
        assert!(marks(&session, &right, &(1..=u64::MAX))
            .iter()
            .all(|mark| mark.right));
        for (index, &(name, rules)) in each.iter().enumerate() {
            let rows = sheet(&session, rules);
            let Some(first) = (0..rows.len()).find(|&i| rows[i] != right[i]) else {
                continue;
            };
            let found = marks(&session, &rows, &(1..=u64::MAX));
            let mark = found.iter().find(|mark| !mark.right).expect("a wrong row");
            assert_eq!(mark.line, rows[first].line, "{seed}: {name}");
            assert!(mark.slips.contains(&name), "{seed}: {name}: {}", mark.words);
            alone[index] += usize::from(mark.slips == [name]);
            let answer_differs = rows[first].answer != right[first].answer;
            by_answer[index] += usize::from(answer_differs);
            by_bounds[index] += usize::from(!answer_differs);
        }
    }
    println!("by answer {by_answer:?}, by bounds {by_bounds:?}, no other slip fits {alone:?}");
    let seen = |slip: usize| by_answer[slip] + by_bounds[slip];
    assert!((0..each.len()).all(|slip| seen(slip) > 0));
    // A best-effort frame left out everywhere or at the last level alone begins with the same row.
    let left_out = [Blocking::LeftOut, Blocking::LeftOutAtTheLast];
    let apart = |slip: &usize| !left_out.contains(&each[*slip].1.blocking);
    let mut apart = (0..each.len()).filter(apart);
    assert!(apart.all(|slip| 2 * alone[slip] > seen(slip)));
}

/// Each bound of a right sheet made one greater is wrong, and so is one where none is worked out.
#[test]
fn a_changed_bound_is_wrong() {
    let made = make(3);
    let folder = hall_folder(&made.table, &made.orders);
    let session = Session::run(&folder).unwrap_or_else(|failed| panic!("{}", failed.errors));
    let all = 1..=u64::MAX;
    let mut changed = [0; 3];
    for (index, step) in session.steps.iter().enumerate() {
        let truth = Expected::of(&step.answer, step.work.as_ref(), &session.registry);
        for (bound, count) in changed.iter_mut().enumerate() {
            let mut rows = sheet(&session, Slips::NONE);
            rows[index].bounds = truth.bounds;
            assert!(marks(&session, &rows, &all)[index].right);
            rows[index].bounds[bound] = Some(truth.bounds[bound].map_or(7, |value| value + 1));
            assert!(
                !marks(&session, &rows, &all)[index].right,
                "line {}",
                step.number
            );
            *count += usize::from(truth.bounds[bound].is_some());
        }
    }
    assert!(changed.iter().all(|&count| count > 5), "{changed:?}");
}

/// The solution's question on line 26 of the example hall: a share left at link 2 by line 4.
#[test]
fn a_share_stored_early_refuses_one_link_too_soon() {
    let read = |name: &str| std::fs::read(common::root().join("examples/hall").join(name)).unwrap();
    let folder = hall_folder(&read("table.txt"), &read("orders.txt"));
    let session = Session::run(&folder).unwrap_or_else(|failed| panic!("{}", failed.errors));
    let (name, slips) = Slips::EACH[2];
    assert!(slips.stored_early);
    let rows = sheet(&session, slips);
    assert_eq!(rows[25].answer, [22, 0, 2, 2]);
    assert_eq!(rows[25].bounds[0], Some(1_835));
    let found = marks(&session, &rows, &(1..=u64::MAX));
    assert_eq!(found[25].slips, [name]);
}

/// Two orders refused at link 3, both shares left at link 2, though with the first one's there the second would be refused at
/// link 2 already: the trainee's rows say where it was.
#[test]
fn a_share_is_stored_up_to_the_link_that_the_row_names() {
    let table = b"   1   1   2   100 1    371     9000
   2   2   3   100 1    371     9000
   3   3   4   100 1    100     9000
";
    let orders = b" 1     1     1000    1542 1542    1000  3   1 1   2 1   3 1
 1     2     1000    1542 1542    1000  3   1 1   2 1   3 1
 1     3     1000    1542 1542    1000  1   2 1
";
    let folder = common::Temporary::with(table, orders);
    // 8000 × (1,542 + 1,588 + 1,588 + 1,542) / 100,000 = 500.8.
    let rows = b"1 22 0 3 1 254\n2 22 0 3 1 254\n3 22 0 2 1 501\n";
    let sheet = folder.write("sheet.txt", rows);
    let marked = common::course(&["mark", &folder.0.display().to_string(), &sheet]).printed;
    let words = "fits the slip: first links stored before a refusal at the last\n";
    assert!(marked.contains(words), "{marked}");
}
