//! Document 01's twelve floors through the safe wrappers, what they say of refusals, and the C header beside the crate.

use kalomivund::*;

const SHEET: &[u8] = b"    3    2    4    1    2    0\n    0    0    1    2    0\n    2    0    1    0    0\n";
/// The delivery from carrier 1 to carrier 2.
const FIRST_TO_SECOND: Step = Step::Deliver { from: 1, to: 2 };

/// The floor of a sheet without walls.
fn floor_of(sheet: &[u8]) -> Result<Floor<'static>, Refusal> {
    Floor::read_sheet(sheet, &mut [])
}

fn edited(from: &str, to: &str) -> Vec<u8> {
    String::from_utf8(SHEET.to_vec()).unwrap().replacen(from, to, 1).into_bytes()
}

fn printed(sheet: &[u8]) -> String {
    String::from_utf8(print_routes(sheet, &mut [0; MOST_TEXT]).unwrap().to_vec()).unwrap()
}

/// A floor without walls, each carrier with its start and one dock.
fn one_dock(dimensions: [u16; 4], pairs: &[(u16, u16)]) -> Floor<'static> {
    let [width, height, horizon, depth] = dimensions;
    let docks: Vec<[u16; 1]> = pairs.iter().map(|pair| [pair.1]).collect();
    let carriers: Vec<Carrier> = pairs.iter().zip(&docks).map(|(pair, docks)| Carrier { start: pair.0, docks }).collect();
    Floor::new(Dimensions { width, height, horizon, depth }, &carriers, &[]).unwrap()
}

/// Memory for a state of a floor.
fn memory_for(floor: &Floor) -> Vec<u16> {
    vec![7; floor.lengths().state]
}

/// The first cells of an answer's route.
fn cells<'m>(answer: Option<Answer<'m>>) -> &'m [u16] {
    &answer.unwrap().route().unwrap()[..5]
}

fn refused<T: std::fmt::Debug>(result: Result<T, Refusal>) -> (u8, u64) {
    let refusal = result.unwrap_err();
    (refusal.number, refusal.place)
}

#[test]
fn floor_1_one_cell() {
    let sheet = b"    1    1    1    1    1    0\n    0    0    1    0    0\n";
    assert_eq!(printed(sheet), "    1    0\n    1    0    0    0\n");
}

#[test]
fn floors_2_and_3_the_papers_sheet() {
    assert_eq!(printed(SHEET), "    2    0\n    1    2    0    1    2    2    2\n    2    4    2    5    4    1    0\n");
    assert_eq!(printed(&edited("    4", "    3")), "    2    2\n    1    2    0    1    2    2\n    2 none\n");
    let floor = floor_of(SHEET).unwrap();
    let mut memory = [7; 131];
    let planned = floor.plan(&mut memory).unwrap();
    assert_eq!(planned.failing, None);
    assert_eq!(cells(planned.answers.answer(2)), [2, 5, 4, 1, 0]);
    assert_eq!((planned.answers.answer(0), planned.answers.answer(3)), (None, None));
    assert_eq!(planned.answers.iter().count(), 2);
    assert_eq!(planned.answers.numbers().len(), 130);
    let route = floor.search(2, &planned.answers.views()).unwrap().unwrap();
    assert_eq!(Some(Answer::Route(&route)), planned.answers.answer(2));
    let alone = floor.search(2, &[]).unwrap().unwrap();
    assert_eq!(alone[..5], [2, 1, 0, 0, 0]);
    assert_eq!(floor.search(2, &[View::Route(&[1; ROUTE])]).unwrap().unwrap()[..5], [2, 5, 4, 3, 0]);
    let mut out = [0; 90];
    assert_eq!(floor.write_sheet(&mut out), Ok(SHEET));
    assert_eq!(refused(floor.write_sheet(&mut out[..82])), (9, 0));

    let late = floor_of(&edited("    4", "    3")).unwrap();
    let planned = late.plan(&mut memory).unwrap();
    assert_eq!((planned.failing, planned.answers.answer(2)), (Some(2), Some(Answer::None)));
    assert_eq!(planned.answers.views()[1..3], [View::None, View::NotHeard]);
}

#[test]
fn floors_4_and_5_two_orders() {
    let floor = floor_of(SHEET).unwrap();
    let (mut memory, mut other) = (memory_for(&floor), memory_for(&floor));
    let mut state = floor.fresh(&mut memory).unwrap();
    assert_eq!(state.step(Step::Plan(2)), Ok(Stepped::Sent));
    assert_eq!(cells(state.answer(2)), [2, 1, 0, 0, 0]);
    assert_eq!(state.step(Step::Plan(1)), Ok(Stepped::Sent));
    assert_eq!(state.step(FIRST_TO_SECOND), Ok(Stepped::Delivered));
    assert_eq!(state.step(Step::Plan(2)), Ok(Stepped::Sent));
    assert_eq!(cells(state.answer(2)), [2, 5, 4, 1, 0]);
    assert_eq!(state.count(), 4);
    assert_eq!(state.run(&[], 9), Ok(Ran { taken: 0, end: End::Silent }));
    assert!(state.is_silent());

    let mut other = floor.fresh(&mut other).unwrap();
    assert!(!other.is_silent());
    let steps = [Step::Plan(1), FIRST_TO_SECOND, Step::Plan(2)];
    assert_eq!(other.run(&steps, 9), Ok(Ran { taken: 3, end: End::Silent }));
    assert_eq!(other.count(), 3);
    assert_eq!(other.numbers()[2..], state.numbers()[2..]);
}

#[test]
fn floors_6_to_9_and_12_steps_and_runs() {
    let floor = floor_of(SHEET).unwrap();
    let mut memory = memory_for(&floor);
    let mut state = floor.fresh(&mut memory).unwrap();
    let before = state.numbers().to_vec();
    let to_itself = Step::Deliver { from: 2, to: 2 };
    assert_eq!(refused(state.step(FIRST_TO_SECOND)), (12, 2));
    assert_eq!(refused(state.step(to_itself)), (7, 0));
    assert_eq!(refused(state.run(&[Step::Plan(1), Step::Plan(2), to_itself], 0)), (7, 2));
    assert_eq!(state.run(&[Step::Plan(1)], 0), Ok(Ran { taken: 0, end: End::Spent }));
    assert_eq!(state.run(&[], 0), Ok(Ran { taken: 0, end: End::Ended }));
    assert_eq!(state.numbers(), before);

    let three = one_dock([4, 4, 9, 1], &[(0, 3), (4, 7), (8, 11)]);
    let mut memory = memory_for(&three);
    let mut state = three.fresh(&mut memory).unwrap();
    for open in [Step::Plan(2), Step::Plan(1), FIRST_TO_SECOND] {
        state.step(open).unwrap();
    }
    assert_eq!(refused(state.step(Step::Plan(2))), (13, 3));
    assert_eq!(refused(state.step(Step::Plan(1))), (8, 0));
}

#[test]
fn floors_10_and_11_and_refusals() {
    assert!(floor_of(&edited("    4", "   63")).is_ok());
    assert_eq!(refused(floor_of(&edited("    4", "   64"))), (2, 3));
    assert_eq!(refused(floor_of(&edited("    1    2", "    1    0"))), (2, 5));
    assert_eq!(refused(floor_of(b"")), (1, 0));
    let floor = floor_of(SHEET).unwrap();
    assert_eq!(refused(floor.fresh(&mut [0; 461])), (9, 0));
    assert_eq!(refused(State::resume(&floor, &mut [0; 461])), (9, 0));
    assert_eq!(refused(State::resume(&floor, &mut [1000; 462])), (10, 0));
    assert_eq!(refused(floor.search(3, &[])), (7, 0));
    let handbook = [1, 4, 11, 26, 57, 120, 247, 502];
    assert_eq!((1..=8).map(|n| ceiling(n).unwrap()).collect::<Vec<u32>>(), handbook);
    assert_eq!(refused(ceiling(0)), (2, 5));
    assert_eq!(refused(ceiling(9)), (2, 5));
}

/// Every refusal of the table in words, with its place where it has one; a number that the table does not have is told as it is.
#[test]
fn refusals_in_words() {
    let text = |number, place| Refusal { number, place }.to_string();
    let words = [
        "refusal 1 at byte 2: the sheet's form is wrong",
        "refusal 2 at field 2: line 1 is outside its limits",
        "refusal 3 at item 2: a cell lies outside the grid, or a record's dock count outside 1 to 4",
        "refusal 4 at item 2: a wall is not above the one before",
        "refusal 5 at carrier 2: its start or one of its docks is a wall",
        "refusal 6 at carrier 2: an earlier carrier has the same start",
        "refusal 7 at position 2: no such step or carrier",
        "refusal 8: the carrier is not due",
        "refusal 9: lent memory is too short",
        "refusal 10: the lent memory is no state of this floor",
        "refusal 11: no such order of a trial",
        "refusal 12 at carrier 2: nothing is under way to it",
        "refusal 13 at carrier 2: the channel to it is full",
        "refusal 14: the floor has more than three carriers",
        "refusal 15: no run has that rank",
        "refusal 16: the carrier has a route",
        "refusal 17 at carrier 2: a dock is twice in its list",
    ];
    for (number, said) in (1..).zip(words) {
        assert_eq!(text(number, 2), said);
        assert!(said.ends_with(Refusal { number, place: 2 }.meaning()));
    }
    assert_eq!(text(18, 2), "refusal 18 at place 2: the library says no more");
    assert_eq!(text(0, 0), "refusal 0 at place 0: the library says no more");
    let error: Box<dyn std::error::Error> = Box::new(ceiling(9).unwrap_err());
    assert_eq!(error.to_string(), "refusal 2 at field 5: line 1 is outside its limits");
    let error: Box<dyn std::error::Error> = Box::new(Step::try_from(222).unwrap_err());
    assert_eq!(error.to_string(), "222 names no step");
    assert_eq!((Step::Plan(3).to_string(), FIRST_TO_SECOND.to_string()), ("plan 3".into(), "deliver 1 to 2".into()));
    assert_eq!([Stepped::Kept, Stepped::Sent, Stepped::Delivered].map(|s| s.to_string()), ["kept", "sent", "delivered"]);
    let kinds = [Conflict::SameCell(3), Conflict::ChangeOfPlaces(2), Conflict::Following(2)];
    assert_eq!(kinds.map(|c| c.to_string()), ["same cell at beat 3", "change of places after beat 2", "following after beat 2"]);
}

/// A floor by its parts or its record: what the lists have too many or too few of is refused by the library, and nothing panics.
#[test]
fn floors_by_their_parts() {
    let dimensions = Dimensions { width: 3, height: 2, horizon: 4, depth: 1 };
    let (first, second) = (Carrier { start: 0, docks: &[2] }, Carrier { start: 2, docks: &[0] });
    let floor = Floor::new(dimensions, &[first, second], &[]).unwrap();
    assert_eq!(Ok(floor), floor_of(SHEET));
    assert_eq!((floor.dimensions(), floor.carriers(), floor.walls()), (dimensions, 2, &[][..]));
    assert_eq!((floor.carrier(1), floor.carrier(2)), (Some(first), Some(second)));
    assert_eq!((floor.start(2), floor.docks(2)), (Some(2), Some(&[0][..])));
    for missing in [0, 3, 8, 9, u16::MAX] {
        assert_eq!((floor.carrier(missing), floor.start(missing), floor.docks(missing)), (None, None, None));
    }
    assert_eq!((floor.cell(2, 1), floor.cell(3, 1), floor.cell(2, 2)), (Some(5), None, None));

    let with = |carriers: &[Carrier], walls: &[u16]| refused(Floor::new(dimensions, carriers, walls));
    assert_eq!(with(&[], &[]), (2, 5));
    assert_eq!(with(&[first; 9], &[]), (2, 5));
    assert_eq!(with(&[first; 70_000], &[]), (2, 5));
    assert_eq!(with(&[first, second], &[1; 1024]), (2, 6));
    assert_eq!(with(&[first, second], &[1; 70_000]), (2, 6));
    assert_eq!(with(&[first, Carrier { docks: &[], ..second }], &[]), (3, 2));
    assert_eq!(with(&[first, Carrier { docks: &[0, 1, 3, 4, 5], ..second }], &[]), (3, 2));
    assert_eq!(with(&[first, Carrier { docks: &[0; 70_000], ..second }], &[]), (3, 2));
    assert_eq!(with(&[first, second], &[1, 6]), (3, 4));
    assert_eq!(with(&[first, second], &[4, 4]), (4, 4));
    assert_eq!(with(&[first, second], &[2]), (5, 1));
    assert_eq!(with(&[first, first], &[]), (6, 2));
    assert_eq!(with(&[first, Carrier { docks: &[0, 1, 0], ..second }], &[]), (17, 2));

    let walls = [3, 4, 1, 1];
    let mut record = *Floor::new(dimensions, &[first, second], &walls[..2]).unwrap().record();
    let walled = Floor::from_record(&record, &walls).unwrap();
    assert_eq!(walled.walls(), [3, 4]);
    assert_eq!(refused(Floor::from_record(&record, &walls[..1])), (9, 0));
    assert_eq!(refused(Floor::from_record(&record[..FLOOR - 1], &walls)), (9, 0));
    assert_eq!(refused(Floor::from_record(&[], &[])), (9, 0));
    (record[8], record[13], record[16], record[21], record[23], record[53]) = (7, 7, 7, 7, 7, 7);
    let longer: Vec<u16> = record.iter().copied().chain([9, 9]).collect();
    assert_eq!(Floor::from_record(&longer, &walls), Ok(walled));
    let mut lent = [7; 3];
    let mut sheet = [0; MOST_SHEET];
    let sheet = walled.write_sheet(&mut sheet).unwrap();
    assert_eq!(Floor::read_sheet(sheet, &mut lent), Ok(walled));
    assert_eq!(lent, [3, 4, 7]);
    assert_eq!(refused(Floor::read_sheet(sheet, &mut lent[..1])), (9, 0));
}

/// The record that `read_sheet` writes is told too short after the sheet's own refusals; every other call takes it, and tells it first.
#[test]
fn a_short_record() {
    let (mut record, mut walls) = ([7; FLOOR - 1], [7; 1]);
    let short = |word| refused(calls::read(word));
    assert_eq!(short(calls::read_sheet(b"", &mut record, &mut walls)), (1, 0));
    assert_eq!(short(calls::read_sheet(&edited("    4", "   64"), &mut record, &mut walls)), (2, 3));
    assert_eq!(short(calls::read_sheet(SHEET, &mut record, &mut walls)), (9, 0));
    assert_eq!((record, walls), ([7; FLOOR - 1], [7; 1]));
    assert_eq!(short(calls::check_floor(&[0; FLOOR - 1], &walls)), (9, 0));
}

/// Every lent buffer has its figure; places are told up to 2^48 − 1.
#[test]
fn lengths_and_places() {
    let floor = floor_of(SHEET).unwrap();
    let all = Lengths {
        walls: 0,
        sheet: 83,
        answers: 130,
        text: 673,
        state: 462,
        route: ROUTE,
        floor: FLOOR,
        figures: LENGTHS,
        report: 8,
    };
    assert_eq!(floor.lengths(), all);
    assert_eq!(refused(calls::read(calls::needed_lengths(floor.record(), &mut [0; LENGTHS - 1]))), (9, 0));
    assert_eq!(refused(calls::read(u64::MAX << 16 | 7 << 8 | 1)), (7, (1 << 48) - 1));
}

/// The parts of a state, for every number of carriers: fresh, after all plans, and after each delivery. Each carrier stays where it
/// starts, so that the cells of its route say whose it is.
#[test]
fn parts_of_a_state() {
    for n in 1..=8 {
        let pairs: Vec<(u16, u16)> = (1..=n).map(|i| (10 + i, 10 + i)).collect();
        let floor = one_dock([32, 1, 2, 4], &pairs);
        let mut memory = memory_for(&floor);
        let mut state = floor.fresh(&mut memory).unwrap();
        let route = |i: u16| {
            let mut route = [0; ROUTE];
            route[..3].fill(10 + i);
            route
        };
        let below = |j: u16| (j + 1..=n).map(move |i| (j, i));
        for i in 1..=n {
            assert_eq!((state.due(i), state.planned(i), state.answer(i)), (Some(true), Some(false), Some(Answer::None)));
        }
        for (j, i) in (1..=n).flat_map(below) {
            assert_eq!(state.view(i, j), Some(View::NotHeard));
            assert!(state.channel(j, i).unwrap().is_empty());
        }
        for i in 1..=n {
            assert_eq!(state.step(Step::Plan(i)), Ok(Stepped::Sent));
            assert_eq!((state.due(i), state.planned(i), state.count()), (Some(false), Some(true), u32::from(i)));
            assert_eq!(state.answer(i), Some(Answer::Route(&route(i))));
        }
        for (j, i) in (1..=n).flat_map(below) {
            assert_eq!(state.channel(j, i).unwrap().messages().collect::<Vec<_>>(), [Answer::Route(&route(j))]);
            assert_eq!(state.step(Step::Deliver { from: j, to: i }), Ok(Stepped::Delivered));
            assert_eq!(state.channel(j, i).unwrap().len(), 0);
            assert_eq!((state.view(i, j), state.due(i)), (Some(View::Route(&route(j))), Some(true)));
        }
        for missing in [0, n + 1, 9, u16::MAX] {
            assert_eq!((state.due(missing), state.planned(missing), state.answer(missing)), (None, None, None));
            for i in 0..=9 {
                assert_eq!((state.view(i, missing), state.view(missing, i)), (None, None));
                assert_eq!((state.channel(i, missing), state.channel(missing, i)), (None, None));
            }
        }
        for (i, j) in (1..=n).flat_map(|i| (i..=n).map(move |j| (i, j))) {
            assert_eq!((state.view(i, j), state.channel(j, i)), (None, None));
        }
    }
}

/// Two messages under way, the older one first: carrier 2 has a route before it hears that carrier 1 stays at its dock, and then none.
#[test]
fn two_messages_under_way() {
    let floor = one_dock([32, 1, 2, 4], &[(2, 2), (1, 2), (9, 9)]);
    let mut memory = memory_for(&floor);
    let mut state = floor.fresh(&mut memory).unwrap();
    state.run(&[Step::Plan(1), Step::Plan(2), FIRST_TO_SECOND, Step::Plan(2)], 9).unwrap();
    let channel = state.channel(2, 3).unwrap();
    assert_eq!(channel.len(), 2);
    assert_eq!(channel.message(1).unwrap().route().unwrap()[..3], [1, 2, 2]);
    assert_eq!((channel.message(0), channel.message(2), channel.message(3)), (None, Some(Answer::None), None));
    let numbers = state.numbers().to_vec();
    let mut copy = numbers.clone();
    copy.push(7);
    assert_eq!(State::resume(&floor, &mut copy).unwrap().numbers(), numbers);
}

/// A run is the library's run, however long its list: the same number taken, the same end, the same state, the same first position of a
/// step that names nothing.
#[test]
fn runs_of_any_length() {
    let floor = one_dock([3, 3, 6, 2], &[(0, 2), (2, 0), (3, 5)]);
    let steps = [Step::Plan(1), Step::Plan(2), Step::Plan(3), FIRST_TO_SECOND];
    let others = [Step::Deliver { from: 1, to: 3 }, Step::Deliver { from: 2, to: 3 }];
    let kinds = [&steps[..], &others].concat();
    let mut drawn = 1u32;
    let mut draw = |below: usize| {
        drawn = drawn.wrapping_mul(1664525).wrapping_add(1013904223);
        (drawn >> 16) as usize % below
    };
    for length in [0, 1, 5, 20, 127, 128, 129, 255, 256, 257, 300, 1000] {
        for round in 0..40 {
            let seldom = [1, 1, 10, 50][round % 4];
            let mut drawn = || if draw(seldom) == 0 { kinds[draw(kinds.len())] } else { Step::Deliver { from: 2, to: 3 } };
            let mut list: Vec<Step> = (0..length).map(|_| drawn()).collect();
            if round % 5 == 4 && length > 0 {
                list[draw(length)] = Step::Plan(4);
            }
            let budget = [0, 1, 2, 3, 4, 5, 6, 11, 65535][draw(9)];
            let (mut ours, mut theirs) = (memory_for(&floor), memory_for(&floor));
            let told = floor.fresh(&mut ours).unwrap().run(&list, budget);
            floor.fresh(&mut theirs).unwrap();
            let numbers: Vec<u16> = list.iter().map(|&step| step.into()).collect();
            let word = calls::run(floor.record(), &[], &mut theirs, &numbers, budget);
            let meant = calls::read(word)
                .map(|done| Ran { taken: done.number as u16, end: [End::Silent, End::Spent, End::Ended][done.case as usize] });
            assert_eq!((told, ours), (meant, theirs), "{length} steps, budget {budget}");
        }
    }
}

/// Document 01's floor in the three orders: from seed 2 the first draw is 15,521, so that of two open plans the second is taken.
#[test]
fn trials_in_three_orders() {
    let floor = floor_of(SHEET).unwrap();
    let lengths = floor.lengths();
    let mut planned = vec![0; lengths.answers];
    let planned = floor.plan(&mut planned).unwrap();
    let taken = |order: Order| {
        let (mut state, mut report) = (vec![7; lengths.state], vec![7; lengths.report]);
        let mut trial = floor.trial(order, &mut state, &mut report).unwrap();
        assert!(trial.state.is_silent());
        assert!((0..4).all(|i| trial.state.answer(i) == planned.answers.answer(i)));
        assert_eq!(trial.report.len(), trial.state.count() as usize);
        assert_eq!(trial.report.step(trial.report.len()), None);
        let steps: Vec<(Step, Stepped)> = trial.report.steps().collect();
        assert!((0..steps.len()).all(|k| trial.report.step(k) == Some(steps[k])));
        assert!(report[2 * steps.len()..].iter().all(|&left| left == 7));
        steps
    };
    let (one, two) = ((Step::Plan(1), Stepped::Sent), (Step::Plan(2), Stepped::Sent));
    let first = vec![one, two, (FIRST_TO_SECOND, Stepped::Delivered), two];
    assert_eq!(taken(Order::First), first);
    assert_eq!(taken(Order::Round), first);
    assert_eq!(taken(Order::Drawn(2))[0], two);
    assert_eq!(taken(Order::Drawn(1))[0], one);
    let (mut state, mut report) = (vec![7; lengths.state], vec![7; lengths.report]);
    assert_eq!(refused(floor.trial(Order::First, &mut state, &mut report[1..])), (9, 0));
    assert_eq!(refused(floor.trial(Order::First, &mut state[1..], &mut report)), (9, 0));
    for order in [0, 4] {
        let mut word = |from: usize| calls::read(calls::trial(floor.record(), &[], order, 1, &mut state, &mut report[from..]));
        assert_eq!((refused(word(0)), refused(word(1))), ((11, 0), (9, 0)));
    }
    assert!(state.iter().chain(&report).all(|&left| left == 7));
}

/// Document 02, slip 6: the three runs of document 01's floor, each at its rank; refusals in their order, memory as found.
#[test]
fn every_run_of_two_carriers() {
    let floor = floor_of(SHEET).unwrap();
    let steps = |rank: u64| {
        let mut report = vec![7; floor.lengths().report];
        let listed = floor.run_of_rank(rank, &mut report).unwrap();
        assert_eq!(listed.total, 3);
        let (steps, numbers) = (listed.report.len(), listed.report.numbers().to_vec());
        assert!(!listed.report.is_empty());
        assert!(report[2 * steps..].iter().all(|&left| left == 7));
        numbers
    };
    assert_eq!(steps(0), [101, 1, 102, 1, 212, 2, 102, 1]);
    assert_eq!(steps(1), [101, 1, 212, 2, 102, 1]);
    assert_eq!(steps(2), [102, 1, 101, 1, 212, 2, 102, 1]);
    let mut report = vec![7; floor.lengths().report];
    assert_eq!(refused(floor.run_of_rank(3, &mut report)), (15, 0));
    assert_eq!(refused(floor.run_of_rank(u64::MAX, &mut report)), (15, 0));
    assert_eq!(refused(floor.run_of_rank(3, &mut report[1..])), (9, 0));
    let four = one_dock([3, 2, 4, 1], &[(0, 2), (2, 0), (3, 3), (4, 4)]);
    let mut wide = vec![7; 52];
    assert_eq!(refused(four.run_of_rank(u64::MAX, &mut wide)), (14, 0));
    assert!(report.iter().chain(&wide).all(|&left| left == 7));
}

/// The first conflict of two routes: the beat, and the kind; at one beat same cell first, following last; the horizon's own beat counts,
/// the next does not.
#[test]
fn conflicts_of_two_routes() {
    let route = |cells: &[u16]| {
        let mut route = [0; ROUTE];
        route[..cells.len()].copy_from_slice(cells);
        route
    };
    let first = |a: &[u16], b: &[u16], horizon| conflict(&route(a), &route(b), horizon);
    assert_eq!(first(&[0, 1, 2], &[2, 1, 0], 2), Some(Conflict::SameCell(1)));
    assert_eq!(first(&[0, 1, 2], &[3, 2, 1], 2), Some(Conflict::ChangeOfPlaces(1)));
    assert_eq!(first(&[0, 1, 2], &[3, 2, 1], 1), None);
    assert_eq!(first(&[5, 5, 0], &[5, 5, 1], 2), Some(Conflict::SameCell(0)));
    assert_eq!(first(&[0, 1, 7], &[3, 4, 7], 2), Some(Conflict::SameCell(2)));
    assert_eq!(first(&[0, 1, 7], &[3, 4, 7], 1), None);
    assert_eq!(first(&[0, 1, 2], &[1, 2, 3], 2), Some(Conflict::Following(0)));
    assert_eq!(first(&[1, 1, 2], &[0, 0, 1], 2), Some(Conflict::Following(1)));
    assert_eq!(first(&[1, 1, 2], &[0, 0, 1], 1), None);
    assert_eq!(first(&[0, 1, 1], &[1, 1, 1], 2), Some(Conflict::SameCell(1)));
    assert_eq!(first(&[0, 0, 1], &[1, 2, 2], 2), None);
    let (mut a, b) = ([7; ROUTE], [8; ROUTE]);
    assert_eq!(conflict(&a, &b, u16::MAX), None);
    a[63] = 8;
    assert_eq!(conflict(&a, &b, u16::MAX), Some(Conflict::SameCell(63)));
    assert_eq!(refused(calls::read(calls::conflict(&a[1..], &b, 4))), (9, 0));
    assert_eq!(refused(calls::read(calls::conflict(&a, &b[1..], 4))), (9, 0));
}

/// What a record is for a carrier: each case, each cause with its first beat, the order of the causes, and the refusals.
#[test]
fn records_of_a_carrier() {
    let dimensions = Dimensions { width: 3, height: 2, horizon: 4, depth: 1 };
    let floor = Floor::new(dimensions, &[Carrier { start: 0, docks: &[2] }], &[4]).unwrap();
    let check = |numbers: &[u16]| {
        let mut record = [0; ANSWER];
        record[..numbers.len()].copy_from_slice(numbers);
        floor.check_record(1, &record).unwrap()
    };
    let wrong = |numbers: &[u16]| match check(numbers) {
        Legality::Wrong(fault) => fault,
        other => panic!("{other:?}"),
    };
    assert_eq!(check(&[2, 0, 1, 2, 2, 2]), Legality::Route { arrival: 2 });
    assert_eq!(check(&[2, 0, 1, 2, 1, 2]), Legality::Route { arrival: 4 });
    assert_eq!((check(&[1]), check(&[0])), (Legality::None, Legality::NotHeard));
    assert_eq!(wrong(&[3, 0, 1, 2, 2, 2]), Fault::Tag);
    assert_eq!(wrong(&[2, 1, 2, 2, 2, 2]), Fault::Start);
    assert_eq!((wrong(&[2, 0, 3, 4, 5, 2]), wrong(&[2, 0, 1, 2, 5, 6])), (Fault::Cell(2), Fault::Cell(4)));
    assert_eq!((wrong(&[2, 0, 1, 5, 2, 2]), wrong(&[2, 0, 1, 2, 3, 2])), (Fault::Move(1), Fault::Move(2)));
    assert_eq!(wrong(&[2, 0, 1, 1, 1, 1]), Fault::Dock(4));
    assert_eq!((wrong(&[2, 0, 1, 2, 2, 2, 7]), wrong(&[1, 0, 9])), (Fault::Unused(5), Fault::Unused(1)));
    assert_eq!(wrong(&[0, 3]), Fault::Unused(0));
    assert_eq!((wrong(&[2, 1, 9, 9, 9, 9, 9]), wrong(&[2, 0, 5, 5, 5, 9, 9])), (Fault::Start, Fault::Cell(4)));
    assert_eq!(wrong(&[2, 0, 1, 5, 2, 2]).to_string(), "no stay and no move across a side after beat 1");
    assert_eq!((refused(floor.check_record(1, &[0; 64])), refused(floor.check_record(2, &[0; 65]))), ((9, 0), (7, 0)));
    let mut route = [0; ROUTE];
    route[..5].copy_from_slice(&[0, 1, 2, 1, 2]);
    assert_eq!((arrival(&route, 4), arrival(&route, 2), arrival(&route, 0), arrival(&route, u16::MAX)), (4, 2, 0, 5));
}

/// The joint plans of docs/COMPARISON.md, which prioritized planning does not find, are routes of their carriers, and free of conflict.
#[test]
fn joint_plans_of_the_samples() {
    let plans: [(&[u8], &[(u16, &[u16])]); 3] = [
        (
            include_bytes!("../../samples/corridor-swap.sheet"),
            &[(1, &[0, 0, 0, 1, 2, 3, 4, 4, 4, 5, 6]), (2, &[6, 5, 4, 3, 11, 11, 11, 3, 2, 1, 0])],
        ),
        (
            include_bytes!("../../samples/corridor-swap.sheet"),
            &[
                (7, &[72, 72, 73, 74, 75, 76, 77, 77, 77, 77, 78, 79]),
                (8, &[79, 78, 77, 76, 84, 84, 84, 76, 75, 74, 73, 72]),
            ],
        ),
        (
            include_bytes!("../../samples/intersection.sheet"),
            &[
                (5, &[86, 87, 88, 89, 90, 91, 92, 92, 92, 92, 92, 92, 92, 91, 92, 93, 94]),
                (6, &[92, 91, 90, 71, 52, 33, 52, 71, 90, 89, 88, 87, 86, 86, 86, 86, 86]),
                (7, &[14, 14, 14, 14, 14, 14, 14, 33, 52, 71, 90, 109, 109, 109, 128, 147, 166]),
                (8, &[166, 147, 128, 109, 109, 109, 90, 91, 91, 91, 91, 91, 90, 71, 52, 33, 14]),
            ],
        ),
    ];
    for (sheet, team) in plans {
        let mut walls = [0; MOST_WALLS];
        let floor = Floor::read_sheet(sheet, &mut walls).unwrap();
        let horizon = floor.dimensions().horizon;
        let mut routes: Vec<Route> = Vec::new();
        for &(carrier, cells) in team {
            let mut route = [0; ROUTE];
            let last = *cells.last().unwrap();
            route[..=usize::from(horizon)].fill(last);
            route[..cells.len()].copy_from_slice(cells);
            let record = [&[2], &route[..]].concat();
            assert!(matches!(floor.check_record(carrier, &record), Ok(Legality::Route { .. })), "carrier {carrier}");
            assert!(routes.iter().all(|other| conflict(&route, other, horizon).is_none()), "carrier {carrier}");
            routes.push(route);
        }
    }
}

/// Who shuts a carrier in: one, two together, walls or the horizon, the one that the order keeps; 7 before 16, and memory as found.
#[test]
fn who_shuts_a_carrier_in() {
    let of = |floor: &Floor, carrier| {
        let mut memory = vec![7; floor.lengths().answers];
        floor.blockers(carrier, &mut memory).unwrap().carriers.iter().collect::<Vec<u16>>()
    };
    let (one, gate) = ([(1, 1), (0, 2)], [(1, 1), (4, 4), (0, 2)]);
    assert_eq!(of(&one_dock([3, 1, 4, 1], &one), 2), [1]);
    assert_eq!(of(&one_dock([3, 1, 1, 1], &one), 2), []);
    assert_eq!(of(&one_dock([3, 2, 4, 1], &gate), 3), [1, 2]);
    let row = one_dock([4, 1, 3, 1], &[(1, 1), (2, 2), (0, 3)]);
    let (mut planned, mut told) = (vec![7; 200], vec![7; 200]);
    let planned = row.plan(&mut planned).unwrap();
    let blockers = row.blockers(3, &mut told).unwrap();
    assert_eq!(blockers.answers, planned.answers);
    assert_eq!((blockers.carriers.len(), blockers.carriers.is_empty()), (1, false));
    assert_eq!((0..20).filter(|&i| blockers.carriers.contains(i)).collect::<Vec<u16>>(), [2]);
    assert_eq!(told[195..], [7; 5]);
    let mut memory = [7; 195];
    assert_eq!(refused(row.blockers(2, &mut memory)), (16, 0));
    assert_eq!(refused(row.blockers(0, &mut memory)), (7, 0));
    assert_eq!(refused(row.blockers(4, &mut memory)), (7, 0));
    assert_eq!(refused(row.blockers(2, &mut memory[1..])), (9, 0));
    assert!(memory.iter().all(|&left| left == 7));
}

/// Any of several docks: the sheet and its lists, a count of the wrong size, the table's 17, a route to the nearer dock and to the
/// other one when that is taken.
#[test]
fn any_of_several_docks() {
    let sheet = b"    5    1    4    1    2    0\n    3    0    1    3    0\n    2    0    2    3    0    0    0\n";
    let floor = floor_of(sheet).unwrap();
    assert_eq!((floor.docks(1), floor.docks(2)), (Some(&[3][..]), Some(&[3, 0][..])));
    assert_eq!(Floor::from_record(floor.record(), &[]), Ok(floor));
    assert_eq!(printed(sheet), "    2    0\n    1    0    3    3    3    3    3\n    2    2    2    1    0    0    0\n");
    assert_eq!(floor.lengths().sheet, sheet.len());
    let alone = floor.search(2, &[]).unwrap().unwrap();
    assert_eq!(alone[..5], [2, 3, 3, 3, 3]);
    let with = |docks: &[u16]| {
        let carriers = [floor.carrier(1).unwrap(), Carrier { start: 2, docks }];
        Floor::new(floor.dimensions(), &carriers, &[]).map(|floor| floor.docks(2) == Some(docks))
    };
    assert_eq!(with(&[4, 3, 2, 1]), Ok(true));
    assert_eq!(refused(with(&[])), (3, 2));
    assert_eq!(refused(with(&[0, 1, 2, 3, 4])), (3, 2));
    assert_eq!(refused(with(&[0, 1, 2, 5])), (3, 2));
    assert_eq!(refused(with(&[0, 1, 2, 1])), (17, 2));
    let column = |count: &str| {
        let text = String::from_utf8(sheet.to_vec()).unwrap().replacen("    2    3", &format!("{count}    3"), 1);
        refused(floor_of(text.as_bytes()))
    };
    assert_eq!((column("    0"), column("    5")), ((1, 67), (1, 67)));
}

/// The worked example of docs/FIRMWARE.md: board 2 misses the order 'plan 1' and catches up.
#[test]
fn a_lost_order() {
    let floor = floor_of(SHEET).unwrap();
    let (mut ours, mut theirs) = (memory_for(&floor), memory_for(&floor));
    let (mut keeper, mut board) = (floor.fresh(&mut ours).unwrap(), floor.fresh(&mut theirs).unwrap());
    let orders = [Step::Plan(2), Step::Plan(1), FIRST_TO_SECOND, Step::Plan(2)];
    for (count, &order) in (0..).zip(&orders) {
        assert_eq!(keeper.count(), count);
        keeper.step(order).unwrap();
    }
    assert_eq!(board.step(orders[0]), Ok(Stepped::Sent));
    assert_eq!(cells(board.answer(2)), [2, 1, 0, 0, 0]);
    let before = board.numbers().to_vec();
    assert_eq!(refused(board.step(orders[2])), (12, 2));
    assert_eq!(board.numbers(), before);
    assert_eq!(board.step(orders[1]), Ok(Stepped::Sent));
    assert_eq!(board.step(orders[2]), Ok(Stepped::Delivered));
    assert_eq!(board.step(orders[3]), Ok(Stepped::Sent));
    assert_eq!(cells(board.answer(2)), [2, 5, 4, 1, 0]);
    assert_eq!(board.numbers(), keeper.numbers());
    assert_eq!(board.run(&[], 0), Ok(Ran { taken: 0, end: End::Silent }));
}

/// Every two steps that are open in any state which three carriers reach: both orders leave the same numbers, and each step gets the same
/// answer in both, unless one plans the carrier that the other delivers to; there some orders differ.
#[test]
fn two_boards_in_one_beat() {
    let floor = one_dock([3, 3, 6, 2], &[(0, 2), (2, 0), (3, 5)]);
    let deliveries = [(1, 2), (1, 3), (2, 3)].map(|(from, to)| Step::Deliver { from, to });
    let steps = [[1, 2, 3].map(Step::Plan), deliveries].concat();
    let taken = |numbers: &[u16], x: Step| {
        let mut next = numbers.to_vec();
        let told = State::resume(&floor, &mut next).unwrap().step(x);
        told.ok().map(|answer| (next, answer))
    };
    let mut memory = memory_for(&floor);
    floor.fresh(&mut memory).unwrap();
    let (mut reached, mut at, mut apart, mut differ) = (vec![memory], 0, 0, 0);
    while at < reached.len() {
        let state = reached[at].clone();
        at += 1;
        let open: Vec<_> = steps.iter().filter_map(|&x| Some((x, taken(&state, x)?))).collect();
        for (x, (after_x, told_x)) in &open {
            if !reached.contains(after_x) {
                reached.push(after_x.clone());
            }
            for (y, (after_y, told_y)) in open.iter().filter(|(y, _)| x < y) {
                let (one, other) = (taken(after_x, *y).unwrap(), taken(after_y, *x).unwrap());
                if matches!((x, y), (Step::Plan(i), Step::Deliver { to, .. }) if i == to) {
                    differ += usize::from(one.0 != other.0);
                } else {
                    assert_eq!((&one.0, one.1, other.1), (&other.0, *told_y, *told_x), "{x} and {y}");
                    apart += 1;
                }
            }
        }
    }
    assert!(apart > 0 && differ > 0, "{} states, {apart} pairs apart, {differ} that meet and differ", reached.len());
}

/// Only carriers 1 to 9 have a step's number; 112 is no plan that could be read as a delivery from 1 to 2. A number names the step that has
/// it, or none.
#[test]
fn carriers_outside_the_digits_name_no_step() {
    for i in [0, 10, 112, u16::MAX] {
        assert_eq!(Step::Plan(i).number(), 0);
        assert_eq!(Step::Deliver { from: i, to: 2 }.number(), 0);
        assert_eq!(Step::Deliver { from: 1, to: i }.number(), 0);
    }
    assert_eq!((Step::Plan(9).number(), u16::from(FIRST_TO_SECOND)), (109, 212));
    let named: Vec<Step> = (0..=u16::MAX).filter_map(|number| Step::try_from(number).ok()).collect();
    assert_eq!(named.len(), 8 + 28);
    assert!(named.iter().all(|&step| Step::try_from(step.number()) == Ok(step)));
    let floor = floor_of(SHEET).unwrap();
    let mut memory = memory_for(&floor);
    let mut state = floor.fresh(&mut memory).unwrap();
    for step in [Step::Plan(112), Step::Plan(0), Step::Plan(3), Step::Plan(9), Step::Deliver { from: 2, to: 1 }] {
        assert_eq!(refused(state.step(step)), (7, 0), "{step}");
    }
}

/// A null pointer with length 0 is answered as other memory of length 0 is, in every place of every function.
#[test]
fn null_pointers_with_length_0() {
    use kalomivund::raw::*;
    use std::ptr::{null, null_mut};
    let record = *floor_of(SHEET).unwrap().record();
    let (f, n) = (record.as_ptr(), FLOOR);
    let mut walled = record;
    walled[5] = 1;
    let (mut lent, mut figures, mut bytes) = ([0; MOST_STATE], [0; LENGTHS], [0; MOST_TEXT]);
    let (m, l) = (lent.as_mut_ptr(), lent.len());
    let (b, c) = (bytes.as_mut_ptr(), bytes.len());
    let (text, t) = (SHEET.as_ptr(), SHEET.len());
    let mut report = [0; MOST_REPORT];
    let (r, k) = (report.as_mut_ptr(), report.len());
    let done = |case: u64, number: u64| case << 8 | number << 16;
    let short = 0x901;
    unsafe {
        assert_eq!(kalomivund_read_sheet(null(), 0, null_mut(), 0, null_mut(), 0), 0x101);
        assert_eq!(kalomivund_read_sheet(text, t, null_mut(), 0, null_mut(), 0), short);
        assert_eq!(kalomivund_read_sheet(text, t, m, FLOOR, null_mut(), 0), 0);
        assert_eq!(kalomivund_write_sheet(null(), 0, null(), 0, null_mut(), 0), short);
        assert_eq!(kalomivund_write_sheet(f, n, null(), 0, null_mut(), 0), short);
        assert_eq!(kalomivund_write_sheet(f, n, null(), 0, b, c), done(0, 83));
        assert_eq!(kalomivund_check_floor(null(), 0, null(), 0), short);
        assert_eq!(kalomivund_check_floor(walled.as_ptr(), n, null(), 0), short);
        assert_eq!(kalomivund_check_floor(f, n, null(), 0), 0);
        assert_eq!(kalomivund_needed_lengths(null(), 0, figures.as_mut_ptr(), LENGTHS), short);
        assert_eq!(kalomivund_needed_lengths(null(), 0, null_mut(), 0), short);
        assert_eq!(kalomivund_needed_lengths(f, n, null_mut(), 0), short);
        assert_eq!(kalomivund_search(null(), 0, null(), 0, 1, null(), 0, null_mut(), 0), short);
        assert_eq!(kalomivund_search(f, n, null(), 0, 1, null(), 0, m, l), short);
        assert_eq!(kalomivund_search(f, n, null(), 0, 1, m, l, null_mut(), 0), short);
        assert_eq!(kalomivund_plan(null(), 0, null(), 0, null_mut(), 0), short);
        assert_eq!(kalomivund_plan(f, n, null(), 0, null_mut(), 0), short);
        assert_eq!(kalomivund_plan(f, n, null(), 0, m, l), 0);
        assert_eq!(kalomivund_blockers(null(), 0, null(), 0, 1, null_mut(), 0), short);
        assert_eq!(kalomivund_blockers(f, n, null(), 0, 1, null_mut(), 0), short);
        assert_eq!(kalomivund_blockers(f, n, null(), 0, 1, m, l), done(16, 0) | 1);
        assert_eq!(kalomivund_print_routes(null(), 0, null_mut(), 0), 0x101);
        assert_eq!(kalomivund_print_routes(null(), 0, b, c), done(0, 16));
        assert_eq!(kalomivund_print_routes(text, t, null_mut(), 0), short);
        assert_eq!(kalomivund_fresh(null(), 0, null(), 0, null_mut(), 0), short);
        assert_eq!(kalomivund_fresh(f, n, null(), 0, null_mut(), 0), short);
        assert_eq!(kalomivund_fresh(f, n, null(), 0, m, l), 0);
        assert_eq!(kalomivund_step(null(), 0, null(), 0, null_mut(), 0, 101), short);
        assert_eq!(kalomivund_step(f, n, null(), 0, null_mut(), 0, 101), short);
        assert_eq!(kalomivund_step(f, n, null(), 0, m, l, 101), done(1, 0));
        assert_eq!(kalomivund_run(null(), 0, null(), 0, null_mut(), 0, null(), 0, 9), short);
        assert_eq!(kalomivund_run(f, n, null(), 0, null_mut(), 0, null(), 0, 9), short);
        assert_eq!(kalomivund_run(f, n, null(), 0, m, l, null(), 0, 9), done(2, 0));
        assert_eq!(kalomivund_trial(null(), 0, null(), 0, 1, 1, null_mut(), 0, null_mut(), 0), short);
        assert_eq!(kalomivund_trial(f, n, null(), 0, 1, 1, null_mut(), 0, r, k), short);
        assert_eq!(kalomivund_trial(f, n, null(), 0, 1, 1, m, l, null_mut(), 0), short);
        assert_eq!(kalomivund_run_of_rank(null(), 0, null(), 0, 0, null_mut(), 0), short);
        assert_eq!(kalomivund_run_of_rank(f, n, null(), 0, 0, null_mut(), 0), short);
        assert_eq!(kalomivund_run_of_rank(f, n, null(), 0, 0, r, k), done(4, 3));
        assert_eq!(kalomivund_conflict(null(), 0, null(), 0, 63), short);
        assert_eq!(kalomivund_conflict(m, ROUTE, null(), 0, 63), short);
        assert_eq!(kalomivund_conflict(null(), 0, m, ROUTE, 63), short);
        assert_eq!(kalomivund_check_record(null(), 0, null(), 0, 1, null(), 0), short);
        assert_eq!(kalomivund_check_record(f, n, null(), 0, 1, null(), 0), short);
        assert_eq!(kalomivund_arrival(null(), 0, 63), short);
    }
}

/// One name for one thing: the lengths of the C header are the crate's constants of the same names.
#[test]
fn the_headers_lengths() {
    let header = include_str!("../include/kalomivund.h");
    let first = header.find("/* Lengths, ").unwrap();
    let block = &header[first..first + header[first..].find("\n\n").unwrap()];
    let told: Vec<(&str, usize)> = block
        .lines()
        .filter_map(|line| {
            let mut words = line.strip_prefix("#define KALOMIVUND_")?.split_whitespace();
            Some((words.next()?, words.next()?.parse().unwrap()))
        })
        .collect();
    let ours = [
        ("FLOOR", FLOOR),
        ("CARRIERS", CARRIERS),
        ("DOCKS", DOCKS),
        ("ROUTE", ROUTE),
        ("ANSWER", ANSWER),
        ("CHANNEL", CHANNEL),
        ("LENGTHS", LENGTHS),
        ("MOST_WALLS", MOST_WALLS),
        ("MOST_SHEET", MOST_SHEET),
        ("MOST_ANSWERS", MOST_ANSWERS),
        ("MOST_TEXT", MOST_TEXT),
        ("MOST_STATE", MOST_STATE),
        ("MOST_REPORT", MOST_REPORT),
    ];
    assert_eq!(told, ours);
}
