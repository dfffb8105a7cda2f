//! Random runs of the machine against the estimate, of systems of either width. PEER_ROUNDS makes the run longer.

use peer::estimate::{leak, Layout, LIVE};
use peer::generate::{event, sensible_table, Random};
use peer::machine::{Control, Event, Instance, Value, World};
use peer::solve::solve;
use peer::table::{read, within, Table, WIDTHS};
use peer::terms::*;

#[derive(Default, Debug)]
struct Counts {
    systems: u64,
    leaking: u64,
    exercising: u64,
    whole: u64,
    events: u64,
    idle: u64,
    exercised: u64,
    instances: u64,
    sent: u64,
    mended: u64,
}

/// The word at hand is live, and its value, once there, lies in its value set.
fn covered(table: &Table, estimate: &[u32], instance: &Instance) -> bool {
    let layout = Layout::of(table);
    let live = |p: usize| estimate[layout.rows() + p] & LIVE != 0;
    match &instance.control {
        Control::Stopped => true,
        Control::Run(p, _) => live(*p),
        Control::Done(p, value) => {
            let element = instance.element(table, value);
            live(*p) && estimate[2 * p * layout.row + element / 32] >> (element % 32) & 1 != 0
        }
    }
}

/// Must this event change nothing?
fn without_effect(table: &Table, rho: u32, world: &World, event: &Event) -> bool {
    match event {
        Event::Start { handler, .. } => table.blocks.get(*handler).is_none_or(|block| !within(block.guard, rho)),
        Event::Step { instance, .. } => world.instances.get(*instance).is_none_or(|i| !i.running()),
    }
}

/// Is this the step of a send whose message loses a field?
fn mended(table: &Table, world: &World, event: &Event) -> bool {
    let Event::Step { instance, .. } = event else { return false };
    let sending = world.instances.get(*instance).and_then(|instance| instance.sending(table));
    sending.is_some_and(|(_, _, message)| message.sent() != *message)
}

fn run(random: &mut Random, words: &[u32], table: &Table, rho: u32, counts: &mut Counts) {
    let layout = Layout::of(table);
    let mut estimate = vec![0; layout.total()];
    solve(table, rho, &mut estimate);
    let leak = leak(table, rho, &estimate);
    let mut world = World::empty();
    let mut starts = 0;
    for _ in 0..400 {
        let event = event(random, table, &world);
        let before = without_effect(table, rho, &world, &event).then(|| world.clone());
        let instances = world.instances.len();
        let mended = mended(table, &world, &event);
        world.act(table, rho, &event);
        counts.mended += u64::from(mended && world.instances.len() > instances);
        starts += usize::from(matches!(event, Event::Start { .. }) && world.instances.len() > instances);
        counts.events += 1;
        if let Some(before) = before {
            counts.idle += 1;
            assert!(world == before);
        }
        if let Event::Step { instance, .. } = event {
            let instance = world.instances.get(instance);
            assert!(instance.is_none_or(|i| covered(table, &estimate, i)), "{words:08x?} rho {rho:x}: {:?}", instance.unwrap());
        }
    }
    let mut exercised = 0;
    for (home, set) in &world.exercised {
        assert!(within(*set, estimate[layout.rows() + home]), "{words:08x?} rho {rho:x}");
        exercised |= set;
    }
    assert!(within(exercised, leak), "{words:08x?} rho {rho:x}: {exercised:06x} is not within {leak:06x}");
    counts.systems += 1;
    counts.leaking += u64::from(leak != 0);
    counts.exercising += u64::from(exercised != 0);
    counts.whole += u64::from(leak != 0 && exercised == leak);
    counts.exercised += world.exercised.iter().filter(|(_, set)| *set != 0).count() as u64;
    counts.instances += world.instances.len() as u64;
    counts.sent += (world.instances.len() - starts) as u64;
}

#[test]
fn what_is_exercised_lies_in_the_leak() {
    let rounds: u64 = std::env::var("PEER_ROUNDS").map_or(1, |times| times.parse().expect("PEER_ROUNDS is a number"));
    let mut random = Random(4);
    for names in WIDTHS {
        let mut counts = Counts::default();
        for _ in 0..20_000 * rounds {
            let size = 20 + random.below(180);
            let words = sensible_table(&mut random, names, size, names as usize / 5);
            let table = read(&words).unwrap();
            let rho = random.permissions(4);
            run(&mut random, &words, &table, rho, &mut counts);
        }
        println!("{names} names: {counts:?}");
        assert!(counts.exercising * 2 > counts.systems && counts.whole * 10 > counts.leaking && counts.sent * 10 > counts.systems);
        assert!(counts.mended * 100 > counts.systems);
    }
}

/// A run of one handler alone: steps until nothing changes.
fn alone(body: Term) -> (Option<Value>, u32) {
    let table = read(&system(&[block(0, 0xff, 0, body)])).unwrap();
    let mut world = World::empty();
    world.act(&table, 0, &Event::Start { handler: 0, datum: Value::Text(40) });
    for _ in 0..200 {
        world.act(&table, 0, &Event::Step { instance: 0, choice: None });
    }
    let value = match &world.instances[0].control {
        Control::Done(p, value) if *p == 4 => Some(value.clone()),
        Control::Stopped => None,
        other => panic!("not at its end: {other:?}"),
    };
    (value, world.exercised.iter().fold(0, |all, (_, set)| all | set))
}

#[test]
fn sentences_of_the_machine() {
    use peer::table::kind::*;
    let value = |body| alone(body).0;
    let operation = |which, x, y| term(OPERATION, which, [x, y]);
    let number = |n: i32| term(NUMBER, n as u32 & 0xff_ffff, []);
    let record = || set(empty(), literal(0), number(5));
    let truth = |t| Some(Value::Truth(t));
    assert_eq!(value(operation(0, number(2), number(-5))), Some(Value::Number(-3)));
    assert_eq!(value(operation(1, number(-1), number(0))), truth(true));
    assert_eq!(value(operation(1, number(0), literal(0))), None);
    assert_eq!(value(operation(2, literal(3), number(0))), truth(false));
    assert_eq!(value(operation(2, literal(3), literal(3))), truth(true));
    for bad in [empty(), function(number(0)), cell(number(0))] {
        assert_eq!(value(operation(2, bad.clone(), number(0))), None);
        assert_eq!(value(operation(2, number(0), bad.clone())), None);
        assert_eq!(value(branch(bad.clone(), number(0), number(0))), None);
        assert_eq!(value(send(0, bad, number(0))), None);
    }
    assert_eq!(value(get(record(), literal(0))), Some(Value::Number(5)));
    assert_eq!(value(get(record(), literal(1))), Some(Value::Undefined));
    assert_eq!(value(get(set(record(), literal(0), number(6)), literal(0))), Some(Value::Number(6)));
    assert_eq!(value(get(term(DELETE, 0, [record(), literal(0)]), literal(0))), Some(Value::Undefined));
    assert_eq!(value(get(record(), number(0))), None);
    assert_eq!(value(get(number(0), literal(0))), None);
    assert_eq!(value(bind(cell(number(1)), assign(variable(0), number(2)))), Some(Value::Number(2)));
    assert_eq!(value(bind(cell(number(1)), sequence(&[assign(variable(0), number(2)), content(variable(0))]))), Some(Value::Number(2)));
    assert_eq!(value(content(number(0))), None);
    assert_eq!(value(assign(number(0), number(0))), None);
    assert_eq!(value(apply(function(variable(0)), number(7))), Some(Value::Number(7)));
    assert_eq!(value(apply(number(0), number(7))), None);
    let count_down = |body: Term| {
        let below = operation(1, content(variable(0)), number(3));
        bind(
            cell(number(0)),
            term(WHILE, 0, [below, sequence(&[body, assign(variable(0), operation(0, content(variable(0)), number(1)))])]),
        )
    };
    assert_eq!(alone(count_down(exercise(1))), (Some(Value::Undefined), 1));
    assert_eq!(alone(sequence(&[exercise(1), exercise(0x100), exercise(2)])), (None, 1));
    assert_eq!(alone(exercise(0)), (Some(Value::Unit), 0));
    assert_eq!(alone(sequence(&[exercise(3), send(0, name(9), variable(0))])), (Some(Value::Unit), 3));
}

/// A send with each choice: the name, the required set, the guard and the message are all looked at.
#[test]
fn choices_of_a_send() {
    let attempt = |required, message: Term, choice| {
        let sender = block(0, 0x08, 0, send(required, name(1), message));
        let table =
            read(&system(&[sender, block(1, 2, 8, exercise(2)), block(1, 4, 16, exercise(4)), block(2, 2, 0, exercise(2))])).unwrap();
        let mut world = World::empty();
        world.act(&table, 0, &Event::Start { handler: 0, datum: Value::Unit });
        while world.instances[0].sending(&table).is_none() {
            world.act(&table, 0, &Event::Step { instance: 0, choice: None });
        }
        let before = world.clone();
        world.act(&table, 0, &Event::Step { instance: 0, choice });
        (world != before, world.instances.len() - 1)
    };
    assert_eq!(attempt(0, constant(1), None), (true, 0));
    assert_eq!(attempt(0, constant(1), Some(1)), (true, 1));
    assert_eq!(attempt(2, constant(1), Some(1)), (true, 1));
    assert_eq!(attempt(1, constant(1), Some(1)), (false, 0));
    assert_eq!(attempt(0, constant(1), Some(2)), (false, 0));
    assert_eq!(attempt(0, constant(1), Some(3)), (false, 0));
    assert_eq!(attempt(0, constant(1), Some(4)), (false, 0));
    let nested = |inner| set(empty(), literal(0), set(empty(), literal(1), inner));
    assert_eq!(attempt(0, nested(constant(1)), Some(1)), (true, 1));
    for message in [function(constant(1)), cell(constant(1)), nested(cell(constant(1)))] {
        assert_eq!(attempt(0, message.clone(), Some(1)), (false, 0));
        assert_eq!(attempt(0, message, None), (true, 0));
    }
    for message in [constant(0), nested(constant(0)), nested(function(constant(1)))] {
        assert_eq!(attempt(0, message, Some(1)), (true, 1));
    }
    let both = set(nested(cell(constant(1))), literal(2), function(constant(1)));
    assert_eq!(attempt(0, both, Some(1)), (false, 0));
}

/// Fields that are undefined or functions vanish from a message at every depth, with the later fields of their key; nothing else does.
#[test]
fn what_is_sent() {
    let record = |fields| Value::record(None, fields);
    let function = || Value::Function(4, None);
    let sent = |value: Value| value.sent();
    for value in [Value::Undefined, Value::Unit, Value::Number(-3), Value::Text(40), function(), Value::Cell(0), record(vec![])] {
        assert_eq!(sent(value.clone()), value);
    }
    assert_eq!(sent(record(vec![(0, Value::Undefined)])), record(vec![]));
    let rest = vec![(1, Value::Cell(0)), (2, Value::Unit)];
    assert_eq!(sent(record([vec![(0, function())], rest.clone()].concat())), record(rest));
    let nested = |inner| record(vec![(0, record(vec![(0, record(inner))]))]);
    assert_eq!(sent(nested(vec![(0, function()), (1, Value::Undefined), (2, Value::Unit)])), nested(vec![(2, Value::Unit)]));
    assert_eq!(sent(record(vec![(0, Value::Undefined), (0, Value::Unit), (1, Value::Unit)])), record(vec![(1, Value::Unit)]));
    assert_eq!(sent(record(vec![(0, Value::Unit), (0, Value::Undefined)])), record(vec![(0, Value::Unit)]));
    let made = Value::record(Some(7), vec![(0, function())]);
    assert_eq!(made.sent(), Value::record(Some(7), vec![]));
}

/// What the receiver of a relayed message reads at a key that stands twice.
#[test]
fn a_key_that_stands_twice() {
    let receiver = branch(term(peer::table::kind::OPERATION, 2, [get(variable(0), literal(0)), constant(0)]), exercise(1), exercise(2));
    let table = read(&system(&[block(0, 8, 0, send(0, name(1), variable(0))), block(1, 3, 8, receiver)])).unwrap();
    let exercised = |fields| {
        let mut world = World::empty();
        world.act(&table, 0, &Event::Start { handler: 0, datum: Value::record(None, fields) });
        for instance in [0, 1] {
            for _ in 0..30 {
                world.act(&table, 0, &Event::Step { instance, choice: Some(1) });
            }
        }
        world.exercised.iter().map(|(_, set)| *set).collect::<Vec<_>>()
    };
    assert_eq!(exercised(vec![(0, Value::Undefined), (0, Value::Unit)]), [1]);
    assert_eq!(exercised(vec![(0, Value::Unit), (0, Value::Undefined)]), [2]);
}
