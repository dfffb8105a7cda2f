//! The benchmark's inputs: systems of 64 to 1,024 words that are hard for a solver in different ways.

use crate::estimate::{facts, Layout};
use crate::generate::{sensible_table, Random};
use crate::solve::solve;
use crate::table::{self, NARROW, WIDE};
use crate::terms::*;

pub struct Input {
    pub name: String,
    pub rho: u32,
    pub words: Vec<u32>,
}

const SIZES: [usize; 3] = [64, 256, 1024];
const TARGET: u32 = 0x10;
/// The opponent's set of the random systems.
const RHO: u32 = 0x0f;

/// A table of these blocks, a wide one where a narrow one has not enough handlers.
fn fitting(blocks: &[Term]) -> Vec<u32> {
    system_with(if blocks.len() > NARROW as usize { WIDE } else { NARROW }, blocks)
}

/// Where each of so many things stands.
type Order = fn(usize) -> Vec<usize>;

/// A chain of handlers: each gets the message of the one before and hands `body` of it on. Only the first is open to the
/// opponent, only the last exercises. `order` is where in the table each stands.
fn handlers(order: &[usize], body: impl Fn(Term) -> Term) -> Vec<u32> {
    let count = order.len();
    let mut blocks = vec![vec![]; count];
    for (i, &at) in order.iter().enumerate() {
        let last = i + 1 == count;
        let next = if last { exercise(TARGET) } else { body(name(i as u32 + 1)) };
        blocks[at] = block(i as u32, 0x11, u32::from(i > 0), next);
    }
    fitting(&blocks)
}

fn forward(count: usize) -> Vec<usize> {
    (0..count).collect()
}

fn backward(count: usize) -> Vec<usize> {
    (0..count).rev().collect()
}

fn mixed(count: usize) -> Vec<usize> {
    let (mut random, mut order) = (Random(1), forward(count));
    (1..count).for_each(|i| order.swap(i, random.below(i + 1)));
    order
}

/// The largest valid system of the family that has at most this many words.
fn largest(words: usize, family: impl Fn(usize) -> Vec<u32>) -> Vec<u32> {
    let fitting = (1..).map(family).take_while(|system| system.len() <= words);
    fitting.filter(|system| table::read(system).is_ok()).last().expect("the smallest system fits")
}

/// `count` binders around a body, each bound to `first` (which sees the binders before it).
fn binders(count: usize, first: impl Fn(usize) -> Term, body: Term) -> Term {
    (0..count).rev().fold(body, |body, i| bind(first(i), body))
}

/// Each handler adds a record of its own to the message; `more` of these a handler.
fn record_chain(order: &[usize], more: usize) -> Vec<u32> {
    let message = (0..more).fold(variable(0), |message, i| set(message, literal(i as u32), empty()));
    handlers(order, |next| send(0, next, message.clone()))
}

/// A chain of lets in each of some handlers, to depth 60 and with a new record at each.
fn let_chain(order: &[usize], lets: usize) -> Vec<u32> {
    handlers(order, |next| {
        let first = |i: usize| if i % 4 == 0 { set(variable(0), literal(0), variable(0)) } else { variable(0) };
        binders(lets, first, send(0, next, variable(0)))
    })
}

/// Cells, each given the content of the one before, in this order of statements; two handlers.
fn cell_chain(cells: usize, order: Order) -> Vec<u32> {
    handlers(&forward(3), |next| {
        let at = |i: usize| variable(cells - 1 - i);
        let mut steps: Vec<Term> = order(cells - 1).into_iter().map(|i| assign(at(i + 1), content(at(i)))).collect();
        steps.push(send(0, next, content(at(cells - 1))));
        let first = |i: usize| if i == 0 { cell(set(variable(0), literal(0), empty())) } else { cell(constant(1)) };
        binders(cells, first, sequence(&steps))
    })
}

/// Twelve cells in a ring in each of some handlers, the first with the message and the others with a record of their own, each
/// given the content of the one before in this order of statements.
fn cell_rings(count: usize, order: Order) -> Vec<u32> {
    const CELLS: usize = 12;
    handlers(&forward(count + 1), |next| {
        let at = |i: usize| variable(CELLS - 1 - i % CELLS);
        let mut steps: Vec<Term> = order(CELLS).into_iter().map(|i| assign(at(i + 1), content(at(i)))).collect();
        steps.push(send(0, next, content(at(0))));
        binders(CELLS, |i| cell(if i == 0 { variable(0) } else { empty() }), sequence(&steps))
    })
}

/// Functions in cells, each calling the next, defined in this order; the last hands its argument back; two handlers.
fn call_chain(functions: usize, order: Order) -> Vec<u32> {
    handlers(&forward(3), |next| {
        let at = |i: usize, inside: usize| variable(functions - 1 - i + inside);
        let calls = |i: usize| function(apply(content(at(i + 1, 1)), variable(0)));
        let mut steps: Vec<Term> = order(functions - 1).into_iter().map(|i| assign(at(i, 0), calls(i))).collect();
        steps.push(send(0, next, apply(content(at(0, 0)), set(empty(), literal(0), empty()))));
        binders(functions, |_| cell(function(variable(0))), sequence(&steps))
    })
}

/// Functions bound by lets, each calling the one before; three handlers.
fn function_chain(functions: usize) -> Vec<u32> {
    handlers(&forward(4), |next| {
        let first = |i: usize| function(if i == 0 { variable(0) } else { apply(variable(1), variable(0)) });
        binders(functions, first, send(0, next, apply(variable(0), variable(functions))))
    })
}

/// So many twos of Church applied one to the other, then to the message, in each of some handlers.
fn numeral_tower(count: usize, twos: usize) -> Vec<u32> {
    let two = || function(function(apply(variable(1), apply(variable(1), variable(0)))));
    handlers(&forward(count), |next| {
        let tower = (0..twos).fold(function(set(variable(0), literal(0), variable(0))), |inner, _| apply(two(), inner));
        send(0, next, apply(tower, variable(0)))
    })
}

/// Functions bound by lets, each calling the one before on what that makes of its argument; three handlers.
fn call_tower(functions: usize) -> Vec<u32> {
    handlers(&forward(4), |next| {
        let twice = || apply(variable(1), apply(variable(1), variable(0)));
        let first = |i: usize| function(if i == 0 { set(variable(0), literal(0), empty()) } else { twice() });
        binders(functions, first, send(0, next, apply(variable(0), variable(functions))))
    })
}

/// Twelve cells in a ring in each of some handlers, each with a function of its own, given the content of the one before in this order of statements.
fn function_rings(count: usize, order: Order) -> Vec<u32> {
    const CELLS: usize = 12;
    handlers(&forward(count + 1), |next| {
        let at = |i: usize| variable(CELLS - 1 - i % CELLS);
        let mut steps: Vec<Term> = order(CELLS).into_iter().map(|i| assign(at(i + 1), content(at(i)))).collect();
        steps.push(send(0, next, apply(content(at(0)), variable(CELLS))));
        binders(CELLS, |_| cell(function(variable(0))), sequence(&steps))
    })
}

/// One cell that all read, and one statement in eight gives a function of its own.
fn readers(count: usize) -> Vec<u32> {
    let read = content(variable(0));
    let mut statements = vec![assign(variable(0), function(variable(0)))];
    statements.extend(vec![read; 7]);
    dense(count, constant(1), &statements)
}

/// Every handler sends the message with a record of its own to every handler.
fn all_to_all(count: usize) -> Vec<u32> {
    let to = |k: usize| send(0, name(k as u32), set(variable(0), literal(0), empty()));
    let body = |i: usize| sequence(&(0..count).map(to).chain([exercise(1 << (i % 24))]).collect::<Vec<_>>());
    system(&(0..count).map(|i| block(i as u32, 0xff_ffff, u32::from(i > 0), body(i))).collect::<Vec<_>>())
}

/// One cell holds all functions, and each of them is applied to each.
fn dense_functions(count: usize) -> Vec<u32> {
    let put = assign(variable(0), function(variable(0)));
    let call = apply(content(variable(0)), content(variable(0)));
    dense(count, constant(1), &[put, call])
}

/// One cell holds all records, and each of them is put in each.
fn dense_records(count: usize) -> Vec<u32> {
    let all = || content(variable(0));
    dense(count, empty(), &[assign(variable(0), set(all(), literal(0), all())), get(all(), literal(0))])
}

/// All sorts at once: functions that set records, kept in the same cell as these.
fn dense_mixture(count: usize) -> Vec<u32> {
    let all = || content(variable(0));
    let put = assign(variable(0), function(set(variable(0), literal(1), content(variable(1)))));
    let call = assign(variable(0), apply(all(), all()));
    let more = assign(all(), cell(content(all())));
    dense(count, cell(empty()), &[put, call, more])
}

/// One cell, and the statements on it so many times.
fn dense(count: usize, start: Term, statements: &[Term]) -> Vec<u32> {
    let statements: Vec<Term> = statements.iter().flat_map(|statement| vec![statement.clone(); count]).collect();
    system(&[block(0, TARGET, 0, bind(cell(start), sequence(&[sequence(&statements), exercise(TARGET)])))])
}

/// Nested nearly as deeply as can be, each level with another word; as many handlers as fit.
fn deep(count: usize) -> Vec<u32> {
    let nest = |end: Term| {
        (0..38).fold(end, |inner, level| match level % 5 {
            0 => set(empty(), literal(0), inner),
            1 => branch(constant(2), inner, exercise(TARGET)),
            2 => apply(function(inner), empty()),
            3 => content(cell(inner)),
            _ => get(set(empty(), literal(1), inner), literal(1)),
        })
    };
    let end = |next: u32| sequence(&[exercise(TARGET), send(0, name(next), variable(0))]);
    system(&(0..count as u32).map(|i| block(i, TARGET, 0, nest(end((i + 1) % count as u32)))).collect::<Vec<_>>())
}

/// So many handlers, each sending the message with a record of its own to several others.
fn exchange(count: usize, sends: usize) -> Vec<u32> {
    let body = |i: usize| {
        let to = |k: usize| send(0, name(((i + 1 + k * k * 3) % count) as u32), set(variable(0), literal(k as u32), variable(0)));
        sequence(&(0..sends).map(to).chain([exercise(1 << (i % 24))]).collect::<Vec<_>>())
    };
    fitting(&(0..count).map(|i| block(i as u32, 0xff_ffff, u32::from(i > 0), body(i))).collect::<Vec<_>>())
}

/// 32 handlers of one name, each sending to all of them.
fn one_name(sends: usize) -> Vec<u32> {
    let to_all = send(0, name(0), set(empty(), literal(0), variable(0)));
    let body = |i: u32| sequence(&[vec![to_all.clone(); sends], vec![exercise(i)]].concat());
    system(&(0..32).map(|i| block(0, i, 0, body(i))).collect::<Vec<_>>())
}

/// Of several random systems the one with the most facts.
fn random(names: u32, words: usize, seed: u64) -> Vec<u32> {
    let mut random = Random(seed);
    let systems = (0..40).map(|_| sensible_table(&mut random, names, words, names as usize)).filter(|system| system.len() * 5 > words * 4);
    let facts = |system: &Vec<u32>| {
        let table = table::read(system).expect("a valid table");
        let mut estimate = vec![0; Layout::of(&table).total()];
        solve(&table, RHO, &mut estimate);
        facts(&table, &estimate)
    };
    systems.max_by_key(facts).expect("one of them is large enough")
}

pub fn inputs() -> Vec<Input> {
    let mut inputs: Vec<Input> = Vec::new();
    let mut add = |name: String, rho: u32, words: Vec<u32>| inputs.push(Input { name, rho, words });
    let orders: [(&str, Order); 3] = [("forward", forward), ("backward", backward), ("mixed", mixed)];
    for words in SIZES {
        for (order_name, order) in orders {
            let mut sized = |name: &str, family: &dyn Fn(usize) -> Vec<u32>| {
                add(format!("{name}-{order_name}-{words}"), 0, largest(words, family));
            };
            sized("handlers", &|more| record_chain(&order(if words == 64 { 8 } else { 32 }), more - 1));
            sized("lets", &|lets| let_chain(&order(if words == 1024 { 7 } else { 3 }), lets));
            sized("cells", &|cells| cell_chain(cells, order));
            sized("calls", &|functions| call_chain(functions, order));
            if words > 64 {
                sized("rings", &|count| cell_rings(count, order));
                sized("function-rings", &|count| function_rings(count, order));
            }
        }
        let mut sized = |name: &str, family: fn(usize) -> Vec<u32>| add(format!("{name}-{words}"), 0, largest(words, family));
        sized("functions", function_chain);
        sized("towers", call_tower);
        sized("readers", readers);
        sized("all-to-all", all_to_all);
        sized("dense-functions", dense_functions);
        sized("dense-records", dense_records);
        sized("dense-mixture", dense_mixture);
        if words > 64 {
            sized("deep", deep);
        }
    }
    for (words, handlers) in SIZES.into_iter().zip([2, 3, 5]) {
        add(format!("numerals-{words}"), 0, largest(words, |twos| numeral_tower(handlers, twos)));
    }
    add("exchange-64".into(), 0, exchange(5, 1));
    add("exchange-256".into(), 0, exchange(14, 2));
    add("exchange-1024".into(), 0, exchange(32, 3));
    add("one-name-1024".into(), 0, one_name(3));
    for words in [64, 256, 512, 1024] {
        for seed in 1..=3 {
            add(format!("random-{words}-{seed}"), RHO, random(NARROW, words, seed));
        }
    }
    add("wide-handlers-1024".into(), 0, largest(1024, |more| record_chain(&mixed(64), more - 1)));
    add("wide-exchange-1024".into(), 0, exchange(56, 2));
    for words in [256, 1024] {
        add(format!("wide-random-{words}"), RHO, random(WIDE, words, 1));
    }
    inputs
}
