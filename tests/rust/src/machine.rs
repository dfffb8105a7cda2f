//! Document 01's machine in small steps, with the messages of document 02's wish 3.
//!
//! Records and cells carry the word that made them, which no step looks at: tests compare them with the estimate.

use crate::estimate::{made, sign, FALSE, FIRST_LITERAL, FIRST_NAME, OPPONENT, OTHER_STRING, TRUE, UNDEFINED, UNIT};
use crate::table::{kind::*, within, Table, LITERALS};
use std::rc::Rc;

/// The values of the binders around a word, the innermost first.
pub type Env = Option<Rc<Binding>>;

#[derive(Debug, PartialEq)]
pub struct Binding {
    value: Value,
    next: Env,
}

#[derive(Clone, Debug, PartialEq)]
pub enum Value {
    Undefined,
    Unit,
    Truth(bool),
    Number(i128),
    /// A literal below 23, another string beyond.
    Text(u32),
    Name(u32),
    Function(usize, Env),
    Record(Rc<Fields>),
    /// An index in the instance's own cells.
    Cell(usize),
}
use Value::*;

#[derive(Debug, PartialEq)]
pub struct Fields {
    /// None for the opponent's.
    made: Option<usize>,
    /// Holds no function and no cell anywhere.
    plain: bool,
    fields: Vec<(u32, Value)>,
}

impl Fields {
    fn get(&self, key: u32) -> Value {
        let field = self.fields.iter().find(|(name, _)| *name == key);
        field.map_or(Undefined, |(_, value)| value.clone())
    }

    fn without(&self, key: u32) -> Vec<(u32, Value)> {
        self.fields.iter().filter(|(name, _)| *name != key).cloned().collect()
    }
}

impl Value {
    /// A record made at this word, or the opponent's.
    pub fn record(made: Option<usize>, fields: Vec<(u32, Value)>) -> Value {
        let plain = fields.iter().all(|(_, value)| value.plain());
        Record(Rc::new(Fields { made, plain, fields }))
    }

    pub fn plain(&self) -> bool {
        match self {
            Function(..) | Cell(_) => false,
            Record(record) => record.plain,
            _ => true,
        }
    }

    /// A field with this value vanishes from a message.
    fn left_out(&self) -> bool {
        matches!(self, Undefined | Function(..))
    }

    /// What is sent of it: fields vanish at every depth. The first field of a key counts, and one that vanishes takes the later ones with it.
    pub fn sent(&self) -> Value {
        let Record(record) = self else {
            return self.clone();
        };
        let first = |i: &usize| record.fields[..*i].iter().all(|(key, _)| *key != record.fields[*i].0);
        let fields = (0..record.fields.len()).filter(first).map(|i| &record.fields[i]);
        Value::record(record.made, fields.filter(|(_, value)| !value.left_out()).map(|(key, value)| (*key, value.sent())).collect())
    }
}

#[derive(Clone, Debug, PartialEq)]
pub enum Control {
    /// Word p is about to run.
    Run(usize, Env),
    /// Word p has this value.
    Done(usize, Value),
    Stopped,
}
use Control::*;

#[derive(Clone, Debug, PartialEq)]
enum Frame {
    /// A part of word p runs; these are the values of those before it.
    Part(usize, Env, Vec<Value>),
    /// What comes is the value of word p.
    Result(usize),
    /// The body of the while at word p runs.
    Again(usize, Env),
}

#[derive(Clone, Debug, PartialEq)]
pub struct Instance {
    /// The first word of its handler's block.
    pub home: usize,
    pub control: Control,
    frames: Vec<Frame>,
    cells: Vec<(usize, Value)>,
}

/// An event of a run. Positions of instances are in the order of their starts, those of handlers in block order.
#[derive(Clone, Debug)]
pub enum Event {
    /// One step of an instance; a send starts the chosen handler, or nothing.
    Step { instance: usize, choice: Option<usize> },
    /// The opponent starts a handler with a datum.
    Start { handler: usize, datum: Value },
}

#[derive(Clone, Debug, PartialEq)]
pub struct World {
    pub instances: Vec<Instance>,
    /// What each exercise that proceeded exercised, with the word of the block.
    pub exercised: Vec<(usize, u32)>,
}

impl Instance {
    fn new(home: usize, message: Value) -> Instance {
        let env = Some(Rc::new(Binding { value: message, next: None }));
        Instance { home, control: Run(home + 3, env), frames: vec![], cells: vec![] }
    }

    /// The element that stands for a value of this instance.
    pub fn element(&self, table: &Table, value: &Value) -> usize {
        match value {
            Undefined => UNDEFINED,
            Unit => UNIT,
            Truth(truth) => {
                if *truth {
                    TRUE
                } else {
                    FALSE
                }
            }
            Number(number) => sign(*number),
            Text(text) if *text < LITERALS => FIRST_LITERAL + *text as usize,
            Text(_) => OTHER_STRING,
            Name(name) => FIRST_NAME + *name as usize,
            Function(p, _) => made(table, *p),
            Record(record) => record.made.map_or(OPPONENT, |p| made(table, p)),
            Cell(index) => made(table, self.cells[*index].0),
        }
    }

    /// The permissions of its handler.
    fn permissions(&self, table: &Table) -> u32 {
        table.argument(self.home + 1)
    }

    /// Neither stopped nor finished.
    pub fn running(&self) -> bool {
        match self.control {
            Run(..) => true,
            Done(..) => !self.frames.is_empty(),
            Stopped => false,
        }
    }

    /// The send whose parts have their values: its word, target and message.
    pub fn sending(&self, table: &Table) -> Option<(usize, &Value, &Value)> {
        match (&self.control, self.frames.last()) {
            (Done(_, message), Some(Frame::Part(p, _, values))) if table.kind(*p) == SEND && values.len() == 1 => {
                Some((*p, &values[0], message))
            }
            _ => None,
        }
    }

    /// One step that is no send's; answers the set of an exercise that proceeds.
    fn step(&mut self, table: &Table) -> Option<u32> {
        match std::mem::replace(&mut self.control, Stopped) {
            Stopped => {}
            Run(p, env) => return self.start(table, p, env),
            Done(q, value) => match self.frames.pop() {
                None => self.control = Done(q, value),
                Some(Frame::Result(p)) => self.control = Done(p, value),
                Some(Frame::Again(p, env)) => self.control = Run(p, env),
                Some(Frame::Part(p, env, mut values)) => {
                    values.push(value);
                    self.proceed(table, p, env, values);
                }
            },
        }
        None
    }

    fn start(&mut self, table: &Table, p: usize, env: Env) -> Option<u32> {
        let argument = table.argument(p);
        let value = match table.kind(p) {
            CONSTANT => [Undefined, Unit, Truth(true), Truth(false)][argument as usize].clone(),
            NUMBER => Number(table.number(p).into()),
            LITERAL => Text(argument),
            NAME => Name(argument),
            VARIABLE => {
                let mut binding = env.as_ref();
                for _ in 0..argument {
                    binding = binding.and_then(|binding| binding.next.as_ref());
                }
                binding.expect("every variable of an accepted table has its binder").value.clone()
            }
            FUNCTION => Function(p, env),
            EMPTY => Value::record(Some(p), vec![]),
            EXERCISE if within(argument, self.permissions(table)) => Unit,
            EXERCISE => return None,
            _ => {
                self.run_part(table, p, 0, env, vec![]);
                return None;
            }
        };
        self.control = Done(p, value);
        (table.kind(p) == EXERCISE).then_some(argument)
    }

    /// Runs part k of word p, whose value p needs.
    fn run_part(&mut self, table: &Table, p: usize, k: usize, env: Env, values: Vec<Value>) {
        self.frames.push(Frame::Part(p, env.clone(), values));
        self.control = Run(table.part(p, k), env);
    }

    /// Runs a term whose value will be that of word p.
    fn run_as(&mut self, p: usize, term: usize, env: Env) {
        self.frames.push(Frame::Result(p));
        self.control = Run(term, env);
    }

    /// Word p goes on with the values of its first parts. The instance has stopped if nothing else is said.
    fn proceed(&mut self, table: &Table, p: usize, env: Env, mut values: Vec<Value>) {
        let kind = table.kind(p);
        match (kind, &mut values[..]) {
            (LET, [first]) => {
                let env = Some(Rc::new(Binding { value: first.clone(), next: env }));
                self.run_as(p, table.part(p, 1), env);
            }
            (SEQUENCE, [_]) => self.run_as(p, table.part(p, 1), env),
            (IF, [Truth(truth)]) => self.run_as(p, table.part(p, if *truth { 1 } else { 2 }), env),
            (WHILE, [Truth(true)]) => {
                self.frames.push(Frame::Again(p, env.clone()));
                self.control = Run(table.part(p, 1), env);
            }
            (WHILE, [Truth(false)]) => self.control = Done(p, Undefined),
            (IF | WHILE, _) => {}
            (_, done) if done.len() < crate::table::arity(kind) => {
                let k = done.len();
                self.run_part(table, p, k, env, values);
            }
            (APPLY, [Function(f, env), argument]) => {
                let env = Some(Rc::new(Binding { value: argument.clone(), next: env.clone() }));
                self.run_as(p, *f + 1, env);
            }
            (_, done) => {
                if let Some(value) = self.result(table, p, done) {
                    self.control = Done(p, value);
                }
            }
        }
    }

    /// The value of word p for the values of all its parts; none where no step is given.
    fn result(&mut self, table: &Table, p: usize, values: &[Value]) -> Option<Value> {
        match (table.kind(p), values) {
            (OPERATION, [x, y]) => operate(table.argument(p), x, y),
            (GET, [Record(record), Text(key)]) => Some(record.get(*key)),
            (SET, [Record(record), Text(key), value]) => {
                let mut fields = record.without(*key);
                fields.push((*key, value.clone()));
                Some(Value::record(Some(p), fields))
            }
            (DELETE, [Record(record), Text(key)]) => Some(Value::record(record.made, record.without(*key))),
            (CELL, [value]) => {
                self.cells.push((p, value.clone()));
                Some(Cell(self.cells.len() - 1))
            }
            (READ, [Cell(index)]) => Some(self.cells[*index].1.clone()),
            (ASSIGN, [Cell(index), value]) => {
                self.cells[*index].1 = value.clone();
                Some(value.clone())
            }
            _ => None,
        }
    }
}

fn operate(operation: u32, x: &Value, y: &Value) -> Option<Value> {
    match (operation, x, y) {
        (0, Number(x), Number(y)) => Some(Number(x.checked_add(*y).expect("a run short enough for its numbers"))),
        (1, Number(x), Number(y)) => Some(Truth(x < y)),
        (2, Record(_) | Function(..) | Cell(_), _) | (2, _, Record(_) | Function(..) | Cell(_)) => None,
        (2, x, y) => Some(Truth(x == y)),
        _ => None,
    }
}

impl World {
    /// Nothing runs at the beginning.
    pub fn empty() -> World {
        World { instances: vec![], exercised: vec![] }
    }

    pub fn act(&mut self, table: &Table, rho: u32, event: &Event) {
        match event {
            Event::Start { handler, datum } => {
                if let Some(block) = table.blocks.get(*handler).filter(|block| within(block.guard, rho)) {
                    self.instances.push(Instance::new(block.start, datum.clone()));
                }
            }
            Event::Step { instance, choice } => {
                if *instance < self.instances.len() {
                    self.step(table, *instance, *choice);
                }
            }
        }
    }

    fn step(&mut self, table: &Table, index: usize, choice: Option<usize>) {
        let instance = &mut self.instances[index];
        let Some((p, target, message)) = instance.sending(table) else {
            if let Some(set) = instance.step(table) {
                self.exercised.push((instance.home, set));
            }
            return;
        };
        let started = match (target, choice) {
            (Name(name), Some(handler)) => match (table.blocks.get(handler), message.sent()) {
                (Some(block), message)
                    if block.name == *name && block.admits(table.argument(p), instance.permissions(table)) && message.plain() =>
                {
                    Some(Instance::new(block.start, message))
                }
                _ => return,
            },
            _ => None,
        };
        let named = matches!(target, Name(_));
        instance.frames.pop();
        instance.control = if named { Done(p, Unit) } else { Stopped };
        self.instances.extend(started);
    }
}
