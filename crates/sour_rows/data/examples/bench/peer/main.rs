//! A peer for measuring, and no part of the product: a plain interpreter of Sourir, with whose speed that of
//! the proved one is compared. Nothing of it is proved.
//!
//! It is the same kind of interpreter as `crates/sour_machine`: a tree of enums, one `match` by the kind of
//! instruction, a row of values for each frame, and rows that frames left behind go to others. Before a run
//! each label becomes a place, each variable a slot, and each target a function, a version and a place. Beyond
//! that it uses what any Rust programmer would: a frame refers to its body, and an operand to its value, which
//! isn't copied; a value is one enum, and so is a row's cell, which holds nil where it has no value.
//!
//! It reads texts that are accepted, and panics on most others: it checks neither scopes nor the limits of a text.
//!
//!     rustc --edition 2024 -O -C panic=abort -C codegen-units=1 -C target-cpu=x86-64 -o /tmp/peer main.rs
//!     /tmp/peer run --budget 10000000 <text.sour

use std::collections::{HashMap, VecDeque};
use std::io::{BufWriter, Read, Write};
use std::process::ExitCode;

// What a text means.

/// A tag of a whole word makes the compiler copy values as two words; without it, loops take 12% more
/// instructions.
#[derive(Clone, Copy, PartialEq, Eq)]
#[repr(u64)]
enum Value {
    Number(i64),
    Truth(bool),
    Nil,
    Function(usize),
    Array(usize),
}

/// A literal, or the slot of a variable.
enum Operand {
    Literal(Value),
    Variable(usize),
}

#[derive(Clone, Copy)]
#[rustfmt::skip]
enum Op { Add, Sub, Mul, Div, Rem, Eq, Ne, Lt, Le, Gt, Ge, And, Or }

enum Expr {
    Plain(Operand),
    Cell(usize, Operand),
    Length(Operand),
    Not(Operand),
    Binary(Op, Operand, Operand),
}

/// An instruction; variables are slots, labels are places.
enum Instr {
    Var(usize, Expr),
    Drop(usize),
    Assign(usize, Expr),
    ArrayLength(usize, Expr),
    ArrayList(usize, Vec<Expr>),
    Store(usize, Operand, Expr),
    Print(Expr),
    Read(usize),
    Branch(Expr, usize, usize),
    Goto(usize),
    Call(usize, Operand, Vec<Expr>),
    Return(Expr),
    Stop,
    Assume(Vec<Expr>, Box<Exit>),
}

/// A frame that an exit makes: where it stands, and the values of its variables.
struct Continuation {
    function: usize,
    version: usize,
    place: usize,
    map: Vec<(usize, Expr)>,
}

struct Exit {
    target: Continuation,
    /// The further frames, each with the slot that waits for a result.
    extras: Vec<(Continuation, usize)>,
}

struct Body {
    parameters: usize,
    variables: usize,
    lines: Vec<Instr>,
}

struct Function {
    name: String,
    versions: Vec<Body>,
}

struct Program {
    functions: Vec<Function>,
    main: usize,
}

// Running it.

const OUTPUT_LIMIT: usize = 1_048_576;
const CELL_LIMIT: usize = 4_194_304;

#[derive(Clone, Copy)]
#[rustfmt::skip]
enum Trap { BadType = 1, Overflow, ZeroDivisor, Bounds, NotFunction, ArgCount, HeapFull, InputEnd, OutputFull }

#[rustfmt::skip]
enum End { Returned(Value), Stopped, Trapped(Trap), Cut }

/// A frame; the slots of variables without a value hold nil.
struct Frame<'p> {
    body: &'p Body,
    place: usize,
    row: Vec<Value>,
}

struct Heap {
    arrays: Vec<Vec<Value>>,
    /// How many cells they have together.
    count: usize,
}

impl Heap {
    fn add(&mut self, cells: Vec<Value>) -> Result<Value, Trap> {
        if CELL_LIMIT - self.count < cells.len() {
            return Err(Trap::HeapFull);
        }
        self.count += cells.len();
        self.arrays.push(cells);
        Ok(Value::Array(self.arrays.len() - 1))
    }

    fn add_nils(&mut self, length: Value) -> Result<Value, Trap> {
        let Value::Number(length) = length else {
            return Err(Trap::BadType);
        };
        let length = usize::try_from(length).map_err(|_| Trap::Bounds)?;
        if CELL_LIMIT - self.count < length {
            return Err(Trap::HeapFull);
        }
        self.add(vec![Value::Nil; length])
    }

    #[inline(always)]
    fn cell(&self, array: &Value, index: &Value) -> Result<Value, Trap> {
        let (array, index) = array_and_index(array, index)?;
        self.arrays[array].get(index).copied().ok_or(Trap::Bounds)
    }

    fn store(&mut self, array: &Value, index: &Value, value: Value) -> Result<(), Trap> {
        let (array, index) = array_and_index(array, index)?;
        *self.arrays[array].get_mut(index).ok_or(Trap::Bounds)? = value;
        Ok(())
    }
}

#[inline(always)]
fn array_and_index(array: &Value, index: &Value) -> Result<(usize, usize), Trap> {
    match (array, index) {
        (Value::Array(_), Value::Number(..0)) => Err(Trap::Bounds),
        (Value::Array(array), Value::Number(index)) => Ok((*array, *index as usize)),
        _ => Err(Trap::BadType),
    }
}

#[inline(always)]
fn operand<'a>(row: &'a [Value], operand: &'a Operand) -> &'a Value {
    match operand {
        Operand::Literal(value) => value,
        Operand::Variable(x) => &row[*x],
    }
}

#[inline(always)]
fn eval(row: &[Value], heap: &Heap, expr: &Expr) -> Result<Value, Trap> {
    match expr {
        Expr::Plain(a) => Ok(*operand(row, a)),
        Expr::Cell(x, index) => heap.cell(&row[*x], operand(row, index)),
        Expr::Length(a) => match operand(row, a) {
            Value::Array(array) => Ok(Value::Number(heap.arrays[*array].len() as i64)),
            _ => Err(Trap::BadType),
        },
        Expr::Not(a) => match operand(row, a) {
            Value::Truth(b) => Ok(Value::Truth(!*b)),
            _ => Err(Trap::BadType),
        },
        Expr::Binary(op, a, b) => binary(*op, operand(row, a), operand(row, b)),
    }
}

#[inline(always)]
fn binary(op: Op, a: &Value, b: &Value) -> Result<Value, Trap> {
    match (a, b) {
        (Value::Number(a), Value::Number(b)) => on_numbers(op, *a, *b),
        _ => match (op, a, b) {
            (Op::Eq, _, _) => Ok(Value::Truth(a == b)),
            (Op::Ne, _, _) => Ok(Value::Truth(a != b)),
            (Op::And, Value::Truth(a), Value::Truth(b)) => Ok(Value::Truth(*a && *b)),
            (Op::Or, Value::Truth(a), Value::Truth(b)) => Ok(Value::Truth(*a || *b)),
            _ => Err(Trap::BadType),
        },
    }
}

#[inline(always)]
fn on_numbers(op: Op, a: i64, b: i64) -> Result<Value, Trap> {
    let number = |n: Option<i64>| n.map(Value::Number).ok_or(Trap::Overflow);
    match op {
        Op::Add => number(a.checked_add(b)),
        Op::Sub => number(a.checked_sub(b)),
        Op::Mul => number(a.checked_mul(b)),
        Op::Div | Op::Rem if b == 0 => Err(Trap::ZeroDivisor),
        Op::Div => number(a.checked_div(b)),
        Op::Rem => Ok(Value::Number(a.wrapping_rem(b))),
        Op::Eq => Ok(Value::Truth(a == b)),
        Op::Ne => Ok(Value::Truth(a != b)),
        Op::Lt => Ok(Value::Truth(a < b)),
        Op::Le => Ok(Value::Truth(a <= b)),
        Op::Gt => Ok(Value::Truth(a > b)),
        Op::Ge => Ok(Value::Truth(a >= b)),
        Op::And | Op::Or => Err(Trap::BadType),
    }
}

/// Whether all predicates of an assume hold.
fn holds_each(row: &[Value], heap: &Heap, predicates: &[Expr]) -> Result<bool, Trap> {
    for predicate in predicates {
        match eval(row, heap, predicate)? {
            Value::Truth(true) => {}
            Value::Truth(false) => return Ok(false),
            _ => return Err(Trap::BadType),
        }
    }
    Ok(true)
}

/// A run of a program on an input.
struct Run<'p> {
    program: &'p Program,
    input: &'p [Value],
    /// How many values of the input were read so far.
    read: usize,
    heap: Heap,
    output: Vec<u8>,
    /// The frames below the top one, the lowest first, each with the slot that waits for a result.
    below: Vec<(Frame<'p>, usize)>,
    /// The rows that frames left behind.
    spare: Vec<Vec<Value>>,
}

impl<'p> Run<'p> {
    fn new(program: &'p Program, input: &'p [Value]) -> Run<'p> {
        Run {
            program,
            input,
            read: 0,
            heap: Heap { arrays: Vec::new(), count: 0 },
            output: Vec::new(),
            below: Vec::new(),
            spare: Vec::new(),
        }
    }

    /// Runs `main` to its end, or until it would take a turn beyond its budget.
    fn go(&mut self, budget: u64) -> Result<End, Trap> {
        let body = &self.program.functions[self.program.main].versions[0];
        let mut frame = Frame { body, place: 0, row: vec![Value::Nil; body.variables] };
        let mut turns = 0;
        loop {
            match &frame.body.lines[frame.place] {
                Instr::Var(x, expr) | Instr::Assign(x, expr) => {
                    frame.row[*x] = eval(&frame.row, &self.heap, expr)?;
                    frame.place += 1;
                }
                Instr::Drop(x) => {
                    frame.row[*x] = Value::Nil;
                    frame.place += 1;
                }
                Instr::ArrayLength(x, expr) => {
                    let length = eval(&frame.row, &self.heap, expr)?;
                    frame.row[*x] = self.heap.add_nils(length)?;
                    frame.place += 1;
                }
                Instr::ArrayList(x, exprs) => {
                    let cells: Result<Vec<Value>, Trap> =
                        exprs.iter().map(|e| eval(&frame.row, &self.heap, e)).collect();
                    frame.row[*x] = self.heap.add(cells?)?;
                    frame.place += 1;
                }
                Instr::Store(x, index, expr) => {
                    let value = eval(&frame.row, &self.heap, expr)?;
                    let index = operand(&frame.row, index);
                    self.heap.store(&frame.row[*x], index, value)?;
                    frame.place += 1;
                }
                Instr::Print(expr) => {
                    let value = eval(&frame.row, &self.heap, expr)?;
                    self.print(value)?;
                    frame.place += 1;
                }
                Instr::Read(x) => {
                    frame.row[*x] = *self.input.get(self.read).ok_or(Trap::InputEnd)?;
                    self.read += 1;
                    frame.place += 1;
                }
                Instr::Branch(expr, yes, no) => {
                    if turns == budget {
                        return Ok(End::Cut);
                    }
                    turns += 1;
                    match eval(&frame.row, &self.heap, expr)? {
                        Value::Truth(true) => frame.place = *yes,
                        Value::Truth(false) => frame.place = *no,
                        _ => return Err(Trap::BadType),
                    }
                }
                Instr::Goto(place) => {
                    if turns == budget {
                        return Ok(End::Cut);
                    }
                    turns += 1;
                    frame.place = *place;
                }
                Instr::Call(x, callee, arguments) => {
                    if turns == budget {
                        return Ok(End::Cut);
                    }
                    turns += 1;
                    let callee = *operand(&frame.row, callee);
                    let called = self.enter(&frame.row, callee, arguments)?;
                    frame.place += 1;
                    let frame = std::mem::replace(&mut frame, called);
                    self.below.push((frame, *x));
                }
                Instr::Return(expr) => {
                    if turns == budget {
                        return Ok(End::Cut);
                    }
                    turns += 1;
                    let value = eval(&frame.row, &self.heap, expr)?;
                    let Some((waiting, x)) = self.below.pop() else {
                        return Ok(End::Returned(value));
                    };
                    let ended = std::mem::replace(&mut frame, waiting);
                    self.spare.push(ended.row);
                    frame.row[x] = value;
                }
                Instr::Stop => return Ok(End::Stopped),
                Instr::Assume(predicates, exit) => {
                    if holds_each(&frame.row, &self.heap, predicates)? {
                        frame.place += 1;
                    } else {
                        if turns == budget {
                            return Ok(End::Cut);
                        }
                        turns += 1;
                        let top = self.leave(&frame.row, exit)?;
                        let left = std::mem::replace(&mut frame, top);
                        self.spare.push(left.row);
                    }
                }
            }
        }
    }

    /// A row without values.
    fn take_row(&mut self) -> Vec<Value> {
        let mut row = self.spare.pop().unwrap_or_default();
        row.clear();
        row
    }

    /// The frame of a call from a frame with this row.
    fn enter(&mut self, row: &[Value], callee: Value, arguments: &[Expr]) -> Result<Frame<'p>, Trap> {
        let mut new = self.take_row();
        for argument in arguments {
            new.push(eval(row, &self.heap, argument)?);
        }
        let Value::Function(function) = callee else {
            return Err(Trap::NotFunction);
        };
        let body = &self.program.functions[function].versions[0];
        if new.len() != body.parameters {
            return Err(Trap::ArgCount);
        }
        new.resize(body.variables, Value::Nil);
        Ok(Frame { body, place: 0, row: new })
    }

    /// The top frame that an exit makes of a frame with this row; the further ones wait below it.
    fn leave(&mut self, row: &[Value], exit: &'p Exit) -> Result<Frame<'p>, Trap> {
        let top = self.land(row, &exit.target)?;
        let depth = self.below.len();
        for (continuation, result) in &exit.extras {
            let frame = self.land(row, continuation)?;
            self.below.push((frame, *result));
        }
        self.below[depth..].reverse();
        Ok(top)
    }

    fn land(&mut self, row: &[Value], to: &'p Continuation) -> Result<Frame<'p>, Trap> {
        let body = &self.program.functions[to.function].versions[to.version];
        let mut new = self.take_row();
        new.resize(body.variables, Value::Nil);
        for (x, expr) in &to.map {
            new[*x] = eval(row, &self.heap, expr)?;
        }
        Ok(Frame { body, place: to.place, row: new })
    }

    fn text(&self, value: Value) -> String {
        match value {
            Value::Number(number) => number.to_string(),
            Value::Truth(b) => b.to_string(),
            Value::Nil => "nil".to_string(),
            Value::Function(function) => format!("&{}", self.program.functions[function].name),
            Value::Array(array) => format!("array({})", self.heap.arrays[array].len()),
        }
    }

    fn print(&mut self, value: Value) -> Result<(), Trap> {
        let text = self.text(value);
        if OUTPUT_LIMIT - self.output.len() < text.len() + 1 {
            return Err(Trap::OutputFull);
        }
        self.output.extend_from_slice(text.as_bytes());
        self.output.push(b'\n');
        Ok(())
    }
}

// Reading a text.

const KEYWORDS: [&str; 11] =
    ["var", "drop", "array", "print", "read", "branch", "goto", "call", "return", "stop", "assume"];

/// The tokens of a line; what is no word and no digits is a symbol.
fn tokens_of(line: &str) -> Vec<&str> {
    let is_word = |c: char| c == '_' || c.is_ascii_alphanumeric();
    let pairs = ["<-", "==", "!=", "<=", ">=", "&&", "||"];
    let mut tokens = Vec::new();
    let mut rest = line.split('#').next().unwrap_or("").trim_start();
    while let Some(first) = rest.chars().next() {
        let end = match first {
            '0'..='9' => rest.find(|c: char| !c.is_ascii_digit()).unwrap_or(rest.len()),
            _ if is_word(first) => rest.find(|c| !is_word(c)).unwrap_or(rest.len()),
            _ if pairs.iter().any(|pair| rest.starts_with(pair)) => 2,
            _ => 1,
        };
        tokens.push(&rest[..end]);
        rest = rest[end..].trim_start();
    }
    tokens
}

/// The names of a version: its labels with their places, and its variables with their slots.
#[derive(Default)]
struct Names<'t> {
    version: &'t str,
    labels: HashMap<String, usize>,
    slots: HashMap<&'t str, usize>,
}

impl<'t> Names<'t> {
    /// The slot of a variable, which is made where it has none.
    fn slot(&mut self, name: &'t str) -> usize {
        let count = self.slots.len();
        *self.slots.entry(name).or_insert(count)
    }
}

struct Reader<'t> {
    functions: HashMap<&'t str, usize>,
    /// For each version of each function.
    names: Vec<Vec<Names<'t>>>,
    /// The version that is read.
    function: usize,
    version: usize,
    /// What is left of the tokens of a line.
    tokens: VecDeque<&'t str>,
}

impl<'t> Reader<'t> {
    fn peek(&self) -> &'t str {
        self.tokens.front().copied().unwrap_or("")
    }

    fn next(&mut self) -> &'t str {
        self.tokens.pop_front().unwrap_or("")
    }

    fn expect(&mut self, token: &str) {
        assert_eq!(self.next(), token, "before {:?}", self.tokens);
    }

    fn variable(&mut self) -> usize {
        let name = self.next();
        self.names[self.function][self.version].slot(name)
    }

    fn label(&mut self) -> usize {
        let label = self.next();
        self.names[self.function][self.version].labels[label]
    }

    /// A literal, if one comes next.
    fn literal(&mut self) -> Option<Value> {
        let value = match self.peek() {
            "true" => Value::Truth(true),
            "false" => Value::Truth(false),
            "nil" => Value::Nil,
            "&" => {
                self.next();
                Value::Function(self.functions[self.peek()])
            }
            "-" => {
                self.next();
                Value::Number(format!("-{}", self.peek()).parse().unwrap())
            }
            digits if digits.starts_with(|c: char| c.is_ascii_digit()) => {
                Value::Number(digits.parse().unwrap())
            }
            _ => return None,
        };
        self.next();
        Some(value)
    }

    fn operand(&mut self) -> Operand {
        match self.literal() {
            Some(value) => Operand::Literal(value),
            None => Operand::Variable(self.variable()),
        }
    }

    /// An operand in brackets.
    fn index(&mut self) -> Operand {
        self.expect("[");
        let index = self.operand();
        self.expect("]");
        index
    }

    fn expr(&mut self) -> Expr {
        if self.peek() == "length" {
            self.next();
            return Expr::Length(self.operand());
        }
        if self.peek() == "!" {
            self.next();
            return Expr::Not(self.operand());
        }
        let first = self.operand();
        #[rustfmt::skip]
        let op = match self.peek() {
            "+" => Op::Add, "-" => Op::Sub, "*" => Op::Mul, "/" => Op::Div, "%" => Op::Rem,
            "==" => Op::Eq, "!=" => Op::Ne, "<" => Op::Lt, "<=" => Op::Le, ">" => Op::Gt, ">=" => Op::Ge,
            "&&" => Op::And, "||" => Op::Or,
            "[" => match first {
                Operand::Variable(x) => return Expr::Cell(x, self.index()),
                Operand::Literal(_) => panic!("a literal has no cells"),
            },
            _ => return Expr::Plain(first),
        };
        self.next();
        Expr::Binary(op, first, self.operand())
    }

    /// What is between commas up to a token, which is taken too.
    fn list<T>(&mut self, end: &str, item: impl Fn(&mut Reader<'t>) -> T) -> Vec<T> {
        let mut items = Vec::new();
        while self.peek() != end {
            if !items.is_empty() {
                self.expect(",");
            }
            items.push(item(self));
        }
        self.next();
        items
    }

    /// A target with its map; where it `waits`, the variable that does stands between them.
    fn continuation(&mut self, waits: bool) -> (Continuation, usize) {
        let name = self.next();
        let function = self.functions[name];
        self.expect(".");
        let name = self.next();
        let version = self.names[function].iter().position(|names| names.version == name).unwrap();
        self.expect(".");
        let label = self.next();
        let place = self.names[function][version].labels[label];
        let slot = |reader: &mut Reader<'t>| {
            let name = reader.next();
            reader.names[function][version].slot(name)
        };
        let result = if waits { slot(self) } else { 0 };
        self.expect("[");
        let map = self.list("]", |reader| {
            let x = slot(reader);
            reader.expect("=");
            (x, reader.expr())
        });
        (Continuation { function, version, place, map }, result)
    }

    fn exit(&mut self) -> Exit {
        let (target, _) = self.continuation(false);
        let mut extras = Vec::new();
        while self.peek() == "," {
            self.next();
            extras.push(self.continuation(true));
        }
        Exit { target, extras }
    }

    fn array(&mut self) -> Instr {
        let x = self.variable();
        if self.peek() == "=" {
            self.next();
            self.expect("[");
            return Instr::ArrayList(x, self.list("]", Reader::expr));
        }
        self.expect("[");
        let length = self.expr();
        self.expect("]");
        Instr::ArrayLength(x, length)
    }

    /// An instruction that begins with a name.
    fn assignment(&mut self) -> Instr {
        let x = self.variable();
        if self.peek() == "[" {
            let index = self.index();
            self.expect("<-");
            return Instr::Store(x, index, self.expr());
        }
        self.expect("<-");
        Instr::Assign(x, self.expr())
    }

    fn instr(&mut self) -> Instr {
        let first = self.peek();
        if !KEYWORDS.contains(&first) {
            return self.assignment();
        }
        self.next();
        match first {
            "var" => {
                let x = self.variable();
                self.expect("=");
                Instr::Var(x, self.expr())
            }
            "call" => {
                let x = self.variable();
                self.expect("=");
                let callee = self.operand();
                self.expect("(");
                Instr::Call(x, callee, self.list(")", Reader::expr))
            }
            "assume" => {
                let predicates = self.list("else", Reader::expr);
                Instr::Assume(predicates, Box::new(self.exit()))
            }
            "array" => self.array(),
            "drop" => Instr::Drop(self.variable()),
            "print" => Instr::Print(self.expr()),
            "read" => Instr::Read(self.variable()),
            "branch" => Instr::Branch(self.expr(), self.label(), self.label()),
            "goto" => Instr::Goto(self.label()),
            "return" => Instr::Return(self.expr()),
            _ => Instr::Stop,
        }
    }
}

/// The program and the inputs of a text. What a name stands for may come behind it, so names are gathered
/// first.
fn read_job(text: &str) -> (Program, Vec<Vec<Value>>) {
    let mut reader = Reader {
        functions: HashMap::new(),
        names: Vec::new(),
        function: 0,
        version: 0,
        tokens: VecDeque::new(),
    };
    let mut functions: Vec<Function> = Vec::new();
    let mut parameters: Vec<&str> = Vec::new();
    let mut code_lines = Vec::new();
    let mut input_lines = Vec::new();
    let mut in_functions = true;
    for line in text.split('\n') {
        let tokens = tokens_of(line);
        match tokens.as_slice() {
            [] | ["end"] => {}
            ["%", ..] => in_functions = false,
            ["input", values @ ..] if !in_functions => input_lines.push(values.to_vec()),
            _ if !in_functions => {}
            ["fun", name, "(", names @ .., ")"] => {
                parameters = names.iter().copied().filter(|token| *token != ",").collect();
                reader.functions.insert(name, functions.len());
                reader.names.push(Vec::new());
                functions.push(Function { name: name.to_string(), versions: Vec::new() });
            }
            ["ver", version] => {
                let mut names = Names { version, ..Names::default() };
                for parameter in &parameters {
                    names.slot(parameter);
                }
                reader.names.last_mut().unwrap().push(names);
                let body = Body { parameters: parameters.len(), variables: 0, lines: Vec::new() };
                functions.last_mut().unwrap().versions.push(body);
            }
            tokens => {
                let names = reader.names.last_mut().unwrap();
                let (function, version) = (functions.len() - 1, names.len() - 1);
                let names = &mut names[version];
                let place = names.labels.len();
                let (label, tokens) = match tokens {
                    [label, ":", tokens @ ..] => (label.to_string(), tokens),
                    _ => (format!("_{place}"), tokens),
                };
                names.labels.insert(label, place);
                code_lines.push((function, version, tokens.to_vec()));
            }
        }
    }
    for (function, version, tokens) in code_lines {
        (reader.function, reader.version, reader.tokens) = (function, version, tokens.into());
        functions[function].versions[version].lines.push(reader.instr());
    }
    // An exit may have mentioned a variable of any version, so slots are counted when all lines are read.
    for (function, names) in functions.iter_mut().zip(&reader.names) {
        for (body, names) in function.versions.iter_mut().zip(names) {
            body.variables = names.slots.len();
        }
    }
    let mut inputs = Vec::new();
    for tokens in input_lines {
        reader.tokens = tokens.into();
        inputs.push(std::iter::from_fn(|| reader.literal()).collect());
    }
    (Program { functions, main: reader.functions["main"] }, inputs)
}

// The program.

/// Writes the blocks of all inputs, and gives the status.
fn write_blocks(program: &Program, inputs: &[Vec<Value>], budget: u64) -> std::io::Result<u8> {
    let mut sink = BufWriter::new(std::io::stdout().lock());
    let mut trapped = false;
    let mut cut = false;
    for (i, input) in inputs.iter().enumerate() {
        let mut run = Run::new(program, input);
        let end = run.go(budget).unwrap_or_else(End::Trapped);
        writeln!(sink, "input {}", i + 1)?;
        sink.write_all(&run.output)?;
        match end {
            End::Returned(value) => writeln!(sink, "end {}", run.text(value))?,
            End::Stopped => writeln!(sink, "stopped")?,
            End::Trapped(trap) => writeln!(sink, "trap {}", trap as u8)?,
            End::Cut => writeln!(sink, "cut")?,
        }
        trapped |= matches!(end, End::Trapped(_));
        cut |= matches!(end, End::Cut);
    }
    sink.flush()?;
    Ok(if cut { 7 } else { u8::from(trapped) })
}

fn main() -> ExitCode {
    let words: Vec<String> = std::env::args().skip(1).collect();
    let words: Vec<&str> = words.iter().map(String::as_str).collect();
    let budget = match words.as_slice() {
        ["run"] => 1_000_000,
        ["run", "--budget", number] => number.parse().expect("a number"),
        _ => panic!("the words are: run [--budget N]"),
    };
    let mut bytes = Vec::new();
    std::io::stdin().read_to_end(&mut bytes).expect("a text");
    let text = String::from_utf8_lossy(&bytes);
    let (program, inputs) = read_job(&text);
    ExitCode::from(write_blocks(&program, &inputs, budget).expect("standard output"))
}
