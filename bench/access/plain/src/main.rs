//! Nanoseconds for each call of the same accessors, written by hand in Rust.
use std::time::Instant;

const ROWS: u32 = 64;
const NUMBER_CALLS: u64 = 1_000_000;
const ROW_CALLS: u64 = 50_000;
const ROW_LIMIT: usize = 4000;

#[derive(Clone, Copy)]
enum LeafType {
    Num { bytes: u8, signed: bool },
    Str,
    Box4,
}

enum ElementType {
    Leaf(LeafType),
    #[allow(dead_code)]
    Group(Vec<LeafType>),
}

enum ValueType {
    Leaf(LeafType),
    Vector(ElementType),
    Group(Vec<LeafType>),
}

struct Rect {
    x1: i32,
    y1: i32,
    x2: i32,
    y2: i32,
}

enum Leaf {
    Num(i128),
    Text(String),
    Rect(Rect),
}

enum Element {
    Leaf(Leaf),
    Group(Vec<Leaf>),
}

enum Value {
    Leaf(Leaf),
    List(Vec<Element>),
    Group(Vec<Leaf>),
}

#[derive(Clone, Copy)]
struct Step {
    field: usize,
    offset: usize,
}

#[derive(Clone, Copy)]
struct Place {
    steps: usize,
    offset: usize,
}

struct Accessors {
    types: Vec<ValueType>,
    steps: Vec<Step>,
    places: Vec<Place>,
}

fn leaf_size(ty: LeafType) -> Option<usize> {
    match ty {
        LeafType::Num { bytes, .. } => Some(usize::from(bytes)),
        LeafType::Box4 => Some(16),
        LeafType::Str => None,
    }
}

fn value_size(ty: &ValueType) -> Option<usize> {
    match ty {
        ValueType::Leaf(leaf) => leaf_size(*leaf),
        ValueType::Group(types) => types.iter().map(|ty| leaf_size(*ty)).sum(),
        ValueType::Vector(_) => None,
    }
}

fn leaf_width(ty: LeafType, bytes: &[u8]) -> usize {
    match ty {
        LeafType::Num { bytes, .. } => usize::from(bytes),
        LeafType::Str => 1 + usize::from(bytes[0]),
        LeafType::Box4 => 16,
    }
}

fn after_leaves<'a>(types: &[LeafType], bytes: &'a [u8]) -> &'a [u8] {
    types.iter().fold(bytes, |rest, ty| &rest[leaf_width(*ty, rest)..])
}

fn after_value<'a>(ty: &ValueType, bytes: &'a [u8]) -> &'a [u8] {
    match ty {
        ValueType::Leaf(leaf) => &bytes[leaf_width(*leaf, bytes)..],
        ValueType::Group(types) => after_leaves(types, bytes),
        ValueType::Vector(of) => (0..bytes[0]).fold(&bytes[1..], |rest, _| match of {
            ElementType::Leaf(leaf) => &rest[leaf_width(*leaf, rest)..],
            ElementType::Group(types) => after_leaves(types, rest),
        }),
    }
}

fn number_from(bytes: &[u8], width: u8, signed: bool) -> i128 {
    match (width, signed) {
        (1, true) => i128::from(bytes[0] as i8),
        (1, false) => i128::from(bytes[0]),
        (2, true) => i128::from(i16::from_le_bytes(bytes[..2].try_into().unwrap())),
        (2, false) => i128::from(u16::from_le_bytes(bytes[..2].try_into().unwrap())),
        (4, true) => i128::from(i32::from_le_bytes(bytes[..4].try_into().unwrap())),
        (4, false) => i128::from(u32::from_le_bytes(bytes[..4].try_into().unwrap())),
        (_, true) => i128::from(i64::from_le_bytes(bytes[..8].try_into().unwrap())),
        (_, false) => i128::from(u64::from_le_bytes(bytes[..8].try_into().unwrap())),
    }
}

fn append_leaf(out: &mut Vec<u8>, ty: LeafType, leaf: &Leaf) {
    match (ty, leaf) {
        (LeafType::Num { bytes, .. }, Leaf::Num(number)) => {
            out.extend_from_slice(&number.to_le_bytes()[..usize::from(bytes)]);
        }
        (LeafType::Str, Leaf::Text(text)) => {
            out.push(text.len() as u8);
            out.extend_from_slice(text.as_bytes());
        }
        (LeafType::Box4, Leaf::Rect(rect)) => {
            for edge in [rect.x1, rect.y1, rect.x2, rect.y2] {
                out.extend_from_slice(&edge.to_le_bytes());
            }
        }
        _ => {}
    }
}

fn append_leaves(out: &mut Vec<u8>, types: &[LeafType], leaves: &[Leaf]) {
    for (ty, leaf) in types.iter().zip(leaves) {
        append_leaf(out, *ty, leaf);
    }
}

fn append_value(out: &mut Vec<u8>, ty: &ValueType, value: &Value) {
    match (ty, value) {
        (ValueType::Leaf(ty), Value::Leaf(leaf)) => append_leaf(out, *ty, leaf),
        (ValueType::Group(types), Value::Group(leaves)) => append_leaves(out, types, leaves),
        (ValueType::Vector(of), Value::List(elements)) => {
            out.push(elements.len() as u8);
            for element in elements {
                match (of, element) {
                    (ElementType::Leaf(ty), Element::Leaf(leaf)) => append_leaf(out, *ty, leaf),
                    (ElementType::Group(types), Element::Group(leaves)) => {
                        append_leaves(out, types, leaves);
                    }
                    _ => {}
                }
            }
        }
        _ => {}
    }
}

fn read_leaf(ty: LeafType, bytes: &[u8]) -> Leaf {
    match ty {
        LeafType::Num { bytes: width, signed } => Leaf::Num(number_from(bytes, width, signed)),
        LeafType::Str => {
            let words = &bytes[1..][..usize::from(bytes[0])];
            Leaf::Text(str::from_utf8(words).unwrap().to_owned())
        }
        LeafType::Box4 => {
            let edge = |at: usize| i32::from_le_bytes(bytes[at..][..4].try_into().unwrap());
            Leaf::Rect(Rect {
                x1: edge(0),
                y1: edge(4),
                x2: edge(8),
                y2: edge(12),
            })
        }
    }
}

fn read_leaves(types: &[LeafType], bytes: &[u8]) -> Vec<Leaf> {
    let mut leaves = Vec::new();
    let mut rest = bytes;
    for ty in types {
        leaves.push(read_leaf(*ty, rest));
        rest = &rest[leaf_width(*ty, rest)..];
    }
    leaves
}

fn read_elements(of: &ElementType, count: u8, bytes: &[u8]) -> Vec<Element> {
    let mut elements = Vec::new();
    let mut rest = bytes;
    for _ in 0..count {
        match of {
            ElementType::Leaf(ty) => {
                elements.push(Element::Leaf(read_leaf(*ty, rest)));
                rest = &rest[leaf_width(*ty, rest)..];
            }
            ElementType::Group(types) => {
                elements.push(Element::Group(read_leaves(types, rest)));
                rest = after_leaves(types, rest);
            }
        }
    }
    elements
}

impl Accessors {
    fn of(types: Vec<ValueType>) -> Accessors {
        let (mut steps, mut places, mut offset) = (Vec::new(), Vec::new(), 0);
        for (field, ty) in types.iter().enumerate() {
            places.push(Place { steps: steps.len(), offset });
            match value_size(ty) {
                Some(size) => offset += size,
                None => {
                    steps.push(Step { field, offset });
                    offset = 0;
                }
            }
        }
        Accessors { types, steps, places }
    }

    #[inline(never)]
    fn number(&self, bytes: &[u8], field: u32) -> i128 {
        let field = field as usize;
        let ValueType::Leaf(LeafType::Num { bytes: width, signed }) = self.types[field] else {
            return 0;
        };
        let place = self.places[field];
        let rest = self.steps[..place.steps].iter().fold(bytes, |rest, step| {
            after_value(&self.types[step.field], &rest[step.offset..])
        });
        number_from(&rest[place.offset..], width, signed)
    }

    #[inline(never)]
    fn encode(&self, row: &[Value]) -> Option<Vec<u8>> {
        let mut out = Vec::new();
        for (ty, value) in self.types.iter().zip(row) {
            append_value(&mut out, ty, value);
        }
        (out.len() <= ROW_LIMIT).then_some(out)
    }

    #[inline(never)]
    fn decode(&self, bytes: &[u8]) -> Vec<Value> {
        let mut row = Vec::new();
        let mut rest = bytes;
        for ty in &self.types {
            row.push(match ty {
                ValueType::Leaf(leaf) => Value::Leaf(read_leaf(*leaf, rest)),
                ValueType::Group(types) => Value::Group(read_leaves(types, rest)),
                ValueType::Vector(of) => Value::List(read_elements(of, rest[0], &rest[1..])),
            });
            rest = after_value(ty, rest);
        }
        row
    }
}

fn row(at: u32) -> Vec<Value> {
    let at = i128::from(at);
    vec![
        Value::Leaf(Leaf::Num(-4)),
        Value::Leaf(Leaf::Num(at)),
        Value::Leaf(Leaf::Text("a text of some length".to_owned())),
        Value::Leaf(Leaf::Rect(Rect { x1: -1, y1: 2, x2: 3, y2: 4 })),
        Value::List((0..4).map(|_| Element::Leaf(Leaf::Num(at))).collect()),
        Value::Group(vec![Leaf::Num(at), Leaf::Num(-5)]),
        Value::Leaf(Leaf::Num(at)),
        Value::Leaf(Leaf::Num(-1_000_003)),
    ]
}

fn numbers(accessors: &Accessors, encoded: &[Vec<u8>]) -> u64 {
    let mut sum: u64 = 0;
    for at in 0..NUMBER_CALLS {
        if let Some(bytes) = encoded.get((at % 64) as usize) {
            let number = accessors.number(bytes, 1);
            if number == 63 {
                sum = sum.wrapping_add(1);
            }
        }
    }
    sum
}

fn encodings(accessors: &Accessors, row: &[Value]) -> u64 {
    let mut sum: u64 = 0;
    for _ in 0..ROW_CALLS {
        if let Some(bytes) = accessors.encode(row) {
            sum = sum.wrapping_add(bytes.len() as u64);
        }
    }
    sum
}

fn decodings(accessors: &Accessors, encoded: &[Vec<u8>]) -> u64 {
    let mut sum: u64 = 0;
    for at in 0..ROW_CALLS {
        if let Some(bytes) = encoded.get((at % 64) as usize) {
            sum = sum.wrapping_add(accessors.decode(bytes).len() as u64);
        }
    }
    sum
}

fn num(bytes: u8, signed: bool) -> LeafType {
    LeafType::Num { bytes, signed }
}

fn tell(what: &str, start: Instant, calls: u64, sum: u64) {
    let tenths = start.elapsed().as_nanos() as u64 * 10 / calls;
    println!("{what} {}.{} {sum}", tenths / 10, tenths % 10);
}

fn main() {
    let accessors = Accessors::of(vec![
        ValueType::Leaf(num(4, true)),
        ValueType::Leaf(num(8, false)),
        ValueType::Leaf(LeafType::Str),
        ValueType::Leaf(LeafType::Box4),
        ValueType::Vector(ElementType::Leaf(num(2, false))),
        ValueType::Group(vec![num(4, true), num(4, true)]),
        ValueType::Leaf(num(1, false)),
        ValueType::Leaf(num(8, true)),
    ]);
    let encoded: Vec<Vec<u8>> = (0..ROWS).map(|at| accessors.encode(&row(at)).unwrap()).collect();
    let row = row(7);
    for _ in 0..5 {
        let start = Instant::now();
        let sum = numbers(&accessors, &encoded);
        tell("number", start, NUMBER_CALLS, sum);
        let start = Instant::now();
        let sum = encodings(&accessors, &row);
        tell("encode", start, ROW_CALLS, sum);
        let start = Instant::now();
        let sum = decodings(&accessors, &encoded);
        tell("decode", start, ROW_CALLS, sum);
    }
}
