// A board read and simulated in plain Rust, one vector at a time: what the yardstick programs share. It trusts its input:
// it is only run on boards that the proved programs accept.
#[derive(Clone, Copy, PartialEq)]
enum Value {
    Unknown,
    Zero,
    One,
}

struct Gate {
    kind: u8,
    pins: Vec<u16>,
}

#[derive(Default)]
struct Board {
    inputs: usize,
    gates: Vec<Gate>,
    outputs: Vec<u16>,
    faults: Vec<(u16, bool)>,
}

fn word(r: &[u8], at: usize) -> u16 {
    r[at] as u16 + 256 * r[at + 1] as u16
}

fn read(bytes: &[u8]) -> Board {
    let mut b = Board::default();
    for r in bytes.chunks(16) {
        match r[0] {
            0x49 => b.inputs += 1,
            0x47 => b.gates.push(Gate {
                kind: r[1],
                pins: (0..word(r, 2) as usize).map(|k| word(r, 4 + 2 * k)).collect(),
            }),
            0x4F => b.outputs.push(word(r, 2)),
            _ => b.faults.push((word(r, 2), r[1] == 1)),
        }
    }
    b
}

fn not(v: Value) -> Value {
    match v {
        Value::Zero => Value::One,
        Value::One => Value::Zero,
        Value::Unknown => Value::Unknown,
    }
}

fn gate(g: &Gate, values: &[Value; 512]) -> Value {
    let pins = g.pins.iter().map(|p| values[*p as usize]);
    let v = match g.kind {
        1 | 3 | 7 | 8 => {
            let mut acc = Value::One;
            for v in pins {
                acc = match (acc, v) {
                    (Value::Zero, _) | (_, Value::Zero) => Value::Zero,
                    (Value::One, v) => v,
                    _ => Value::Unknown,
                };
            }
            acc
        }
        2 | 4 => {
            let mut acc = Value::Zero;
            for v in pins {
                acc = match (acc, v) {
                    (Value::One, _) | (_, Value::One) => Value::One,
                    (Value::Zero, v) => v,
                    _ => Value::Unknown,
                };
            }
            acc
        }
        _ => {
            let mut acc = Value::Zero;
            for v in pins {
                acc = match (acc, v) {
                    (Value::Unknown, _) | (_, Value::Unknown) => Value::Unknown,
                    (Value::Zero, v) => v,
                    (Value::One, v) => not(v),
                };
            }
            acc
        }
    };
    if matches!(g.kind, 3 | 4 | 6 | 7) { not(v) } else { v }
}

// What a machine answers to a cube of two masks.
fn answer_to(b: &Board, machine: usize, zeros_in: u32, ones_in: u32) -> (u32, u32) {
    let fault = if machine == 0 { None } else { Some(b.faults[machine - 1]) };
    let mut values = [Value::Unknown; 512];
    for k in 0..b.inputs + b.gates.len() {
        let free = if k < b.inputs {
            if zeros_in >> k & 1 == 1 {
                Value::Zero
            } else if ones_in >> k & 1 == 1 {
                Value::One
            } else {
                Value::Unknown
            }
        } else {
            gate(&b.gates[k - b.inputs], &values)
        };
        values[k] = match fault {
            Some((line, stuck)) if line as usize == k => if stuck { Value::One } else { Value::Zero },
            _ => free,
        };
    }
    let (mut zeros, mut ones) = (0, 0);
    for (o, line) in b.outputs.iter().enumerate() {
        match values[*line as usize] {
            Value::Zero => zeros |= 1 << o,
            Value::One => ones |= 1 << o,
            Value::Unknown => {}
        }
    }
    (zeros, ones)
}

// What it answers to a vector.
fn answer(b: &Board, machine: usize, vector: u32) -> (u32, u32) {
    answer_to(b, machine, ((1u32 << b.inputs) - 1) & !vector, vector)
}

fn apart(x: (u32, u32), y: (u32, u32)) -> bool {
    x.0 & y.1 != 0 || x.1 & y.0 != 0
}
