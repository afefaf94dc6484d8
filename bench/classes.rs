// The same work as program `classes`, in plain Rust, one vector at a time: a yardstick for the proved program.
use std::io::{Read, Write};

include!("board.rs");

fn smallest_telling(b: &Board, i: usize, j: usize) -> Option<u32> {
    (0..1u32 << b.inputs).find(|v| apart(answer(b, i, *v), answer(b, j, *v)))
}

fn main() {
    let mut bytes = Vec::new();
    std::io::stdin().read_to_end(&mut bytes).unwrap();
    let b = read(&bytes);
    let machines = b.faults.len() + 1;
    let mut labels: Vec<usize> = Vec::new();
    for k in 0..machines {
        let label = (0..k).find(|j| labels[*j] == *j && smallest_telling(&b, *j, k).is_none());
        labels.push(label.unwrap_or(k));
    }
    let mut out = String::new();
    for k in 0..machines {
        let shown = if labels[k] == 0 { None } else { smallest_telling(&b, 0, k) };
        let letters = match shown {
            Some(v) => (0..b.inputs).map(|i| if v >> i & 1 == 1 { '1' } else { '0' }).collect(),
            None => "-".to_string(),
        };
        out += &format!("{k} {} {letters}\n", labels[k]);
    }
    std::io::stdout().write_all(out.as_bytes()).unwrap();
}
