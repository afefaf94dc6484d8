// The work of the sheet's calls in plain Rust, one vector at a time: a yardstick for the proved programs.
// `sheets first` covers each duty of detection, sweeps and prints the listing; `sheets sweep ROWS` enters the vectors
// 0, 1, 2 and so on over distinction and sweeps; `sheets claim D D ..` checks a claim over detection.
use std::io::{Read, Write};

include!("board.rs");

struct Row {
    serial: usize,
    vector: u32,
}

// Which duties of distinction a vector covers, by asking each machine once.
fn pairs_covered(b: &Board, vector: u32) -> Vec<bool> {
    let answers: Vec<_> = (0..=b.faults.len()).map(|k| answer(b, k, vector)).collect();
    let mut marks = Vec::new();
    for i in 1..=b.faults.len() {
        for j in i + 1..=b.faults.len() {
            marks.push(apart(answers[i], answers[j]));
        }
    }
    marks
}

// Which duties of detection a vector covers.
fn faults_covered(b: &Board, vector: u32) -> Vec<bool> {
    let good = answer(b, 0, vector);
    (1..=b.faults.len()).map(|k| apart(good, answer(b, k, vector))).collect()
}

// Removes each row that is spare, from the last on, by a tally that falls with each row that goes.
fn sweep(b: &Board, rows: &mut Vec<Row>, covered: fn(&Board, u32) -> Vec<bool>) -> usize {
    let mut counts: Vec<u32> = Vec::new();
    for row in rows.iter() {
        let marks = covered(b, row.vector);
        counts.resize(marks.len(), 0);
        for (c, m) in counts.iter_mut().zip(&marks) {
            *c += *m as u32;
        }
    }
    let before = rows.len();
    for i in (0..before).rev() {
        let marks = covered(b, rows[i].vector);
        if !marks.iter().zip(&counts).any(|(m, c)| *m && *c == 1) {
            for (c, m) in counts.iter_mut().zip(&marks) {
                *c -= *m as u32;
            }
            rows.remove(i);
        }
    }
    before - rows.len()
}

fn first(b: &Board) -> Vec<Row> {
    let mut rows: Vec<Row> = Vec::new();
    let mut serial = 0;
    for duty in 0..b.faults.len() {
        let shows = |v: u32| apart(answer(b, 0, v), answer(b, duty + 1, v));
        if rows.iter().any(|r| shows(r.vector)) {
            continue;
        }
        if let Some(vector) = (0..1u32 << b.inputs).find(|v| shows(*v)) {
            serial += 1;
            rows.push(Row { serial, vector });
        }
    }
    sweep(b, &mut rows, faults_covered);
    rows
}

// The earliest pair of places that one vector covers, in one pass, after each duty was seen to be coverable.
fn claim(b: &Board, duties: &[usize]) -> String {
    let covers = |d: usize, v: u32| apart(answer(b, 0, v), answer(b, d + 1, v));
    for (place, d) in duties.iter().enumerate() {
        if !(0..1u32 << b.inputs).any(|v| covers(*d, v)) {
            return format!("refused 32 {place}");
        }
    }
    let mut best: Option<(usize, usize)> = None;
    for v in 0..1u32 << b.inputs {
        let mut found = duties.iter().enumerate().filter(|(_, d)| covers(**d, v)).map(|(p, _)| p);
        if let (Some(earlier), Some(later)) = (found.next(), found.next()) {
            best = Some(best.map_or((later, earlier), |x| x.min((later, earlier))));
        }
    }
    match best {
        Some((later, earlier)) => format!("refused 33 {earlier} {later}"),
        None => duties.len().to_string(),
    }
}

fn main() {
    let args: Vec<String> = std::env::args().collect();
    let mut bytes = Vec::new();
    std::io::stdin().read_to_end(&mut bytes).unwrap();
    let b = read(&bytes);
    let numbers: Vec<usize> = args[2..].iter().map(|a| a.parse().unwrap()).collect();
    let out = match args[1].as_str() {
        "first" => first(&b)
            .iter()
            .map(|r| {
                let letters: String = (0..b.inputs).map(|i| if r.vector >> i & 1 == 1 { '1' } else { '0' }).collect();
                format!("{} {letters}\n", r.serial)
            })
            .collect::<String>(),
        "sweep" => {
            let mut rows = (0..numbers[0]).map(|k| Row { serial: k + 1, vector: k as u32 }).collect();
            format!("{}\n", sweep(&b, &mut rows, pairs_covered))
        }
        _ => claim(&b, &numbers) + "\n",
    };
    std::io::stdout().write_all(out.as_bytes()).unwrap();
}
