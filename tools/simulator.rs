// An ordinary simulator of the machine, unproved, for answers from elsewhere and to measure against: reads files of the kinds `run` and
// `long` and prints their lines. It takes its tables as accepted and judges nothing but what arises in a run (16 to 20).
// Build: rustc -O tools/simulator.rs -o simulator; run: ./simulator FILE..
use std::env;
use std::fs;

// the longest delay of a `future`
const DELAY: usize = 4096;

struct Numbers {
    all: Vec<i64>,
    at: usize,
}

impl Numbers {
    fn next(&mut self) -> i64 {
        self.at += 1;
        self.all[self.at - 1]
    }
    fn list(&mut self, n: usize) -> Vec<i64> {
        (0..n).map(|_| self.next()).collect()
    }
    fn slice(&mut self) -> Vec<i64> {
        let n = self.next() as usize;
        self.list(n)
    }
    fn indices(&mut self, n: usize) -> Vec<usize> {
        self.list(n).iter().map(|&x| x as usize).collect()
    }
}

// guard (port, low, high) or always; copies (source, destination)
struct Driver {
    guard: Option<(usize, i64, i64)>,
    copies: Vec<(usize, usize)>,
}

struct Task {
    worst: i64,
    // output and private ports
    gives: Vec<usize>,
}

struct Program {
    sensors: Vec<bool>,
    drivers: Vec<Driver>,
    tasks: Vec<Task>,
    code: Vec<[usize; 3]>,
    // by supplier and address: the block's rows (idle, task, timeout)
    blocks: Vec<Vec<Vec<(bool, usize, usize)>>>,
}

#[derive(Clone)]
struct State {
    ports: Vec<i64>,
    outputs: Vec<i64>,
    time: u32,
    pending: usize,
    current: usize,
    elapsed: usize,
    remaining: usize,
    left: Vec<usize>,
    positions: Vec<usize>,
}

impl Driver {
    fn holds(&self, v: &[i64]) -> bool {
        match self.guard {
            None => true,
            Some((p, low, high)) => low <= v[p] && v[p] <= high,
        }
    }
}

fn read_program(x: &mut Numbers) -> Program {
    x.next();
    let tables: Vec<Vec<i64>> = (0..10).map(|_| x.slice()).collect();
    let (ports, tasks, task_ports, drivers, copies) =
        (&tables[0], &tables[1], &tables[2], &tables[3], &tables[4]);
    let sensors = ports.chunks(2).map(|r| r[0] == 0).collect();
    let drivers = drivers
        .chunks(4)
        .enumerate()
        .map(|(d, r)| Driver {
            guard: if r[0] == 0 { None } else { Some((r[1] as usize, r[2], r[3])) },
            copies: copies
                .chunks(3)
                .filter(|c| c[0] as usize == d)
                .map(|c| (c[1] as usize, c[2] as usize))
                .collect(),
        })
        .collect();
    let tasks = tasks
        .chunks(2)
        .enumerate()
        .map(|(t, r)| Task {
            worst: r[1],
            gives: task_ports
                .chunks(2)
                .filter(|q| q[0] as usize == t && matches!(ports[2 * q[1] as usize], 3 | 4))
                .map(|q| q[1] as usize)
                .collect(),
        })
        .collect();
    let words = x.slice();
    let code: Vec<[usize; 3]> =
        words.chunks(3).map(|w| [w[0] as usize, w[1] as usize, w[2] as usize]).collect();
    let mut blocks = vec![vec![Vec::new(); code.len()]; 8];
    for r in x.slice().chunks(5) {
        if (r[1] as usize) < code.len() {
            blocks[r[0] as usize][r[1] as usize].push((r[2] == 1, r[3] as usize, r[4] as usize));
        }
    }
    Program { sensors, drivers, tasks, code, blocks }
}

fn read_state(x: &mut Numbers) -> State {
    State {
        ports: x.list(64),
        outputs: x.list(64),
        time: x.next() as u32,
        pending: x.next() as usize,
        current: x.next() as usize,
        elapsed: x.next() as usize,
        remaining: x.next() as usize,
        left: x.indices(32),
        positions: x.indices(8),
    }
}

impl Program {
    fn call(&self, s: &mut State, n: usize, readings: &[i64]) -> Result<(), usize> {
        if n < 1000 {
            let d = self.drivers.get(n).ok_or(19usize)?;
            if d.holds(&s.ports) {
                let moved: Vec<i64> = d.copies.iter().map(|c| s.ports[c.0]).collect();
                for (c, v) in d.copies.iter().zip(moved) {
                    s.ports[c.1] = v;
                }
            }
        } else if n < 2000 {
            let t = self.tasks.get(n - 1000).ok_or(19usize)?;
            if s.left[n - 1000] > 0 {
                return Err(17);
            }
            for &p in &t.gives {
                s.ports[p] = s.outputs[p];
            }
        } else {
            if !self.sensors.get(n - 2000).copied().unwrap_or(false) {
                return Err(19);
            }
            s.ports[n - 2000] = readings[n - 2000];
        }
        Ok(())
    }

    fn instant(&self, s: &mut State, readings: &[i64], times: &[i64]) -> Result<(), usize> {
        let n = self.code.len();
        let (mut at, mut planned) = (s.pending, false);
        for _ in 0..n {
            let [op, a, b] = *self.code.get(at).ok_or(19usize)?;
            let mut next = at + 1;
            match op {
                0 if b == 0 => self.call(s, a, readings)?,
                1 if b == 0 => {
                    let t = self.tasks.get(a).ok_or(19usize)?;
                    if times[a] < 1 || t.worst < times[a] {
                        return Err(16);
                    }
                    if s.left[a] > 0 {
                        return Err(17);
                    }
                    s.left[a] = times[a] as usize;
                }
                2 if b < n => {
                    if self.drivers.get(a).ok_or(19usize)?.holds(&s.ports) {
                        next = b;
                    }
                }
                3 if b == 0 && a < n => next = a,
                4 if !planned && (1..=DELAY).contains(&a) && b < n => {
                    planned = true;
                    (s.pending, s.current, s.elapsed, s.remaining) = (b, at, 0, a);
                    s.positions.iter_mut().for_each(|p| *p = 0);
                }
                5 if planned && a == 0 && b == 0 => return Ok(()),
                _ => return Err(19),
            }
            at = next;
        }
        Err(if at < n { 20 } else { 19 })
    }

    fn tick(&self, s: &mut State, results: &[i64]) -> Result<(), usize> {
        let mut running = None;
        for j in 0..8 {
            let block = &self.blocks[j][s.current];
            let mut i = s.positions[j];
            while i < block.len() {
                let (idle, t, timeout) = block[i];
                if timeout > s.elapsed && (idle || s.left[t] > 0) {
                    break;
                }
                i += 1;
            }
            s.positions[j] = i;
            if i < block.len() && !block[i].0 {
                if running.is_some() {
                    return Err(18);
                }
                running = Some(block[i].1);
            }
        }
        if let Some(t) = running {
            s.left[t] -= 1;
            if s.left[t] == 0 {
                for &p in &self.tasks[t].gives {
                    s.outputs[p] = results[p];
                }
            }
        }
        s.time = s.time.wrapping_add(1);
        s.elapsed += 1;
        s.remaining -= 1;
        Ok(())
    }

    // A refusal leaves the state as it was.
    fn advance(&self, s: &mut State, x: &[Vec<i64>]) -> usize {
        let mut next = s.clone();
        let mut step = || -> Result<(), usize> {
            if next.remaining == 0 {
                self.instant(&mut next, &x[0], &x[2])?;
            }
            self.tick(&mut next, &x[1])
        };
        match step() {
            Ok(()) => {
                *s = next;
                0
            }
            Err(n) => n,
        }
    }
}

// The number, its place, which is 0 0 of the numbers that arise in a run, and the state.
fn line(number: usize, s: &State) -> String {
    let mut all: Vec<i64> = vec![number as i64, 0, 0];
    all.extend(&s.ports);
    all.extend(&s.outputs);
    all.push(s.time as i64);
    all.extend([s.pending, s.current, s.elapsed, s.remaining].map(|x| x as i64));
    all.extend(s.left.iter().chain(&s.positions).map(|&x| x as i64));
    all.iter().map(|x| x.to_string()).collect::<Vec<_>>().join(" ")
}

// So many ticks with the same lent slices, up to the first that is refused.
fn long(program: &Program, mut s: State, n: i64, lent: &[Vec<i64>]) {
    let mut number = 0;
    for _ in 0..n {
        number = program.advance(&mut s, lent);
        if number > 0 {
            break;
        }
    }
    println!("{}", line(number, &s));
}

fn main() {
    for name in env::args().skip(1) {
        let text = fs::read_to_string(&name).expect("no such file");
        let all = text.split_whitespace().map(|w| w.parse().expect("no number")).collect();
        let each = name.rsplit('/').next().unwrap_or("").starts_with("run.");
        let mut x = Numbers { all, at: 0 };
        for _ in 0..x.next() {
            let program = read_program(&mut x);
            let mut s = read_state(&mut x);
            let n = x.next();
            let mut lent = || (0..3).map(|_| x.slice()).collect::<Vec<_>>();
            if each {
                for _ in 0..n {
                    let number = program.advance(&mut s, &lent());
                    println!("{}", line(number, &s));
                }
            } else {
                long(&program, s, n, &lent());
            }
        }
    }
}
