//! Times each call of the kit against the judge, plain Rust, and against Rust written for speed, on the same inputs in one run.
//!
//!     cargo run --release --offline --manifest-path rust/Cargo.toml -p ruahmitz-bench
//!
//! A line tells the time for one unit of the input by each, the kit's ratio to both, and how the kit's whole time grows from the size
//! before, where 1.0 is linear. Cells are empty where fast Rust does not have the call.

mod inputs;

use ruahmitz_compare::draft::Draft;
use ruahmitz_fast as fast;
use ruahmitz_judge as judge;
use ruahmitz_kit as kit;
use std::hint::black_box;

/// Number and place.
type Reply = (u32, u64);
type Call<'a> = Box<dyn FnMut() -> Reply + 'a>;

/// One call on one input, as each makes it; their replies are compared first.
struct Work<'a> {
    size: usize,
    kit: Call<'a>,
    judge: Call<'a>,
    fast: Option<Call<'a>>,
}

extern "C" {
    /// POSIX, from the C library that the standard library links.
    fn clock_gettime(clock: i32, time: *mut [i64; 2]) -> i32;
}

/// Seconds of processor time that this thread has used, so that other work on the machine counts little.
fn clock() -> f64 {
    const THREAD_CPUTIME: i32 = 3;
    let mut time = [0; 2];
    assert_eq!(unsafe { clock_gettime(THREAD_CPUTIME, &mut time) }, 0);
    time[0] as f64 + time[1] as f64 * 1e-9
}

/// The least times of several runs of each, in turn, each repeated until it can be measured.
fn least<const N: usize>(mut calls: [&mut Call; N]) -> [f64; N] {
    let mut times = [f64::MAX; N];
    let mut repeats = 1;
    let begin = clock();
    while clock() - begin < N as f64 {
        let spent = calls.each_mut().map(|call| timed(repeats, call));
        for (time, spent) in times.iter_mut().zip(spent) {
            *time = time.min(spent / f64::from(repeats));
        }
        if spent[0] < 0.005 {
            repeats *= 2;
        }
    }
    times
}

fn timed(repeats: u32, call: &mut Call) -> f64 {
    let start = clock();
    for _ in 0..repeats {
        black_box(call());
    }
    clock() - start
}

fn table(name: &str, unit: &str, works: Vec<Work>) {
    let mut before: Option<(usize, f64)> = None;
    for Work { size, mut kit, mut judge, fast } in works {
        let due = judge();
        assert_eq!(kit(), due, "{name}: the kit's answer differs");
        let (ours, plain, fastest) = match fast {
            Some(mut fast) => {
                assert_eq!(fast(), due, "{name}: fast Rust's answer differs");
                let [ours, plain, fastest] = least([&mut kit, &mut judge, &mut fast]);
                (ours, plain, Some(fastest))
            }
            None => {
                let [ours, plain] = least([&mut kit, &mut judge]);
                (ours, plain, None)
            }
        };
        let per = |time: f64| format!("{:.2}", time * 1e9 / size as f64);
        let cells = [
            per(ours),
            per(plain),
            fastest.map(per).unwrap_or_default(),
            format!("{:.2}", ours / plain),
            fastest.map(|time| format!("{:.2}", ours / time)).unwrap_or_default(),
            before.map(|(less, time)| format!("{:.2}", ours / time / (size as f64 / less as f64))).unwrap_or_default(),
        ];
        println!("| {name} | {size} {unit} | {} |", cells.join(" | "));
        before = Some((size, ours));
    }
}

fn books() {
    let sizes = [(1, 16), (10, 16), (60, 25)];
    let written: Vec<Vec<u8>> = sizes.iter().map(|&(clauses, sums)| inputs::bulk(clauses, sums).write().bytes).collect();
    let work = |book: &'static [u8]| Work {
        size: book.len(),
        kit: Box::new(move || told(kit::book(black_box(book)))),
        judge: Box::new(move || judged(judge::book(black_box(book)))),
        fast: None,
    };
    let held: Vec<&'static [u8]> = written.iter().map(|book| &*book.clone().leak()).collect();
    table("book", "bytes", held.iter().map(|book| work(book)).collect());
    let part = |book: &'static [u8]| Work {
        size: book.len(),
        kit: Box::new(move || {
            let p = kit::constraint(black_box(book), 0);
            (p.length as u32, p.start)
        }),
        judge: Box::new(move || {
            let p = judge::constraint(black_box(book), 0);
            (p.length as u32, p.start)
        }),
        fast: None,
    };
    table("constraint", "bytes", held.iter().map(|book| part(book)).collect());
    table("text", "characters", held.iter().map(|book| text(book)).collect());
}

fn told(answer: kit::Answer) -> Reply {
    (answer.number, answer.place)
}

fn judged(answer: judge::Answer) -> Reply {
    (answer.number, answer.place)
}

fn raced(answer: fast::Answer) -> Reply {
    (answer.number, answer.place)
}

fn text(book: &'static [u8]) -> Work<'static> {
    let length = kit::text(book, &mut []).place as usize;
    let (mut ours, mut theirs) = (vec![0; length], vec![0; length]);
    Work {
        size: length,
        kit: Box::new(move || told(kit::text(black_box(book), &mut ours))),
        judge: Box::new(move || judged(judge::text(black_box(book), &mut theirs))),
        fast: None,
    }
}

/// A book with a derivation of so many steps, its goal, and its trace.
struct Case {
    book: &'static [u8],
    goal: &'static [i32],
    derivation: &'static [i32],
    trace: &'static [i32],
}

fn case(draft: &Draft, steps: i32) -> Case {
    let book = &*draft.write().bytes.leak();
    let goal = &*inputs::last(draft, steps).leak();
    let derivation = &*inputs::derivation(draft, steps).leak();
    let length = kit::to_trace(book, derivation, 0, goal, &mut []).place as usize;
    let mut room = vec![0; length];
    kit::to_trace(book, derivation, 0, goal, &mut room);
    Case { book, goal, derivation, trace: room.leak() }
}

type Check<A> = fn(&[u8], &[i32], u64, &[i32]) -> A;
type Convert<A> = fn(&[u8], &[i32], u64, &[i32], &mut [i32]) -> A;

/// A call as the three have it.
struct Three<K, J, F> {
    kit: K,
    judge: J,
    fast: F,
}

type Checks = Three<Check<kit::Answer>, Check<judge::Answer>, Check<fast::Answer>>;
type Conversions = Three<Convert<kit::Answer>, Convert<judge::Answer>, Convert<fast::Answer>>;

const DERIVATION: Checks = Three { kit: kit::derivation, judge: judge::derivation, fast: fast::derivation };
const TRACE: Checks = Three { kit: kit::trace, judge: judge::trace, fast: fast::trace };
const TO_TRACE: Conversions = Three { kit: kit::to_trace, judge: judge::to_trace, fast: fast::to_trace };
const TO_DERIVATION: Conversions = Three { kit: kit::to_derivation, judge: judge::to_derivation, fast: fast::to_derivation };

fn check(case: &Case, list: &'static [i32], calls: Checks) -> Work<'static> {
    let (book, goal) = (case.book, case.goal);
    Work {
        size: list.len(),
        kit: Box::new(move || told((calls.kit)(black_box(book), list, 0, goal))),
        judge: Box::new(move || judged((calls.judge)(black_box(book), list, 0, goal))),
        fast: Some(Box::new(move || raced((calls.fast)(black_box(book), list, 0, goal)))),
    }
}

fn convert(case: &Case, list: &'static [i32], room: usize, calls: Conversions) -> Work<'static> {
    let (book, goal) = (case.book, case.goal);
    let [mut first, mut second, mut third] = [(); 3].map(|()| vec![0; room]);
    Work {
        size: case.trace.len(),
        kit: Box::new(move || told((calls.kit)(black_box(book), list, 0, goal, &mut first))),
        judge: Box::new(move || judged((calls.judge)(black_box(book), list, 0, goal, &mut second))),
        fast: Some(Box::new(move || raced((calls.fast)(black_box(book), list, 0, goal, &mut third)))),
    }
}

/// The derivations have as many numbers as `sizes`, or as many that their traces do.
fn lists(name: &str, draft: Draft) {
    let arity = draft.arities[0] as i32;
    let sizes = [10_000, 100_000, 1_000_000];
    let long: Vec<Case> = sizes.iter().map(|size| case(&draft, size / (1 + 2 * arity))).collect();
    let traced: Vec<Case> = sizes.iter().map(|size| case(&draft, (size - 16) / (1 + 2 * arity + 2 + arity))).collect();
    let row = |call: &str| format!("{call}, {name}");
    table(&row("derivation"), "numbers", long.iter().map(|c| check(c, c.derivation, DERIVATION)).collect());
    table(&row("trace"), "numbers", traced.iter().map(|c| check(c, c.trace, TRACE)).collect());
    let written = traced.iter().map(|c| convert(c, c.derivation, c.trace.len(), TO_TRACE));
    table(&row("to_trace"), "numbers written", written.collect());
    let read = traced.iter().map(|c| convert(c, c.trace, c.derivation.len(), TO_DERIVATION));
    table(&row("to_derivation"), "numbers read", read.collect());
}

fn models(name: &str, make: fn(i32) -> Draft, widths: [i32; 3]) {
    let works = widths.map(|width| {
        let draft = make(width - 1);
        let model = &*inputs::model(&inputs::not_below(draft.arities[0])).leak();
        let book = &*draft.write().bytes.leak();
        Work {
            size: kit::model(book, model).count as usize,
            kit: Box::new(move || {
                let a = kit::model(black_box(book), model);
                (a.number, a.count)
            }),
            judge: Box::new(move || {
                let a = judge::model(black_box(book), model);
                (a.number, a.count)
            }),
            fast: Some(Box::new(move || {
                let a = fast::model(black_box(book), model);
                (a.number, a.count)
            })),
        }
    });
    table(&format!("model, {name}"), "assignments", works.into());
}

fn main() {
    println!(
        "| call, book | size | kit, ns a unit | plain Rust, ns a unit | fast Rust, ns a unit | kit/plain | kit/fast | growth |"
    );
    println!("|---|---|---|---|---|---|---|---|");
    books();
    lists("1 node", inputs::counter(i32::MAX));
    lists("16 nodes", inputs::machine(i32::MAX));
    models("1 node", inputs::counter, [99, 315, 999]);
    models("16 nodes", inputs::machine, [4, 6, 9]);
    models("61 nodes", inputs::choice, [99, 315, 999]);
}
