//! A soak of workers in plain Rust: the program that `brc_bench soak` is compared with.
//!
//! References are `Arc`s, and a list has its cells behind a `Mutex`. The functions do what those of the proved program's
//! modules do, but they are compiled, where the proved program's workers read their instructions one by one.
//!
//!     rustc -O bench/soak.rs && ./soak                # one heap for each function: counts alone
//!     rustc -O bench/soak.rs && ./soak --calls N      # N calls in all, and how long they took

use std::cell::Cell;
use std::fmt::Write;
use std::hint::black_box;
use std::mem;
use std::sync::{Arc, Mutex};
use std::thread;
use std::time::Instant;

const WORKERS: u64 = 32;
const ROWS: u64 = 1024;
const ROOT_CELLS: usize = 8;

/// A reference that a variable or a cell owns.
#[derive(Clone)]
enum Reference {
    None,
    To(Arc<Object>),
}

type Cells = Vec<Option<Reference>>;

/// An object. A file's or a socket's lock guards its resource.
enum Object {
    Number(u32),
    List(Mutex<Cells>),
    File(Mutex<()>),
    Socket(Mutex<()>),
}

thread_local! {
    /// The objects, and the files and sockets of them, that this thread has closed.
    static CLOSED: Cell<(u64, u64)> = const { Cell::new((0, 0)) };
}

impl Drop for Object {
    /// Closes the object. Lists inside lists are closed one after another, so that the stack stays flat.
    fn drop(&mut self) {
        let (objects, resources) = CLOSED.get();
        CLOSED.set((objects + 1, resources + u64::from(matches!(self, Object::File(_) | Object::Socket(_)))));
        let mut dying = self.take_items();
        while let Some(reference) = dying.pop() {
            let Reference::To(object) = reference else { continue };
            if let Some(mut object) = Arc::into_inner(object) {
                dying.extend(object.take_items());
            }
        }
    }
}

impl Object {
    /// Takes the items out of the cells of a list.
    fn take_items(&mut self) -> Vec<Reference> {
        match self {
            Object::List(cells) => mem::take(cells.get_mut().unwrap()).into_iter().flatten().collect(),
            _ => Vec::new(),
        }
    }

    /// Returns the cells of a list.
    fn cells(&self) -> &Mutex<Cells> {
        match self {
            Object::List(cells) => cells,
            _ => unreachable!(),
        }
    }

    fn is_number(&self) -> bool {
        matches!(self, Object::Number(_))
    }
}

/// A worker: the root, how many rows it has left, and what it has counted.
struct Worker {
    root: Arc<Object>,
    rows: u64,
    births: u64,
    opened: u64,
    /// What keeps itself alive. The lists are emptied when the counts have been compared.
    kept: Vec<Arc<Object>>,
}

impl Worker {
    fn birth(&mut self, object: impl FnOnce() -> Object) -> Option<Arc<Object>> {
        self.rows = self.rows.checked_sub(1)?;
        self.births += 1;
        Some(Arc::new(object()))
    }

    fn number(&mut self, value: u32) -> Option<Arc<Object>> {
        self.birth(|| Object::Number(black_box(value)))
    }

    fn list(&mut self, cells: usize) -> Option<Arc<Object>> {
        self.birth(|| Object::List(Mutex::new(vec![None; cells])))
    }

    fn file(&mut self) -> Option<Arc<Object>> {
        let file = self.birth(|| Object::File(Mutex::new(())))?;
        self.opened += 1;
        Some(file)
    }

    fn socket(&mut self) -> Option<Arc<Object>> {
        let socket = self.birth(|| Object::Socket(Mutex::new(())))?;
        self.opened += 1;
        Some(socket)
    }

    /// Reads from a file or a socket whose lock is held.
    fn read(&mut self, most: u32) -> Option<Arc<Object>> {
        self.number(most)
    }
}

/// Writes a number's digits to a file or a socket whose lock is held.
fn write(number: &Object) {
    if let Object::Number(value) = number {
        let mut line = String::new();
        writeln!(line, "{value}").unwrap();
        black_box(line);
    }
}

/// Puts a reference into the first cell, and drops the one that was there, before the list is unlocked, as a module's
/// `set` does in its section.
fn set(list: &Object, item: Reference) {
    let mut cells = list.cells().lock().unwrap();
    let old = cells[0].replace(item);
    drop(old);
}

/// Returns a new reference to the item in the first cell.
fn fetch(list: &Object) -> Option<Reference> {
    list.cells().lock().unwrap()[0].clone()
}

fn references(worker: &mut Worker) -> Option<()> {
    let one = black_box(Arc::clone(&worker.root));
    let two = black_box(Arc::clone(&one));
    drop(one);
    drop(two);
    Some(())
}

fn numbers(worker: &mut Worker) -> Option<()> {
    for _ in 0..4 {
        drop(black_box(worker.number(1)?));
    }
    Some(())
}

fn kinds(worker: &mut Worker) -> Option<()> {
    assert!(matches!(**black_box(&worker.root), Object::List(_)));
    assert!(matches!(black_box(Reference::None), Reference::None));
    assert!(black_box(worker.number(1)?).is_number());
    Some(())
}

fn returned(worker: &mut Worker) -> Option<()> {
    let list = worker.list(3)?;
    let result = black_box(Arc::clone(&list));
    drop(list);
    drop(result);
    Some(())
}

fn swapped(worker: &mut Worker) -> Option<()> {
    let number = worker.number(7)?;
    set(&worker.root, Reference::To(number));
    Some(())
}

fn cleared(worker: &mut Worker) -> Option<()> {
    swapped(worker)?;
    set(&worker.root, Reference::None);
    Some(())
}

/// Rust can't borrow an item past the guard, so this takes a reference in the section, as the module does.
fn borrowed(worker: &mut Worker) -> Option<()> {
    swapped(worker)?;
    drop(black_box(fetch(&worker.root)?));
    Some(())
}

fn fetched(worker: &mut Worker) -> Option<()> {
    swapped(worker)?;
    for _ in 0..4 {
        drop(black_box(fetch(&worker.root)?));
    }
    Some(())
}

fn moved(worker: &mut Worker) -> Option<()> {
    swapped(worker)?;
    let list = worker.list(1)?;
    let item = fetch(&worker.root)?;
    set(&list, item);
    drop(black_box(list));
    Some(())
}

fn shared(worker: &mut Worker) -> Option<()> {
    let list = worker.list(1)?;
    set(&worker.root, Reference::To(list));
    if let Reference::To(list) = fetch(&worker.root)? {
        let number = worker.number(7)?;
        set(&list, Reference::To(number));
    }
    Some(())
}

fn nested(worker: &mut Worker) -> Option<()> {
    let mut inner = worker.list(1)?;
    for _ in 0..31 {
        let outer = worker.list(1)?;
        set(&outer, Reference::To(inner));
        inner = outer;
    }
    drop(black_box(inner));
    Some(())
}

fn chained(worker: &mut Worker) -> Option<()> {
    let list = worker.list(1)?;
    if let Some(item) = fetch(&worker.root) {
        set(&list, item);
    }
    set(&worker.root, Reference::To(list));
    Some(())
}

fn copied(worker: &mut Worker) -> Option<()> {
    let file = worker.file()?;
    let socket = worker.socket()?;
    let (Object::File(from), Object::Socket(to)) = (&*file, &*socket) else { unreachable!() };
    let guard = black_box(from).lock().unwrap();
    let number = worker.read(4)?;
    drop(guard);
    let guard = black_box(to).lock().unwrap();
    write(&number);
    drop(guard);
    Some(())
}

fn files(worker: &mut Worker) -> Option<()> {
    let file = worker.file()?;
    set(&worker.root, Reference::To(file));
    let Reference::To(file) = fetch(&worker.root)? else { return Some(()) };
    let Object::File(resource) = &*file else { return Some(()) };
    let guard = black_box(resource).lock().unwrap();
    let number = worker.read(4)?;
    write(&number);
    drop(guard);
    Some(())
}

fn in_itself(worker: &mut Worker) -> Option<()> {
    let list = worker.list(1)?;
    set(&list, Reference::To(Arc::clone(&list)));
    worker.kept.push(list);
    Some(())
}

fn rows_run_out(worker: &mut Worker) -> Option<()> {
    let one = worker.number(1)?;
    let result = match worker.number(2) {
        Some(two) => two,
        None => one,
    };
    drop(black_box(result));
    Some(())
}

/// A function, and what is known of a call of it: how often each worker of a heap makes it, and the objects that it makes,
/// those that keep themselves alive, and those that are files and sockets.
struct Soaked {
    name: &'static str,
    call: fn(&mut Worker) -> Option<()>,
    times: u64,
    births: u64,
    kept: u64,
    opened: u64,
}

const fn soaked(name: &'static str, call: fn(&mut Worker) -> Option<()>, times: u64, births: u64) -> Soaked {
    Soaked { name, call, times, births, kept: 0, opened: 0 }
}

const FUNCTIONS: [Soaked; 16] = [
    soaked("references", references, 4096, 0),
    soaked("numbers", numbers, 256, 4),
    soaked("kinds", kinds, 1024, 1),
    soaked("returned", returned, 1024, 1),
    soaked("swapped", swapped, 1024, 1),
    soaked("cleared", cleared, 1024, 1),
    soaked("borrowed", borrowed, 1024, 1),
    soaked("fetched", fetched, 1024, 1),
    soaked("moved", moved, 512, 2),
    soaked("shared", shared, 512, 2),
    soaked("nested", nested, 32, 32),
    soaked("chained", chained, 1024, 1),
    Soaked { opened: 2, ..soaked("copied", copied, 341, 3) },
    Soaked { opened: 1, ..soaked("files", files, 512, 2) },
    Soaked { kept: 1, ..soaked("in itself", in_itself, 1024, 1) },
    soaked("rows run out", rows_run_out, 600, 2),
];

/// What is counted of a heap: births and closes of objects, and opened and closed files and sockets.
#[derive(Debug, PartialEq, Eq)]
struct HeapCounts {
    births: u64,
    closes: u64,
    opened: u64,
    resources_closed: u64,
}

fn wanted_counts(function: &Soaked, times: u64) -> HeapCounts {
    let made = |in_a_call: u64| (times * in_a_call).min(ROWS) * WORKERS;
    let births = made(function.births) + 1;
    let opened = made(function.opened);
    HeapCounts { births, closes: births - made(function.kept), opened, resources_closed: opened }
}

/// What a worker leaves: its births, what it has opened, what its thread has closed, and what keeps itself alive.
type Gone = (u64, u64, (u64, u64), Vec<Arc<Object>>);

/// Makes `times` calls, and gives up the root.
fn work(root: Arc<Object>, call: fn(&mut Worker) -> Option<()>, times: u64) -> Gone {
    let mut worker = Worker { root, rows: ROWS, births: 0, opened: 0, kept: Vec::new() };
    for _ in 0..times {
        call(&mut worker);
    }
    let Worker { root, births, opened, kept, .. } = worker;
    drop(root);
    (births, opened, CLOSED.get(), kept)
}

/// Lets each worker make `times` calls in a thread of its own, and then drops the root.
fn run_heap(function: &Soaked, times: u64) -> HeapCounts {
    CLOSED.set((0, 0));
    let root = Arc::new(Object::List(Mutex::new(vec![None; ROOT_CELLS])));
    let gone: Vec<Gone> = thread::scope(|scope| {
        let threads: Vec<_> = (0..WORKERS)
            .map(|_| {
                let root = Arc::clone(&root);
                scope.spawn(move || work(root, function.call, times))
            })
            .collect();
        threads.into_iter().map(|thread| thread.join().unwrap()).collect()
    });
    drop(root);
    let (closes, resources_closed) = CLOSED.get();
    let mut counts = HeapCounts { births: 1, closes, opened: 0, resources_closed };
    for (births, opened, (objects, resources), _) in &gone {
        counts.births += births;
        counts.opened += opened;
        counts.closes += objects;
        counts.resources_closed += resources;
    }
    for list in gone.iter().flat_map(|(_, _, _, kept)| kept) {
        let item = list.cells().lock().unwrap()[0].take();
        drop(item);
    }
    counts
}

fn main() {
    let words: Vec<String> = std::env::args().skip(1).collect();
    let asked: Option<u64> = match words.as_slice() {
        [] => None,
        [option, number] if option == "--calls" => Some(number.parse().unwrap()),
        _ => panic!("usage: soak [--calls N]"),
    };
    let wanted = asked.unwrap_or(FUNCTIONS.iter().map(|function| function.times * WORKERS).sum());
    let (mut heaps, mut calls, mut births, mut closes) = (0, 0, 0, 0);
    let start = Instant::now();
    for function in FUNCTIONS.iter().cycle() {
        let times = function.times.min((wanted - calls).div_ceil(WORKERS));
        let counts = run_heap(function, times);
        assert_eq!(counts, wanted_counts(function, times), "{}", function.name);
        heaps += 1;
        calls += times * WORKERS;
        births += counts.births;
        closes += counts.closes;
        if calls >= wanted {
            break;
        }
    }
    let time = start.elapsed();
    println!("heaps {heaps}\ncalls {calls}\nbirths {births}\ncloses {closes}\nevery heap ended with exact closes");
    if asked.is_some() {
        println!("seconds {:.3}", time.as_secs_f64());
    }
}
