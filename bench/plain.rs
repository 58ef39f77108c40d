//! Biased reference counting (PEP 703) and locked lists in plain Rust: the program that the proved counter is compared
//! with.
//!
//! Every step is one sequentially consistent access of one word, as in the proved counter.
//!
//!     rustc -O bench/plain.rs && ./plain          # a small run of each row: counts alone
//!     rustc -O bench/plain.rs && ./plain --time   # nanoseconds, the median of 9 runs

use std::collections::VecDeque;
use std::hint::black_box;
use std::mem;
use std::sync::atomic::{AtomicU64, Ordering::SeqCst};
use std::sync::{Arc, Barrier, Mutex};
use std::thread;
use std::time::{Duration, Instant};

// The block: the threads' words, then three lines of mark words for each of 33 threads, then a tile for each 8 rows, with
// 8 words for each field, and then the rows' cells.
const THREAD_WORDS: u64 = 40;
const MARK_ROOM: u64 = 24;
const FRONT: u64 = THREAD_WORDS + 33 * MARK_ROOM;
const TILE_ROWS: u64 = 8;
const TILE_WORDS: u64 = 32;

/// The marks of a mark word: one bit for each row.
const MARKS_OF_WORD: u64 = 64;

/// What a word is to its row.
#[derive(Clone, Copy)]
enum Field {
    Local = 0,
    Shared = 1,
    Gate = 2,
    Kind = 3,
}

/// Returns the index of the word of `field` for `row`.
fn place(field: Field, row: u64) -> usize {
    (FRONT + TILE_WORDS * (row / TILE_ROWS) + TILE_ROWS * field as u64 + row % TILE_ROWS) as usize
}

// A local word, a gate and a kind word each have a high half and a low half of 32 bits.
const HIGH_ONE: u64 = 1 << 32;
const IMMORTAL_COUNT: u64 = HIGH_ONE - 1;

/// Returns the local word of a row that `thread` owns with `count` local references.
fn local_word(thread: u64, count: u64) -> u64 {
    (thread + 1) * HIGH_ONE + count
}

fn local_count(word: u64) -> u64 {
    word % HIGH_ONE
}

fn owned_by(word: u64, thread: u64) -> bool {
    word / HIGH_ONE == thread + 1
}

// A shared word is `(count + COUNT_BIAS) * ONE_SHARED + state`; state 0 is default.
const ONE_SHARED: u64 = 4;
const COUNT_BIAS: u64 = 1 << 40;
const ZERO_DEFAULT: u64 = COUNT_BIAS * ONE_SHARED;
const ZERO_QUEUED: u64 = ZERO_DEFAULT + 2;
const ZERO_MERGED: u64 = ZERO_DEFAULT + 3;

const NO_OWNER: u64 = 0;
const GATE_FREE: u64 = 1;
const GATE_CLOSED: u64 = 1 << 63;
/// The word of a thread that runs.
const RUNNING: u64 = 1;
const NONE_ROW: u64 = 0;
const ROOT_ROW: u64 = 1;
const FIRST_WORKER_ROW: u64 = 2;

/// Returns the gate of a list that `thread` has locked.
fn gate_locked(thread: u64) -> u64 {
    thread + 2
}

/// The words of all threads and rows, how many rows each worker has, where the cells begin, and how many each row has.
struct Block {
    words: Vec<AtomicU64>,
    rows_each: u64,
    cells_front: u64,
    cells_each: u64,
}

impl Block {
    /// Makes the block for `workers` workers with `rows_each` rows each. Only none and the root have an owner.
    fn new(workers: u64, rows_each: u64) -> Block {
        assert!(workers < THREAD_WORDS);
        let rows = FIRST_WORKER_ROW + workers * rows_each;
        let cells_front = FRONT + TILE_WORDS * rows.div_ceil(TILE_ROWS);
        let words = (0..cells_front + CELLS * rows).map(|_| AtomicU64::new(0)).collect();
        // A counter is for blocks of any number of rows, and lists of any length, so the compiler isn't to know them.
        let block = Block { words, rows_each: black_box(rows_each), cells_front, cells_each: black_box(CELLS) };
        for row in 0..rows {
            block.word(Field::Local, row).store(NO_OWNER, SeqCst);
            block.word(Field::Shared, row).store(ZERO_DEFAULT, SeqCst);
            block.word(Field::Gate, row).store(GATE_FREE, SeqCst);
        }
        block.word(Field::Local, NONE_ROW).store(local_word(0, IMMORTAL_COUNT), SeqCst);
        block.word(Field::Local, ROOT_ROW).store(local_word(0, 1), SeqCst);
        block.word(Field::Kind, ROOT_ROW).store(LIST_KIND * HIGH_ONE + CELLS, SeqCst);
        block
    }

    fn word(&self, field: Field, row: u64) -> &AtomicU64 {
        &self.words[place(field, row)]
    }

    /// Returns the mark word with the number `word` of the thread.
    fn marks(&self, thread: u64, word: u64) -> &AtomicU64 {
        &self.words[(THREAD_WORDS + MARK_ROOM * thread + word) as usize]
    }

    fn cell(&self, row: u64, cell: u64) -> &AtomicU64 {
        &self.words[(self.cells_front + self.cells_each * row + cell) as usize]
    }

    /// Returns the words of `row` that releases and retains change: local, shared, gate.
    fn counts(&self, row: u64) -> [u64; 3] {
        [Field::Local, Field::Shared, Field::Gate].map(|field| self.word(field, row).load(SeqCst))
    }
}

/// A thread's right to act: its number, its chain of dying rows, and its rows that no birth has used yet.
struct Hand {
    thread: u64,
    /// The first row of the dying chain plus 1, or 0 where the chain is empty.
    head: u64,
    first_row: u64,
    rows: u64,
    used: u64,
}

impl Hand {
    /// Returns the hand of the main thread, which has no rows for births.
    fn main() -> Hand {
        Hand { thread: 0, head: 0, first_row: FIRST_WORKER_ROW, rows: 0, used: 0 }
    }

    /// Returns the hand of worker `thread`, counted from 1, where each worker has `rows_each` rows.
    fn worker(thread: u64, rows_each: u64) -> Hand {
        Hand { thread, head: 0, first_row: FIRST_WORKER_ROW + (thread - 1) * rows_each, rows: rows_each, used: 0 }
    }
}

/// Adds a reference to `row`.
fn retain(hand: &mut Hand, block: &Block, row: u64) {
    // Only the owner writes a local word that names it, so what the owner loads here is still there at its store.
    let local = block.word(Field::Local, row).load(SeqCst);
    if local_count(local) == IMMORTAL_COUNT {
        return;
    }
    // The bound keeps a local count from growing into the immortal one.
    if owned_by(local, hand.thread) && local_count(local) < IMMORTAL_COUNT - 1 {
        block.word(Field::Local, row).store(local + 1, SeqCst);
    } else {
        // Any thread may change the shared word, so a load and a store would lose another thread's reference.
        block.word(Field::Shared, row).fetch_add(ONE_SHARED, SeqCst);
    }
}

/// The answer of [`release_local`].
#[derive(Debug, PartialEq)]
enum LocalRelease {
    /// The row is immortal.
    Skip,
    Kept,
    /// The local count reached zero; [`zero_step`] follows.
    Zero,
    /// Another thread, or nobody, owns the row; [`try_release_shared`] follows.
    Share,
}

/// Takes a reference to `row` from the local count, if the thread owns the row.
fn release_local(hand: &mut Hand, block: &Block, row: u64) -> LocalRelease {
    let local = block.word(Field::Local, row).load(SeqCst);
    if local_count(local) == IMMORTAL_COUNT {
        return LocalRelease::Skip;
    }
    if !owned_by(local, hand.thread) {
        return LocalRelease::Share;
    }
    debug_assert!(local_count(local) > 0, "the thread holds no local reference");
    // A plain store is enough, as in `retain`: no other thread writes this word.
    block.word(Field::Local, row).store(local - 1, SeqCst);
    if local_count(local - 1) > 0 {
        LocalRelease::Kept
    } else {
        LocalRelease::Zero
    }
}

/// The answer of [`zero_step`].
#[derive(Debug, PartialEq)]
enum ZeroStep {
    Dying,
    /// The shared word has a count or a state; the owner merges the two counts next.
    Merge,
}

/// Decides what becomes of `row` after its owner's local count reached zero.
fn zero_step(hand: &mut Hand, block: &Block, row: u64) -> ZeroStep {
    // Without this look at the shared word the owner would deallocate a row that other threads hold
    // (`free_without_shared`).
    if block.word(Field::Shared, row).load(SeqCst) != ZERO_DEFAULT {
        return ZeroStep::Merge;
    }
    push_dying(hand, block, row);
    ZeroStep::Dying
}

/// Puts `row` in front of the thread's dying chain.
fn push_dying(hand: &mut Hand, block: &Block, row: u64) {
    // The gate names the thread that deallocates the row. It is stored after the last reference is gone, never before.
    block.word(Field::Gate, row).store((hand.thread + 1) * HIGH_ONE + hand.head, SeqCst);
    hand.head = row + 1;
}

/// The answer of [`try_release_shared`].
#[derive(Debug, PartialEq)]
enum SharedRelease {
    Kept,
    /// The thread queued the row and asks the owner to merge.
    Queued,
    Dying,
    /// Another thread changed the shared word first.
    Again,
}

/// Takes a reference to `row` from the shared count, if no other thread changes the shared word meanwhile.
fn try_release_shared(hand: &mut Hand, block: &Block, row: u64) -> SharedRelease {
    let shared = block.word(Field::Shared, row);
    let old = shared.load(SeqCst);
    // At (0, default) the reference is in the owner's count. The count stays as it is and the owner merges: a shared
    // count below zero that is still default would never reach the owner (`release_below_zero`).
    let new = if old == ZERO_DEFAULT { ZERO_QUEUED } else { old - ONE_SHARED };
    // A plain store could undo what another thread did to the word since the load.
    if shared.compare_exchange(old, new, SeqCst, SeqCst).is_err() {
        return SharedRelease::Again;
    }
    if old == ZERO_DEFAULT {
        SharedRelease::Queued
    } else if new == ZERO_MERGED {
        push_dying(hand, block, row);
        SharedRelease::Dying
    } else {
        SharedRelease::Kept
    }
}

/// The answer of [`release`].
#[derive(Debug, PartialEq)]
enum Release {
    Skip,
    Kept,
    Merge,
    Queued,
    Dying,
}

/// Takes a reference to `row`, and retries a lost compare-exchange.
fn release(hand: &mut Hand, block: &Block, row: u64) -> Release {
    match release_local(hand, block, row) {
        LocalRelease::Skip => Release::Skip,
        LocalRelease::Kept => Release::Kept,
        LocalRelease::Zero => match zero_step(hand, block, row) {
            ZeroStep::Dying => Release::Dying,
            ZeroStep::Merge => Release::Merge,
        },
        LocalRelease::Share => loop {
            match try_release_shared(hand, block, row) {
                SharedRelease::Kept => return Release::Kept,
                SharedRelease::Queued => return Release::Queued,
                SharedRelease::Dying => return Release::Dying,
                SharedRelease::Again => continue,
            }
        },
    }
}

/// Makes the next row of the thread's own rows and returns it, or `None` if all are used.
fn birth(hand: &mut Hand, block: &Block, kind: u64, argument: u64) -> Option<u64> {
    if hand.used == hand.rows {
        return None;
    }
    let row = hand.first_row + hand.used;
    hand.used += 1;
    // The kind comes first: the local word is what makes the row an object, and an object has its kind.
    block.word(Field::Kind, row).store(kind * HIGH_ONE + argument, SeqCst);
    block.word(Field::Local, row).store(local_word(hand.thread, 1), SeqCst);
    Some(row)
}

/// Finalises the rows of the thread's dying chain, until it is empty.
fn settle(hand: &mut Hand, block: &Block) {
    while let Some(row) = hand.head.checked_sub(1) {
        hand.head = block.word(Field::Gate, row).load(SeqCst) % HIGH_ONE;
        let kind = block.word(Field::Kind, row).load(SeqCst);
        assert_eq!(kind / HIGH_ONE, KIND, "a number: it has no cells to empty, and no resource to close");
        block.word(Field::Gate, row).swap(GATE_CLOSED, SeqCst);
    }
}

/// Sets the mark of `row`, which a release queued, and looks whether its owner runs. Returns whether it does.
fn post(block: &Block, row: u64) -> bool {
    // The mark comes first: an owner that leaves says so before it looks for marks (`post_without_look`).
    let back = row - FIRST_WORKER_ROW;
    let (owner, index) = (back / block.rows_each + 1, back % block.rows_each);
    block.marks(owner, index / MARKS_OF_WORD).fetch_or(1 << (index % MARKS_OF_WORD), SeqCst);
    block.words[owner as usize].load(SeqCst) == RUNNING
}

/// Merges the two counts of `row`, whose mark the thread has claimed, and gives up the reference that was handed over.
fn merge_claimed(hand: &mut Hand, block: &Block, row: u64) {
    let carried = local_count(block.word(Field::Local, row).swap(NO_OWNER, SeqCst));
    let shared = block.word(Field::Shared, row);
    loop {
        // The state becomes merged.
        let old = shared.load(SeqCst);
        let new = (old / ONE_SHARED + carried) * ONE_SHARED + ZERO_MERGED % ONE_SHARED;
        if shared.compare_exchange(old, new, SeqCst, SeqCst).is_ok() {
            break;
        }
    }
    while try_release_shared(hand, block, row) == SharedRelease::Again {}
}

/// Loads each mark word of the rows that the thread has used, and takes the marks that it has found there, one by one.
/// Merges each row whose mark was still set, gives up the reference that was handed over with it, and finalises what
/// dies. Returns how many rows it merged.
fn merge_pending(hand: &mut Hand, block: &Block) -> u64 {
    let mut merged = 0;
    for word in 0..hand.used.div_ceil(MARKS_OF_WORD) {
        let marks = block.marks(hand.thread, word);
        let rows = hand.used - MARKS_OF_WORD * word;
        let mask = if rows < MARKS_OF_WORD { (1 << rows) - 1 } else { u64::MAX };
        let mut found = marks.load(SeqCst) & mask;
        while found != 0 {
            let bit = u64::from(found.trailing_zeros());
            found &= !(1 << bit);
            if marks.fetch_and(!(1 << bit), SeqCst) >> bit & 1 == 1 {
                merge_claimed(hand, block, hand.first_row + MARKS_OF_WORD * word + bit);
                settle(hand, block);
                merged += 1;
            }
        }
    }
    merged
}

/// Tries once to lock the list `row`, and returns whether the thread got the lock.
fn try_lock(hand: &mut Hand, block: &Block, row: u64) -> bool {
    let gate = block.word(Field::Gate, row);
    gate.compare_exchange(GATE_FREE, gate_locked(hand.thread), SeqCst, SeqCst).is_ok()
}

/// Unlocks the list `row`, which the thread has locked.
fn unlock(block: &Block, row: u64) {
    block.word(Field::Gate, row).store(GATE_FREE, SeqCst);
}

/// Puts `item`, or nothing, into a cell of the locked list `row`, and returns what was there. The references go along.
fn swap_item(block: &Block, row: u64, cell: u64, item: Option<u64>) -> Option<u64> {
    // A cell's word is 0, or the row of its item plus 1.
    let new = item.map_or(0, |item| item + 1);
    block.cell(row, cell).swap(new, SeqCst).checked_sub(1)
}

// From here on: the rows of the table.

const WORKERS: u64 = 4;
/// The rows of each worker: more than a tile's, so that no two workers' first rows share a tile.
const ROWS_EACH: u64 = 64;
const KIND: u64 = 2;
const LIST_KIND: u64 = 3;
const CELLS: u64 = 8;
/// The cell whose item is swapped.
const CELL: u64 = 0;
/// The rows of each worker in a block for births. Such a block has 209 KiB of words, which stay in a core's own cache from
/// their first store on: a birth in a larger block waits for memory, and how long depends on where the allocator took it.
const BIRTH_ROWS: u64 = 512;

/// What one run of a row of the table did.
struct Run {
    /// The number of operations that went as they should, of all threads.
    done: u64,
    /// The time of the slowest thread.
    slowest: Duration,
}

/// Runs each job on a thread of its own, `n` times. The jobs start together, after half as many untimed runs: new threads
/// may share a processor until the kernel moves them apart.
fn run_together<Job: FnMut(u64) -> u64 + Send>(jobs: Vec<Job>, n: u64) -> Run {
    let barrier = Barrier::new(jobs.len());
    let timed = |mut job: Job| {
        job(n / 2);
        barrier.wait();
        let start = Instant::now();
        (job(n), start.elapsed())
    };
    thread::scope(|scope| {
        let timed = &timed;
        let threads: Vec<_> = jobs.into_iter().map(|job| scope.spawn(move || timed(job))).collect();
        let mut run = Run { done: 0, slowest: Duration::ZERO };
        for thread in threads {
            let (done, time) = thread.join().unwrap();
            run.done += done;
            run.slowest = run.slowest.max(time);
        }
        run
    })
}

/// Retains and releases `row` `n` times, and returns how many of the releases answered `Kept`.
fn pairs(hand: &mut Hand, block: &Block, row: u64, n: u64) -> u64 {
    let mut kept = 0;
    for _ in 0..n {
        // The black box keeps the compiler from computing the row's places once for all pairs.
        retain(hand, block, black_box(row));
        kept += u64::from(release(hand, block, black_box(row)) == Release::Kept);
    }
    kept
}

/// Runs `n` pairs on each thread of `plan`, which names a thread and the owner of the row that it uses.
fn counted(plan: &[(usize, usize)], n: u64) -> Run {
    let block = &Block::new(WORKERS, ROWS_EACH);
    // Thread 0 has the root already. Each worker makes its first row.
    let mut hands = vec![Hand::main()];
    hands.extend((1..=WORKERS).map(|thread| Hand::worker(thread, ROWS_EACH)));
    let rows: Vec<u64> = hands.iter_mut().map(|hand| birth(hand, block, KIND, 0).unwrap_or(ROOT_ROW)).collect();
    let counts = || rows.iter().map(|&row| block.counts(row)).collect::<Vec<_>>();

    let before = counts();
    let acting = hands.iter_mut().filter_map(|hand| {
        let &(_, owner) = plan.iter().find(|(thread, _)| *thread as u64 == hand.thread)?;
        Some((hand, rows[owner]))
    });
    let run = run_together(acting.map(|(hand, row)| move |n| pairs(hand, block, row, n)).collect(), n);
    assert_eq!(counts(), before, "each count ends as it began");
    run
}

/// Makes `n` rows, by one worker after another, over as many blocks as it takes. The blocks are made outside the time.
fn births(n: u64) -> Run {
    let mut run = Run { done: 0, slowest: Duration::ZERO };
    while run.done < n {
        let block = &Block::new(WORKERS, BIRTH_ROWS);
        for thread in 1..=WORKERS {
            let mut hand = Hand::worker(thread, BIRTH_ROWS);
            let most = (n - run.done).min(BIRTH_ROWS);
            let first = hand.first_row;
            let start = Instant::now();
            let made = (0..most).filter(|&argument| birth(&mut hand, block, KIND, black_box(argument)).is_some()).count();
            run.slowest += start.elapsed();
            run.done += made as u64;
            for row in first..first + most {
                assert_eq!(block.counts(row), [local_word(thread, 1), ZERO_DEFAULT, GATE_FREE], "one reference");
            }
        }
    }
    run
}

/// Gives birth to a number, gives its only reference up, and finalises it. Returns whether the number died, or `None` if
/// there is no room for it.
fn life(hand: &mut Hand, block: &Block, argument: u64) -> Option<bool> {
    let row = birth(hand, block, KIND, black_box(argument))?;
    let dies = release(hand, block, black_box(row)) == Release::Dying;
    settle(hand, block);
    Some(dies)
}

/// Makes `n` lives, by one worker after another, over as many blocks as it takes. The blocks are made outside the time.
fn lives(n: u64) -> Run {
    let mut run = Run { done: 0, slowest: Duration::ZERO };
    while run.done < n {
        let block = &Block::new(WORKERS, BIRTH_ROWS);
        for thread in 1..=WORKERS {
            let mut hand = Hand::worker(thread, BIRTH_ROWS);
            let most = (n - run.done).min(BIRTH_ROWS);
            let first = hand.first_row;
            let start = Instant::now();
            let made = (0..most).filter(|&argument| life(&mut hand, block, argument) == Some(true)).count();
            run.slowest += start.elapsed();
            run.done += made as u64;
            for row in first..first + most {
                assert_eq!(block.counts(row), [local_word(thread, 0), ZERO_DEFAULT, GATE_CLOSED], "closed");
            }
        }
    }
    run
}

/// Locks the list `row`, swaps an item of it for the one held, and unlocks it, `n` times. Returns `n`.
fn locked_swaps(hand: &mut Hand, block: &Block, row: u64, held: &mut Option<u64>, n: u64) -> u64 {
    // The threads' items may be in one cache line, so each thread takes a copy of its own.
    let mut item = *held;
    for _ in 0..n {
        while !try_lock(hand, block, row) {}
        item = swap_item(block, row, CELL, item);
        unlock(block, row);
    }
    *held = item;
    n
}

/// Returns how many cells `row` has.
fn size(block: &Block, row: u64) -> u64 {
    let kind = block.word(Field::Kind, black_box(row)).load(SeqCst);
    if kind / HIGH_ONE == LIST_KIND { kind % HIGH_ONE } else { 0 }
}

/// Swaps the cell of the root, under its lock.
fn at_root(hand: &mut Hand, block: &Block, item: Option<u64>) -> Option<u64> {
    assert!(try_lock(hand, block, ROOT_ROW));
    assert!(size(block, ROOT_ROW) > CELL);
    let found = swap_item(block, ROOT_ROW, CELL, item);
    unlock(block, ROOT_ROW);
    found
}

/// The owner gives birth to a number and hands it to the other worker, which gives it up and posts it. Returns whether
/// the owner has to merge it, or `None` if it has no room.
fn turn(owner: &mut Hand, other: &mut Hand, block: &Block, argument: u64) -> Option<bool> {
    let item = birth(owner, block, KIND, black_box(argument))?;
    assert_eq!(at_root(owner, block, Some(item)), None);
    let row = at_root(other, block, None)?;
    Some(release(other, block, row) == Release::Queued && post(block, row))
}

/// Makes `n` turns of two workers, over as many blocks as it takes. At the end of a block its owner merges what was
/// posted. The blocks are made outside the time.
fn turns(n: u64) -> Run {
    let mut run = Run { done: 0, slowest: Duration::ZERO };
    while run.done < n {
        let block = &Block::new(WORKERS, BIRTH_ROWS);
        let (mut owner, mut other) = (Hand::worker(1, BIRTH_ROWS), Hand::worker(2, BIRTH_ROWS));
        block.words[1].store(RUNNING, SeqCst);
        block.words[2].store(RUNNING, SeqCst);
        let most = (n - run.done).min(BIRTH_ROWS);
        let first = owner.first_row;
        let start = Instant::now();
        let made = (0..most).filter(|&argument| turn(&mut owner, &mut other, block, argument) == Some(true)).count();
        let merged = merge_pending(&mut owner, block);
        run.slowest += start.elapsed();
        assert_eq!(merged, made as u64, "each posted row is merged");
        run.done += merged;
        for row in first..first + most {
            assert_eq!(block.counts(row), [NO_OWNER, ZERO_MERGED, GATE_CLOSED], "closed");
        }
    }
    run
}

/// Gives up the reference to `row`, and puts it into its owner's queue. Returns whether the owner has to merge it.
fn posts(hand: &mut Hand, block: &Block, row: u64) -> bool {
    release_local(hand, block, row) == LocalRelease::Share
        && try_release_shared(hand, block, row) == SharedRelease::Queued
        && post(block, row)
}

/// How a batch was posted, and how it was merged.
struct Batch {
    posts: Run,
    merges: Run,
}

/// Posts and merges `n` rows, in a batch for each block. In each the owner gives birth to numbers and hands them to the
/// other worker, which posts them, and the owner merges them. Only the posting and the merging are timed.
fn batches(n: u64) -> Batch {
    let run = || Run { done: 0, slowest: Duration::ZERO };
    let mut all = Batch { posts: run(), merges: run() };
    while all.merges.done < n {
        let block = &Block::new(WORKERS, BIRTH_ROWS);
        let (mut owner, mut other) = (Hand::worker(1, BIRTH_ROWS), Hand::worker(2, BIRTH_ROWS));
        block.words[1].store(RUNNING, SeqCst);
        block.words[2].store(RUNNING, SeqCst);
        let most = (n - all.merges.done).min(BIRTH_ROWS);
        let first = owner.first_row;
        let mut rows = VecDeque::new();
        for argument in 0..most {
            let item = birth(&mut owner, block, KIND, black_box(argument)).unwrap();
            assert_eq!(at_root(&mut owner, block, Some(item)), None);
            rows.push_front(at_root(&mut other, block, None).unwrap());
        }
        let mut posted = 0;
        let start = Instant::now();
        while let Some(row) = rows.pop_front() {
            assert!(posts(&mut other, block, row));
            posted += 1;
        }
        all.posts.slowest += start.elapsed();
        let start = Instant::now();
        let merged = merge_pending(&mut owner, block);
        all.merges.slowest += start.elapsed();
        assert_eq!((posted, merged), (most, most), "each row is posted and merged");
        all.posts.done += posted;
        all.merges.done += merged;
        for row in first..first + most {
            assert_eq!(block.counts(row), [NO_OWNER, ZERO_MERGED, GATE_CLOSED], "closed");
        }
    }
    all
}

/// Makes `n` locked swaps on each of `threads` threads, at the first worker's list if it is alone, else at the root.
fn listed(threads: u64, n: u64) -> Run {
    let block = &Block::new(WORKERS, ROWS_EACH);
    let mut hands: Vec<Hand> = (1..=threads).map(|thread| Hand::worker(thread, ROWS_EACH)).collect();
    let list = if threads == 1 { birth(&mut hands[0], block, LIST_KIND, CELLS).unwrap() } else { ROOT_ROW };
    let mut held: Vec<Option<u64>> = hands.iter_mut().map(|hand| birth(hand, block, KIND, 0)).collect();
    let items = |held: &[Option<u64>]| {
        let cell = block.cell(list, CELL).load(SeqCst).checked_sub(1);
        let mut items: Vec<u64> = held.iter().copied().chain([cell]).flatten().collect();
        items.sort();
        items
    };

    let before = items(&held);
    let acting = hands.iter_mut().zip(&mut held);
    let run = run_together(acting.map(|(hand, held)| move |n| locked_swaps(hand, block, list, held, n)).collect(), n);
    assert_eq!(items(&held), before, "each item is in one place");
    assert_eq!(block.word(Field::Gate, list).load(SeqCst), GATE_FREE, "nobody has locked the list");
    run
}

/// A list of numbers, and its lock.
type Locked = Mutex<[Option<Arc<u32>>; CELLS as usize]>;

/// Locks the list, swaps an item of it for the one held, and unlocks it, `n` times. Returns `n`.
fn mutex_swaps(list: &Arc<Locked>, held: &mut Option<Arc<u32>>, n: u64) -> u64 {
    let mut item = held.take();
    for _ in 0..n {
        mem::swap(&mut black_box(list).lock().unwrap()[CELL as usize], &mut item);
    }
    *held = item;
    n
}

/// Makes `n` locked swaps on each of `threads` threads, all at one list behind a `Mutex`.
fn one_mutex(threads: u32, n: u64) -> Run {
    let list: Arc<Locked> = Arc::default();
    let mut held: Vec<Option<Arc<u32>>> = (0..threads).map(|thread| Some(Arc::new(thread))).collect();
    let jobs = held.iter_mut().map(|held| {
        let list = Arc::clone(&list);
        move |n| mutex_swaps(&list, held, n)
    });
    let run = run_together(jobs.collect(), n);
    let cell = list.lock().unwrap()[CELL as usize].take();
    let mut items: Vec<u32> = held.into_iter().chain([cell]).flatten().map(|item| *item).collect();
    items.sort();
    assert!(items.into_iter().eq(0..threads), "each item is in one place");
    run
}

/// Clones and drops `arc` `n` times, and returns `n`.
fn arc_pairs<T>(arc: &Arc<T>, n: u64) -> u64 {
    for _ in 0..n {
        drop(Arc::clone(black_box(arc)));
    }
    n
}

/// Runs `n` pairs on each of `threads` threads, all at one `Arc`.
fn one_arc(threads: u64, n: u64) -> Run {
    let arc = &Arc::new(7_u64);
    let run = run_together((0..threads).map(|_| move |n| arc_pairs(arc, n)).collect(), n);
    assert_eq!(Arc::strong_count(arc), 1, "the count ends as it began");
    run
}

/// A number that keeps its `Arc` off the cache lines of others. The allocator puts several `Arc<u64>` on one line.
#[repr(align(128))]
struct Apart(#[allow(dead_code)] u64);

/// Runs `n` pairs on each of `threads` threads, each at an `Arc` of its own.
fn own_arcs(threads: u64, n: u64) -> Run {
    let arcs: Vec<Arc<Apart>> = (0..threads).map(|thread| Arc::new(Apart(thread))).collect();
    let run = run_together(arcs.iter().map(|arc| move |n| arc_pairs(arc, n)).collect(), n);
    assert!(arcs.iter().all(|arc| Arc::strong_count(arc) == 1), "each count ends as it began");
    run
}

/// A row of the table: its name, what runs it, its threads, and each thread's operations with `--time`.
type TableRow = (&'static str, fn(u64) -> Run, u64, u64);

const RUNS: usize = 9;
const SMALL: u64 = 1_000;
const PAIRS: u64 = 5_000_000;
const BIRTHS: u64 = 1_000_000;
const POSTS: u64 = 500_000;
const SWAPS: u64 = 2_000_000;

const TABLE: [TableRow; 20] = [
    ("biased: the owner alone (main at the root)", |n| counted(&[(0, 0)], n), 1, PAIRS),
    ("biased: another thread alone (at the root)", |n| counted(&[(1, 0)], n), 1, PAIRS),
    ("biased: owner and another at one row", |n| counted(&[(0, 0), (1, 0)], n), 2, PAIRS),
    ("biased: 1 thread, own row", |n| counted(&[(1, 1)], n), 1, PAIRS),
    ("biased: 2 threads, own rows", |n| counted(&[(1, 1), (2, 2)], n), 2, PAIRS),
    ("biased: 4 threads, own rows", |n| counted(&[(1, 1), (2, 2), (3, 3), (4, 4)], n), 4, PAIRS),
    ("biased: births", births, 1, BIRTHS),
    ("biased: birth and death", lives, 1, BIRTHS),
    ("biased: hand over, post and merge", turns, 1, POSTS),
    ("biased: post", |n| batches(n).posts, 1, POSTS),
    ("biased: merge", |n| batches(n).merges, 1, POSTS),
    ("biased: locked swap, 1 thread, own list", |n| listed(1, n), 1, SWAPS),
    ("biased: locked swap, 2 threads, one list", |n| listed(2, n), 2, SWAPS),
    ("Arc: alone", |n| one_arc(1, n), 1, PAIRS),
    ("Arc: two threads at one Arc", |n| one_arc(2, n), 2, PAIRS),
    ("Arc: 1 thread, own Arc", |n| own_arcs(1, n), 1, PAIRS),
    ("Arc: 2 threads, own Arcs", |n| own_arcs(2, n), 2, PAIRS),
    ("Arc: 4 threads, own Arcs", |n| own_arcs(4, n), 4, PAIRS),
    ("Mutex: locked swap, 1 thread, own list", |n| one_mutex(1, n), 1, SWAPS),
    ("Mutex: locked swap, 2 threads, one list", |n| one_mutex(2, n), 2, SWAPS),
];

/// Runs `n` operations on each of `threads` threads, and asserts that all went as they should.
fn checked(run: fn(u64) -> Run, threads: u64, n: u64) -> Run {
    let run = run(n);
    assert_eq!(run.done, threads * n);
    run
}

/// Returns the nanoseconds of one operation of a thread: the median of all runs.
fn median_ns(run: fn(u64) -> Run, threads: u64, n: u64) -> f64 {
    let mut times: Vec<Duration> = (0..RUNS).map(|_| checked(run, threads, n).slowest).collect();
    times.sort();
    times[RUNS / 2].as_nanos() as f64 / n as f64
}

fn main() {
    let time = std::env::args().any(|argument| argument == "--time");
    for (name, run, threads, n) in TABLE {
        if time {
            println!("{name:<44}{:>8.1}", median_ns(run, threads, n));
        } else {
            println!("{name:<44}{:>8}", checked(run, threads, SMALL).done);
        }
    }
}
