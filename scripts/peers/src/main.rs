//! The workloads of `crates/bench` on the Rust crates that callers would take instead:
//!
//!     peers LIBRARY WORKLOAD THREADS [OPERATIONS]
//!
//! prints the nanoseconds of one operation, of one run; or where threads share a mutex for a while, the longest wait, the
//! smallest share, or how often one had it that comes seldom. The loops stand in `region`, which is never inlined, so that
//! callgrind can count it. A library that lacks a workload prints nothing, with status 2.

use futures_lite::future::{block_on, zip};
use std::future::Future;
use std::hint::spin_loop;
use std::mem::forget;
use std::sync::{Condvar, Mutex};
use std::thread;
use std::time::{Duration, Instant};

/// What is sent.
const MESSAGE: u64 = 7;

/// A semaphore of the standard library's parts.
struct Counted(Mutex<usize>, Condvar);

impl Counted {
    fn new(permits: usize) -> Self {
        Counted(Mutex::new(permits), Condvar::new())
    }

    fn acquire(&self) {
        let mut free = self
            .1
            .wait_while(self.0.lock().unwrap(), |free| *free == 0)
            .unwrap();
        *free -= 1;
    }

    fn release(&self) {
        *self.0.lock().unwrap() += 1;
        self.1.notify_one();
    }
}

#[inline(never)]
fn region(operations: u64, mut operation: impl FnMut()) {
    for _ in 0..operations {
        operation();
    }
}

/// So many threads do the operation so often each, as the thread of that index.
fn each(threads: u64, operations: u64, operation: impl Fn(u64) + Sync) -> Duration {
    let operation = &operation;
    let began = Instant::now();
    thread::scope(|scope| {
        for index in 1..threads {
            scope.spawn(move || region(operations, || operation(index)));
        }
        region(operations, || operation(0));
    });
    began.elapsed()
}

/// The same, so often in all.
fn share(threads: u64, operations: u64, operation: impl Fn() + Sync) -> Duration {
    each(threads, operations / threads, |_| operation())
}

/// One thread does the one, another the other.
fn both(operations: u64, one: impl FnMut(), other: impl FnMut() + Send) -> Duration {
    let began = Instant::now();
    thread::scope(|scope| {
        scope.spawn(|| region(operations, other));
        region(operations, one);
    });
    began.elapsed()
}

/// So many threads send, and as many receive.
fn pass(
    threads: u64,
    messages: u64,
    send: impl Fn(u64) + Sync,
    receive: impl Fn() -> u64 + Sync,
) -> Duration {
    each(threads * 2, messages / threads, |index| {
        if index % 2 == 0 {
            send(MESSAGE);
        } else {
            assert_eq!(receive(), MESSAGE);
        }
    })
}

/// One thread sends, and one receives, which owns its receiver.
fn pass_to_one(
    messages: u64,
    mut send: impl FnMut(u64),
    mut receive: impl FnMut() -> u64 + Send,
) -> Duration {
    both(
        messages,
        || send(MESSAGE),
        move || assert_eq!(receive(), MESSAGE),
    )
}

/// A task waits for a message that another sends. One thread awaits both, message after message, in one executor.
fn pass_in_tasks<S, R>(messages: u64, send: impl Fn() -> S, receive: impl Fn() -> R) -> Duration
where
    S: Future<Output = bool>,
    R: Future<Output = bool>,
{
    let began = Instant::now();
    region(1, || {
        block_on(async {
            for _ in 0..messages {
                assert_eq!(zip(receive(), send()).await, (true, true));
            }
        })
    });
    began.elapsed()
}

/// One thread sends a message and receives it.
fn alone<S, R>(
    messages: u64,
    send: impl Fn(u64) -> Result<(), S>,
    mut receive: impl FnMut() -> Result<u64, R>,
) -> Duration {
    let began = Instant::now();
    region(messages, || {
        assert!(send(MESSAGE).is_ok() && receive().is_ok_and(|message| message == MESSAGE))
    });
    began.elapsed()
}

/// The capacity of a channel: none has any.
fn capacity(workload: &str) -> Option<Option<usize>> {
    match workload {
        "channel_1" => Some(Some(1)),
        "channel_128" => Some(Some(128)),
        "channel_unbounded" => Some(None),
        _ => None,
    }
}

fn time(library: &str, workload: &str, threads: u64, n: u64) -> Option<Duration> {
    let permits = if workload == "semaphore_3" { 3 } else { 1 };
    Some(match (library, workload) {
        ("async-lock", "mutex_lock") => {
            let mutex = async_lock::Mutex::new(0u64);
            share(threads, n, || *block_on(mutex.lock()) += 1)
        }
        ("async-lock", "mutex_try") => {
            let mutex = async_lock::Mutex::new(0u64);
            share(threads, n, || *mutex.try_lock().unwrap() += 1)
        }
        ("async-lock", "semaphore" | "semaphore_3") => {
            let semaphore = async_lock::Semaphore::new(permits);
            share(threads, n, || drop(block_on(semaphore.acquire())))
        }
        ("async-lock", "handover") => {
            // It can't add permits: each side takes all of the other's first, and gives them back.
            let a = async_lock::Semaphore::new(n as usize);
            let b = async_lock::Semaphore::new(n as usize);
            let mut of_a: Vec<_> = (0..n).map(|_| a.try_acquire()).collect();
            let mut of_b: Vec<_> = (0..n).map(|_| b.try_acquire()).collect();
            both(
                n,
                || {
                    drop(of_b.pop());
                    forget(block_on(a.acquire()));
                },
                || {
                    forget(block_on(b.acquire()));
                    drop(of_a.pop());
                },
            )
        }
        ("async-lock", "read") => {
            let lock = async_lock::RwLock::new(0u64);
            share(threads, n, || drop(block_on(lock.read())))
        }
        ("async-lock", "write") => {
            let lock = async_lock::RwLock::new(0u64);
            share(threads, n, || *block_on(lock.write()) += 1)
        }
        ("async-lock", "barrier") => {
            let barrier = async_lock::Barrier::new(threads as usize);
            each(threads, n, |_| drop(block_on(barrier.wait())))
        }

        ("tokio", "mutex_lock") => {
            let mutex = tokio::sync::Mutex::new(0u64);
            share(threads, n, || *mutex.blocking_lock() += 1)
        }
        ("tokio", "mutex_try") => {
            let mutex = tokio::sync::Mutex::new(0u64);
            share(threads, n, || *mutex.try_lock().unwrap() += 1)
        }
        ("tokio", "semaphore" | "semaphore_3") => {
            let semaphore = tokio::sync::Semaphore::new(permits);
            share(threads, n, || drop(block_on(semaphore.acquire()).unwrap()))
        }
        ("tokio", "handover") => {
            let a = tokio::sync::Semaphore::new(0);
            let b = tokio::sync::Semaphore::new(0);
            both(
                n,
                || {
                    b.add_permits(1);
                    block_on(a.acquire()).unwrap().forget();
                },
                || {
                    block_on(b.acquire()).unwrap().forget();
                    a.add_permits(1);
                },
            )
        }
        ("tokio", "read") => {
            let lock = tokio::sync::RwLock::new(0u64);
            share(threads, n, || drop(lock.blocking_read()))
        }
        ("tokio", "write") => {
            let lock = tokio::sync::RwLock::new(0u64);
            share(threads, n, || *lock.blocking_write() += 1)
        }
        ("tokio", "barrier") => {
            let barrier = tokio::sync::Barrier::new(threads as usize);
            each(threads, n, |_| drop(block_on(barrier.wait())))
        }

        ("parking_lot", "mutex_lock") => {
            let mutex = parking_lot::Mutex::new(0u64);
            share(threads, n, || *mutex.lock() += 1)
        }
        ("parking_lot", "mutex_try") => {
            let mutex = parking_lot::Mutex::new(0u64);
            share(threads, n, || *mutex.try_lock().unwrap() += 1)
        }
        ("parking_lot", "read") => {
            let lock = parking_lot::RwLock::new(0u64);
            share(threads, n, || drop(lock.read()))
        }
        ("parking_lot", "write") => {
            let lock = parking_lot::RwLock::new(0u64);
            share(threads, n, || *lock.write() += 1)
        }

        ("std", "mutex_lock") => {
            let mutex = Mutex::new(0u64);
            share(threads, n, || *mutex.lock().unwrap() += 1)
        }
        ("std", "mutex_try") => {
            let mutex = Mutex::new(0u64);
            share(threads, n, || *mutex.try_lock().unwrap() += 1)
        }
        ("std", "semaphore" | "semaphore_3") => {
            let semaphore = Counted::new(permits);
            share(threads, n, || {
                semaphore.acquire();
                semaphore.release();
            })
        }
        ("std", "handover") => {
            let (a, b) = (Counted::new(0), Counted::new(0));
            both(
                n,
                || {
                    b.release();
                    a.acquire();
                },
                || {
                    b.acquire();
                    a.release();
                },
            )
        }
        ("std", "read") => {
            let lock = std::sync::RwLock::new(0u64);
            share(threads, n, || drop(lock.read().unwrap()))
        }
        ("std", "write") => {
            let lock = std::sync::RwLock::new(0u64);
            share(threads, n, || *lock.write().unwrap() += 1)
        }
        ("std", "barrier") => {
            let barrier = std::sync::Barrier::new(threads as usize);
            each(threads, n, |_| drop(barrier.wait()))
        }

        ("async-channel", "channel_alone") => {
            let (sender, receiver) = async_channel::bounded(128);
            alone(n, |m| sender.try_send(m), || receiver.try_recv())
        }
        ("async-channel", "channel_tasks") => {
            let (sender, receiver) = async_channel::bounded(3);
            let (sender, receiver) = (&sender, &receiver);
            pass_in_tasks(
                n,
                || async move { sender.send(MESSAGE).await.is_ok() },
                || async move { receiver.recv().await == Ok(MESSAGE) },
            )
        }
        ("async-channel", _) => {
            let (sender, receiver) =
                capacity(workload)?.map_or_else(async_channel::unbounded, async_channel::bounded);
            pass(
                threads,
                n,
                |m| sender.send_blocking(m).unwrap(),
                || receiver.recv_blocking().unwrap(),
            )
        }
        ("crossbeam-channel", "channel_alone") => {
            let (sender, receiver) = crossbeam_channel::bounded(128);
            alone(n, |m| sender.try_send(m), || receiver.try_recv())
        }
        ("crossbeam-channel", _) => {
            let (sender, receiver) = capacity(workload)?
                .map_or_else(crossbeam_channel::unbounded, crossbeam_channel::bounded);
            pass(
                threads,
                n,
                |m| sender.send(m).unwrap(),
                || receiver.recv().unwrap(),
            )
        }
        ("flume", "channel_alone") => {
            let (sender, receiver) = flume::bounded(128);
            alone(n, |m| sender.try_send(m), || receiver.try_recv())
        }
        ("flume", "channel_tasks") => {
            let (sender, receiver) = flume::bounded(3);
            let (sender, receiver) = (&sender, &receiver);
            pass_in_tasks(
                n,
                || async move { sender.send_async(MESSAGE).await.is_ok() },
                || async move { receiver.recv_async().await == Ok(MESSAGE) },
            )
        }
        ("flume", _) => {
            let (sender, receiver) =
                capacity(workload)?.map_or_else(flume::unbounded, flume::bounded);
            pass(
                threads,
                n,
                |m| sender.send(m).unwrap(),
                || receiver.recv().unwrap(),
            )
        }
        ("std-channel", "channel_alone") => {
            let (sender, receiver) = std::sync::mpsc::sync_channel(128);
            alone(n, |m| sender.try_send(m), || receiver.try_recv())
        }
        ("std-channel", "channel_unbounded") if threads == 1 => {
            let (sender, receiver) = std::sync::mpsc::channel();
            pass_to_one(
                n,
                |m| sender.send(m).unwrap(),
                move || receiver.recv().unwrap(),
            )
        }
        ("std-channel", _) if threads == 1 => {
            let (sender, receiver) = std::sync::mpsc::sync_channel(capacity(workload)??);
            pass_to_one(
                n,
                |m| sender.send(m).unwrap(),
                move || receiver.recv().unwrap(),
            )
        }
        ("tokio-channel", "channel_alone") => {
            let (sender, mut receiver) = tokio::sync::mpsc::channel(128);
            alone(n, |m| sender.try_send(m), || receiver.try_recv())
        }
        ("tokio-channel", "channel_unbounded") if threads == 1 => {
            let (sender, mut receiver) = tokio::sync::mpsc::unbounded_channel();
            pass_to_one(
                n,
                |m| sender.send(m).unwrap(),
                move || receiver.blocking_recv().unwrap(),
            )
        }
        ("tokio-channel", _) if threads == 1 => {
            let (sender, mut receiver) = tokio::sync::mpsc::channel(capacity(workload)??);
            pass_to_one(
                n,
                |m| sender.blocking_send(m).unwrap(),
                move || receiver.blocking_recv().unwrap(),
            )
        }
        _ => return None,
    })
}

/// So long a thread holds a mutex that is shared.
const HOLDS: Duration = Duration::from_micros(20);

/// So long a thread stays away that comes seldom.
const AWAY: Duration = Duration::from_millis(1);

/// Calls something while it has a mutex.
type Lock<'a> = &'a (dyn Fn(&mut dyn FnMut()) + Sync);

/// Does something with a mutex of this library.
fn with_mutex<A>(library: &str, does: impl FnOnce(Lock<'_>) -> A) -> Option<A> {
    Some(match library {
        "async-lock" => {
            let mutex = async_lock::Mutex::new(0u64);
            does(&|work| {
                let mut count = block_on(mutex.lock());
                *count += 1;
                work()
            })
        }
        "tokio" => {
            let mutex = tokio::sync::Mutex::new(0u64);
            does(&|work| {
                let mut count = mutex.blocking_lock();
                *count += 1;
                work()
            })
        }
        "parking_lot" => {
            let mutex = parking_lot::Mutex::new(0u64);
            does(&|work| {
                let mut count = mutex.lock();
                *count += 1;
                work()
            })
        }
        "std" => {
            let mutex = Mutex::new(0u64);
            does(&|work| {
                let mut count = mutex.lock().unwrap();
                *count += 1;
                work()
            })
        }
        _ => return None,
    })
}

/// A thread has the mutex again and again, for so long each time, and stays away for so long in between. Returns how often, and
/// its longest wait.
fn hammers(lock: Lock<'_>, ends: Instant, holds: Duration, away: Duration) -> (u64, Duration) {
    let (mut locks, mut longest) = (0, Duration::ZERO);
    loop {
        let asked = Instant::now();
        if asked >= ends {
            return (locks, longest);
        }
        lock(&mut || {
            let had = Instant::now();
            longest = longest.max(had - asked);
            while had.elapsed() < holds {
                spin_loop();
            }
        });
        locks += 1;
        if !away.is_zero() {
            thread::sleep(away);
        }
    }
}

/// How so many threads share a mutex in so many milliseconds.
fn shares(library: &str, workload: &str, threads: u64, millis: u64) -> Option<String> {
    let ends = Instant::now() + Duration::from_millis(millis);
    let shares: Vec<(u64, Duration)> = with_mutex(library, |lock| {
        thread::scope(|scope| {
            let spawn = |index| {
                let (holds, away) = match (workload, index) {
                    ("seldom", 0) => (Duration::ZERO, AWAY),
                    _ => (HOLDS, Duration::ZERO),
                };
                scope.spawn(move || hammers(lock, ends, holds, away))
            };
            let threads: Vec<_> = (0..threads).map(spawn).collect();
            threads.into_iter().map(|it| it.join().unwrap()).collect()
        })
    })?;
    let all: u64 = shares.iter().map(|share| share.0).sum();
    let least = shares.iter().map(|share| share.0).min()?;
    let longest = shares.iter().map(|share| share.1).max()?;
    Some(match workload {
        "longest_wait" => format!("{:.1} us at most", longest.as_nanos() as f64 / 1e3),
        "smallest_share" => format!("{:.1} percent", (least * threads * 100) as f64 / all as f64),
        _ => format!("{:.1} locks", shares[0].0 as f64),
    })
}

/// How many operations a run has, or milliseconds where threads share a mutex, as in `crates/bench`.
fn operations(workload: &str, threads: u64) -> u64 {
    match workload {
        "handover" | "barrier" => 20_000,
        "longest_wait" | "smallest_share" => 2_000,
        "seldom" => 3_000,
        "channel_alone" => 1_000_000,
        channel if channel.starts_with("channel") => 100_000,
        _ if threads == 1 => 1_000_000,
        _ => 200_000,
    }
}

fn main() {
    let words: Vec<String> = std::env::args().skip(1).collect();
    let [library, workload, threads, rest @ ..] = &words[..] else {
        eprintln!("usage: peers LIBRARY WORKLOAD THREADS [OPERATIONS]");
        std::process::exit(1);
    };
    let threads = threads.parse().expect("a number of threads");
    let n = match rest.first() {
        Some(n) => n.parse().expect("a number of operations"),
        None => operations(workload, threads),
    };
    let measured = match &workload[..] {
        "longest_wait" | "smallest_share" | "seldom" => shares(library, workload, threads, n),
        _ => time(library, workload, threads, n)
            .map(|time| format!("{:.1} ns per op", time.as_nanos() as f64 / n as f64)),
    };
    match measured {
        Some(measured) => println!("{measured}"),
        None => std::process::exit(2),
    }
}
