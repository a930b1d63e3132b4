//! Callers and counters, each on a thread of its own: add_calls CALLERS COUNTERS CALLS wait|future own|both TURNS.
//!
//! A caller calls one counter, or all in turns. A counter has an unbounded channel for an inbox, that of std or, with the
//! feature `crossbeam`, that of crossbeam-channel. A call carries a future, which the counter fills with its total.
//! Prints the microseconds of each turn, from the callers' start to their end.
#[cfg(feature = "crossbeam")]
use crossbeam_channel::{unbounded as channel, Receiver, Sender};
#[cfg(not(feature = "crossbeam"))]
use std::sync::mpsc::{channel, Receiver, Sender};
use std::sync::{Arc, Condvar, Mutex};
use std::thread;
use std::time::Instant;

#[derive(Default)]
struct Future {
    answer: Mutex<Option<i64>>,
    there: Condvar,
}

impl Future {
    fn keep(&self, total: i64) {
        *self.answer.lock().unwrap() = Some(total);
        self.there.notify_one();
    }

    fn get(&self) -> i64 {
        let mut answer = self.answer.lock().unwrap();
        loop {
            if let Some(total) = *answer {
                return total;
            }
            answer = self.there.wait(answer).unwrap();
        }
    }
}

enum Call {
    Add(i64, Arc<Future>),
    Stop,
}

fn count(inbox: Receiver<Call>) -> i64 {
    let mut total = 0;
    while let Ok(Call::Add(number, future)) = inbox.recv() {
        total += number;
        future.keep(total);
    }
    total
}

fn add_one(counter: &Sender<Call>) -> Arc<Future> {
    let future = Arc::new(Future::default());
    counter.send(Call::Add(1, future.clone())).unwrap();
    future
}

/// Calls the counters in turns.
fn call(counters: &[Sender<Call>], calls: usize, waits: bool) {
    let turns = counters.iter().cycle().take(calls);
    if waits {
        turns.for_each(|counter| {
            add_one(counter).get();
        });
    } else {
        let futures: Vec<_> = turns.map(add_one).collect();
        for future in &futures {
            future.get();
        }
    }
}

fn take_turn(crew: (usize, usize), calls: usize, waits: bool, own: bool) {
    let (counters, counting): (Vec<_>, Vec<_>) = (0..crew.1)
        .map(|_| {
            let (counter, inbox) = channel();
            (counter, thread::spawn(move || count(inbox)))
        })
        .unzip();
    let begin = Instant::now();
    let callers: Vec<_> = (0..crew.0)
        .map(|caller| {
            let called = if own { vec![counters[caller % crew.1].clone()] } else { counters.clone() };
            thread::spawn(move || call(&called, calls, waits))
        })
        .collect();
    for caller in callers {
        caller.join().unwrap();
    }
    let took = begin.elapsed();
    for counter in &counters {
        counter.send(Call::Stop).unwrap();
    }
    let total: i64 = counting.into_iter().map(|counter| counter.join().unwrap()).sum();
    assert_eq!(total, (crew.0 * calls) as i64);
    println!("{} us", took.as_micros());
}

fn main() {
    let words: Vec<_> = std::env::args().collect();
    let number = |place: usize| words[place].parse::<usize>().unwrap();
    for _ in 0..number(6) {
        take_turn((number(1), number(2)), number(3), words[4] == "wait", words[5] == "own");
    }
}
