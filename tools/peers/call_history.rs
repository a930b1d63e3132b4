//! Callers and counters, each on a thread of its own, that leave a history for `./check`:
//! call_history CALLERS COUNTERS CALLS SEED correct|two_senders|run_twice.
//!
//! Each caller makes so many random calls, `add` or `get`, and waits for some answers, which it adds to a counter. A
//! caller writes down what it submits and waits for, and a counter what it runs. Inboxes are channels of std or, with
//! the feature `crossbeam`, of crossbeam-channel.
//!
//! One caller may have a fault, at two calls in a row to one counter. With `two_senders` each is sent by a thread of
//! its own, and the first thread begins once the second has its answer. With `run_twice` the first call is sent again,
//! as by a retry after a lost answer.
#[cfg(feature = "crossbeam")]
use crossbeam_channel::{unbounded as channel, Receiver, Sender};
#[cfg(not(feature = "crossbeam"))]
use std::sync::mpsc::{channel, Receiver, Sender};
use std::fmt;
use std::thread::{self, JoinHandle};

#[derive(Clone, Copy, PartialEq)]
enum Fault {
    TwoSenders,
    RunTwice,
}

#[derive(Clone, Copy)]
enum Method {
    Add(i64),
    Get,
}

impl fmt::Display for Method {
    fn fmt(&self, f: &mut fmt::Formatter) -> fmt::Result {
        match self {
            Method::Add(number) => write!(f, "add {number}"),
            Method::Get => f.write_str("get"),
        }
    }
}

/// The number of a call, and its answer.
type Reply = (usize, i64);

#[derive(Clone)]
struct Call {
    caller: usize,
    number: usize,
    method: Method,
    reply: Sender<Reply>,
}

enum Letter {
    Call(Call),
    Stop,
}

/// A counter's total, and the calls that it ran.
fn count(inbox: Receiver<Letter>) -> (i64, Vec<String>) {
    let (mut total, mut ran) = (0, vec![]);
    while let Ok(Letter::Call(call)) = inbox.recv() {
        ran.push(format!("c{}.{} {}", call.caller, call.number, call.method));
        if let Method::Add(number) = call.method {
            total += number;
        }
        call.reply.send((call.number, total)).unwrap();
    }
    (total, ran)
}

/// Random numbers that a seed gives: xorshift.
struct Chance(u64);

impl Chance {
    fn below(&mut self, most: usize) -> usize {
        self.0 ^= self.0 << 13;
        self.0 ^= self.0 >> 7;
        self.0 ^= self.0 << 17;
        (self.0 % most as u64) as usize
    }
}

struct Caller {
    me: usize,
    counters: Vec<Sender<Letter>>,
    chance: Chance,
    reply: Sender<Reply>,
    replies: Receiver<Reply>,
    steps: Vec<String>,
    called: Vec<usize>,
    answers: Vec<Option<i64>>,
    due: usize,
    senders: Vec<JoinHandle<()>>,
}

/// What a caller leaves: its steps, and of each call its counter and its answer.
struct Did {
    steps: Vec<String>,
    called: Vec<usize>,
    answers: Vec<i64>,
}

impl Caller {
    fn new(me: usize, counters: Vec<Sender<Letter>>, seed: usize) -> Caller {
        let (reply, replies) = channel();
        let chance = Chance((seed * 7919 + me * 104_729 + 1) as u64);
        let (steps, called, answers, senders) = (vec![], vec![], vec![], vec![]);
        Caller { me, counters, chance, reply, replies, steps, called, answers, due: 0, senders }
    }

    fn take_answer(&mut self) {
        let (number, total) = self.replies.recv().unwrap();
        self.answers[number].get_or_insert(total);
        self.due -= 1;
    }

    fn wait(&mut self, number: usize) -> i64 {
        loop {
            if let Some(total) = self.answers[number] {
                return total;
            }
            self.take_answer();
        }
    }

    /// Writes a call down, which isn't sent yet.
    fn submit(&mut self, counter: usize, method: Method, words: String) -> Call {
        let number = self.called.len();
        self.steps.push(format!("submit c{} a{} {words}", self.me, counter + 1));
        self.called.push(counter);
        self.answers.push(None);
        self.due += 1;
        Call { caller: self.me, number, method, reply: self.reply.clone() }
    }

    fn send(&self, call: Call) {
        self.counters[self.called[call.number]].send(Letter::Call(call)).unwrap();
    }

    fn random_call(&mut self) {
        let (counter, number) = (self.chance.below(self.counters.len()), self.called.len());
        let plain = self.chance.below(9) as i64 + 1;
        let (method, words) = match self.chance.below(10) {
            0..=1 if number > 0 => {
                let waited = self.chance.below(number);
                self.steps.push(format!("await c{} {waited}", self.me));
                (Method::Add(self.wait(waited)), format!("add @{waited}"))
            }
            0..=3 => (Method::Get, "get".into()),
            _ => (Method::Add(plain), format!("add {plain}")),
        };
        let call = self.submit(counter, method, words);
        self.send(call);
    }

    /// Two calls in a row to one counter, the second of which comes first, or the first of which is sent again.
    fn faulty_calls(&mut self, fault: Fault) {
        let counter = self.chance.below(self.counters.len());
        let [first, second] = [1, 2].map(|number| self.submit(counter, Method::Add(number), format!("add {number}")));
        match fault {
            Fault::TwoSenders => {
                println!("# planted: c{}.{} is sent after c{0}.{}", self.me, first.number, second.number);
                self.send_by_two(counter, first, second);
            }
            Fault::RunTwice => {
                println!("# planted: c{}.{} is sent twice", self.me, first.number);
                self.due += 1;
                [first.clone(), first, second].into_iter().for_each(|call| self.send(call));
            }
        }
    }

    fn send_by_two(&mut self, counter: usize, first: Call, second: Call) {
        let (inbox, same) = (self.counters[counter].clone(), self.counters[counter].clone());
        let quick = thread::spawn(move || {
            let (own, answer) = channel();
            inbox.send(Letter::Call(Call { reply: own, ..second.clone() })).unwrap();
            second.reply.send(answer.recv().unwrap()).unwrap();
        });
        self.senders.push(thread::spawn(move || {
            quick.join().unwrap();
            same.send(Letter::Call(first)).unwrap();
        }));
    }

    fn call_all(mut self, calls: usize, fault: Option<Fault>) -> Did {
        let planted = self.chance.below(calls - 1);
        while self.called.len() < calls {
            match fault {
                Some(fault) if self.called.len() == planted => self.faulty_calls(fault),
                _ => self.random_call(),
            }
        }
        while self.due > 0 {
            self.take_answer();
        }
        self.senders.drain(..).for_each(|sender| sender.join().unwrap());
        let answers = self.answers.iter().map(|answer| answer.unwrap()).collect();
        Did { steps: self.steps, called: self.called, answers }
    }
}

fn tell(did: &[Did], counted: &[(i64, Vec<String>)]) {
    let callers: String = (1..=did.len()).map(|caller| format!(" c{caller}")).collect();
    (1..=counted.len()).for_each(|counter| println!("actor a{counter} counter{callers}"));
    did.iter().flat_map(|each| &each.steps).for_each(|step| println!("{step}"));
    for (caller, each) in did.iter().enumerate() {
        for (number, (counter, answer)) in each.called.iter().zip(&each.answers).enumerate() {
            println!("c{}.{number} a{} = {answer}", caller + 1, counter + 1);
        }
    }
    for (counter, (total, ran)) in counted.iter().enumerate() {
        println!("a{} live counter {total}", counter + 1);
        ran.iter().enumerate().for_each(|(place, call)| println!("a{}.{place} {call}", counter + 1));
    }
}

fn main() {
    let words: Vec<_> = std::env::args().collect();
    let number = |place: usize| words[place].parse::<usize>().unwrap();
    let (callers, counters, calls, seed) = (number(1), number(2), number(3), number(4));
    let fault = match words[5].as_str() {
        "two_senders" => Some(Fault::TwoSenders),
        "run_twice" => Some(Fault::RunTwice),
        _ => None,
    };
    let (inboxes, counting): (Vec<_>, Vec<_>) = (0..counters)
        .map(|_| {
            let (counter, inbox) = channel();
            (counter, thread::spawn(move || count(inbox)))
        })
        .unzip();
    let calling: Vec<_> = (1..=callers)
        .map(|me| {
            let caller = Caller::new(me, inboxes.clone(), seed);
            let own_fault = fault.filter(|_| me == 1 + seed % callers);
            thread::spawn(move || caller.call_all(calls, own_fault))
        })
        .collect();
    let did: Vec<_> = calling.into_iter().map(|caller| caller.join().unwrap()).collect();
    inboxes.iter().for_each(|inbox| inbox.send(Letter::Stop).unwrap());
    let counted: Vec<_> = counting.into_iter().map(|counter| counter.join().unwrap()).collect();
    tell(&did, &counted);
}
