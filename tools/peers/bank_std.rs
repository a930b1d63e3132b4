//! The bank of crates/example_bank over channels of std: four branches and eight tellers, each on a thread of its own
//! as long as it runs. Reads requests from the standard input, and answers each on the standard output. A branch has
//! an unbounded channel for an inbox, and so has each teller for its answers.
//!
//!     rustc -O bank_std.rs && ./bank_std < requests
use std::io::{self, Read, Write};
use std::sync::mpsc::{channel, Receiver, Sender};
use std::thread;

const PLACES: usize = 250;
const LIMIT: u64 = 1 << 63;

#[derive(Clone, Copy)]
enum Ask {
    PayIn(usize, u64),
    PayOut(usize, u64),
    Transfer(usize, usize, u64),
    Funds(usize),
    Total,
}

type Answer = Result<u64, &'static str>;

struct Bank {
    balances: Vec<u64>,
    total: u64,
}

impl Bank {
    fn take(&mut self, place: usize, amount: u64) -> Answer {
        if amount == 0 {
            return Err("BadAmount");
        }
        if self.balances[place] < amount {
            return Err("TooLittle");
        }
        self.balances[place] -= amount;
        Ok(self.balances[place])
    }

    fn does(&mut self, ask: Ask) -> Answer {
        match ask {
            Ask::PayIn(_, 0) => Err("BadAmount"),
            Ask::PayIn(_, amount) if self.total + amount >= LIMIT => Err("BankFull"),
            Ask::PayIn(place, amount) => {
                self.balances[place] += amount;
                self.total += amount;
                Ok(self.balances[place])
            }
            Ask::PayOut(place, amount) => {
                let left = self.take(place, amount)?;
                self.total -= amount;
                Ok(left)
            }
            Ask::Transfer(from, to, amount) => {
                self.take(from, amount)?;
                self.balances[to] += amount;
                Ok(self.balances[from])
            }
            Ask::Funds(place) => Ok(self.balances[place]),
            Ask::Total => Ok(self.total),
        }
    }
}

/// A call, and where its answer goes.
struct Call {
    ask: Ask,
    answers: Sender<Answer>,
}

fn serve(inbox: Receiver<Call>) {
    let mut bank = Bank {
        balances: vec![0; PLACES],
        total: 0,
    };
    for call in inbox {
        let answer = bank.does(call.ask);
        call.answers.send(answer).unwrap();
    }
}

/// What a teller is to ask in a round, and what it was answered.
struct Work(Vec<Ask>);

fn tell(work: Receiver<Work>, done: Sender<Vec<Answer>>, branch: Sender<Call>) {
    let (answers, inbox) = channel();
    for Work(asks) in work {
        for ask in &asks {
            let answers = answers.clone();
            branch.send(Call { ask: *ask, answers }).unwrap();
        }
        done.send(asks.iter().map(|_| inbox.recv().unwrap()).collect()).unwrap();
    }
}

fn number(word: &str) -> Option<u64> {
    let good = !word.is_empty() && word.bytes().all(|byte| byte.is_ascii_digit());
    word.parse().ok().filter(|number| good && *number < LIMIT)
}

fn account(word: &str) -> Result<(usize, usize), &'static str> {
    let account = number(word).filter(|number| *number < 1_000).ok_or("no such account")? as usize;
    Ok((account / PLACES, account % PLACES))
}

fn amount(word: &str) -> Result<u64, &'static str> {
    number(word).ok_or("no amount")
}

fn request(line: &[u8], words: &[&str]) -> Result<(usize, Ask), &'static str> {
    if line.len() > 80 {
        return Err("line too long");
    }
    match words {
        ["pay_in", a, n] => account(a).and_then(|(b, a)| Ok((b, Ask::PayIn(a, amount(n)?)))),
        ["pay_out", a, n] => account(a).and_then(|(b, a)| Ok((b, Ask::PayOut(a, amount(n)?)))),
        ["transfer", from, to, n] => {
            let ((branch, from), (other, to)) = (account(from)?, account(to)?);
            let ask = Ask::Transfer(from, to, amount(n)?);
            if branch == other { Ok((branch, ask)) } else { Err("account of another branch") }
        }
        ["funds", a] => account(a).map(|(b, a)| (b, Ask::Funds(a))),
        ["total", b] => match number(b) {
            Some(b @ 1..=4) => Ok((b as usize - 1, Ask::Total)),
            _ => Err("no such branch"),
        },
        _ => Err("no such request"),
    }
}

/// The teller of each request: those that speak of one account have one teller.
fn deal(round: &[Result<(usize, Ask), &'static str>]) -> Vec<usize> {
    let mut labels: Vec<[u8; 256]> = vec![std::array::from_fn(|place| place as u8); 4];
    for (branch, ask) in round.iter().flatten() {
        let labels = &mut labels[*branch];
        match ask {
            Ask::Transfer(from, to, _) if labels[*from] != labels[*to] => {
                let (kept, left) = (labels[*from], labels[*to]);
                labels.iter_mut().filter(|label| **label == left).for_each(|label| *label = kept);
            }
            Ask::Total => *labels = [0; 256],
            _ => {}
        }
    }
    let teller = |(branch, ask): &(usize, Ask)| match ask {
        Ask::PayIn(a, _) | Ask::PayOut(a, _) | Ask::Transfer(a, _, _) | Ask::Funds(a) => {
            2 * branch + labels[*branch][*a] as usize % 2
        }
        Ask::Total => 2 * branch,
    };
    round.iter().map(|read| read.as_ref().map_or(0, teller)).collect()
}

fn main() -> io::Result<()> {
    let branches: Vec<Sender<Call>> = (0..4)
        .map(|_| {
            let (calls, inbox) = channel();
            thread::spawn(move || serve(inbox));
            calls
        })
        .collect();
    let tellers: Vec<(Sender<Work>, Receiver<Vec<Answer>>)> = (0..8)
        .map(|teller| {
            let ((work, inbox), (done, answers)) = (channel(), channel());
            let branch = branches[teller / 2].clone();
            thread::spawn(move || tell(inbox, done, branch));
            (work, answers)
        })
        .collect();
    let (mut held, mut chunk, mut output) = (Vec::new(), vec![0; 65_536], io::stdout());
    loop {
        let count = io::stdin().read(&mut chunk)?;
        held.extend_from_slice(&chunk[..count]);
        if count == 0 && !held.is_empty() {
            held.push(b'\n');
        }
        let Some(end) = held.iter().rposition(|byte| *byte == b'\n') else {
            if count == 0 { return Ok(()) } else { continue }
        };
        let rest = held.split_off(end + 1);
        held.pop();
        let mut round = Vec::new();
        for line in held.split(|byte| *byte == b'\n') {
            round.push(match std::str::from_utf8(line) {
                Ok(text) => request(line, &text.split(' ').collect::<Vec<_>>()),
                Err(_) => Err("no text"),
            });
        }
        let dealt = deal(&round);
        let mut asks = vec![Vec::new(); 8];
        for (read, teller) in round.iter().zip(&dealt) {
            if let Ok((_, ask)) = read {
                asks[*teller].push(*ask);
            }
        }
        for ((work, _), asks) in tellers.iter().zip(asks) {
            work.send(Work(asks)).unwrap();
        }
        let mut answers: Vec<_> = tellers.iter().map(|(_, done)| done.recv().unwrap().into_iter()).collect();
        let mut text = String::new();
        for (read, teller) in round.iter().zip(&dealt) {
            text.push_str(&match read {
                Err(wrong) => format!("? {wrong}\n"),
                Ok(_) => match answers[*teller].next().unwrap() {
                    Ok(number) => format!("= {number}\n"),
                    Err(fault) => format!("! {fault}\n"),
                },
            });
        }
        output.write_all(text.as_bytes())?;
        output.flush()?;
        held = rest;
    }
}
