//! How much stack each call needs: the least stack of a thread on which it returns, on the lists that ask most of it.
//! `stack --header FILE` compares what the library needs with what that header tells.

use nets::order;
use runs::lists::{stale, Call, Lent, Lists, CALLS};
use runs::subject::{Library, Plain, Subject};
use std::hint::black_box;
use std::process::{exit, Command, Stdio};
use std::thread;

/// Stacks are tried in steps of so many bytes, up to so many bytes: coarse ones to tell, fine ones to compare.
const STEP: usize = 16_384;
const FINE_STEP: usize = 4_096;
const MOST: usize = 16_777_216;

/// Bytes of each thread's stack that are taken before the call, as no system makes a thread with a very small stack.
const TAKEN: usize = 262_144;

/// What is measured: every call on few edges, and a change on more than 65,536.
const TASKS: usize = CALLS.len() + 1;

fn main() {
    let words: Vec<String> = std::env::args().skip(1).collect();
    if let [who, task, size] = &words[..] {
        let (Ok(task), Ok(size)) = (task.parse(), size.parse()) else {
            exit(2);
        };
        attempt(who == "library", task, size);
    }
    println!("linked: {}", calls::linked());
    if let [option, header] = &words[..] {
        if option != "--header" {
            exit(2);
        }
        exit(i32::from(!is_told(header)));
    }
    println!(
        "call                       library   plain Rust   (bytes of stack, to the next 16,384)"
    );
    for task in 0..TASKS {
        let name = match CALLS.get(task) {
            Some(call) => call.name(),
            None => "change, E over 65,536",
        };
        let [library, plain] = ["library", "plain"].map(|who| least(who, task, STEP));
        println!("{name:25} {library:>8} {plain:>12}");
    }
}

/// Whether a header tells of each call what stack it needs, to the next step; what it should tell is said where it does
/// not. A fine step either way is let pass, as what a thread itself takes is not the same everywhere.
fn is_told(header: &str) -> bool {
    let text = std::fs::read_to_string(header).expect("the header");
    let text: Vec<&str> = text
        .split_whitespace()
        .filter(|&word| word != "*")
        .collect();
    let text = text.join(" ");
    let untold = (0..TASKS).filter(|&task| {
        let least = least("library", task, FINE_STEP);
        let right = [least - FINE_STEP, least, least + FINE_STEP]
            .map(|size| phrase(task, size.next_multiple_of(STEP) / 1_024));
        let is_told = right.iter().any(|phrase| text.contains(phrase));
        if !is_told {
            println!("{header} does not tell: {}", right[1]);
        }
        !is_told
    });
    untold.count() == 0
}

/// What the header tells of a task's stack.
fn phrase(task: usize, kib: usize) -> String {
    let kib = match kib {
        0..=999 => format!("{kib} KiB"),
        _ => format!("{},{:03} KiB", kib / 1_000, kib % 1_000),
    };
    match CALLS.get(task) {
        None => format!(", change {kib},"),
        Some(Call::Change) => {
            format!("Of change's, {kib} are enough for a graph of up to 65,536 edges")
        }
        Some(Call::Sweep(_)) => format!(", either sweep {kib},"),
        Some(Call::Route) => format!(", route {kib}."),
        Some(call) => format!(" {} {kib},", call.name()),
    }
}

/// The least stack on which a call returns. An attempt with less ends its process, so each has its own.
fn least(who: &str, task: usize, step: usize) -> usize {
    let returns = |steps: usize| {
        let program = std::env::current_exe().expect("this program");
        let status = Command::new(program)
            .args([who, &task.to_string(), &(steps * step).to_string()])
            .stdout(Stdio::null())
            .stderr(Stdio::null())
            .status();
        status.is_ok_and(|status| status.success())
    };
    let (mut fails, mut works) = (0, MOST / step);
    while works - fails > 1 {
        let middle = (fails + works) / 2;
        match returns(middle) {
            true => works = middle,
            false => fails = middle,
        }
    }
    works * step
}

/// Makes the call on a thread with so much stack, and ends the process well if it returns.
fn attempt(library: bool, task: usize, size: usize) -> ! {
    let (call, lists) = match CALLS.get(task) {
        Some(&call) => (call, before(call, path())),
        None => (Call::Change, before(Call::Change, all_joined())),
    };
    let mut lent = Lent::new(&lists);
    let run = move || {
        let subject: &dyn Subject = if library { &Library } else { &Plain };
        lent.call(subject, call, lists.numbers(call)).number
    };
    let thread = thread::Builder::new().stack_size(TAKEN + size);
    let thread = thread.spawn(|| with_less_stack(run));
    let number = thread.expect("a thread").join();
    exit(i32::from(!matches!(number, Ok(0))));
}

/// Takes the bytes, then runs.
#[inline(never)]
fn with_less_stack(run: impl FnOnce() -> u32) -> u32 {
    let mut taken = [0u8; TAKEN];
    black_box(&mut taken);
    let number = run();
    black_box(&mut taken);
    number
}

/// A path of 4,096 junctions with both ends last in the order: one shortcut spans it, and is opened some 4,000 deep.
fn path() -> Lists {
    let n = 4_096;
    let last = n as u32 - 1;
    let mut order = order::by_number(n);
    order.remove(0);
    order.insert(n - 2, 0);
    let edges = 2 * (n - 2) + 1;
    Lists {
        tails: (0..last).collect(),
        heads: (1..=last).collect(),
        costs: vec![500_000; n - 1],
        order,
        rank: stale(n),
        first: stale(n + 1),
        row_heads: stale(edges),
        up: stale(edges),
        down: stale(edges),
        route: stale(n - 1),
        distances: stale(n),
        from: 0,
        to: last,
        arc: 1,
        cost: 1,
    }
}

/// A star with its centre first: every two of its 363 junctions are joined.
fn all_joined() -> Lists {
    let n = 363;
    let edges = n * (n - 1) / 2;
    Lists {
        tails: vec![0; n - 1],
        heads: (1..n as u32).collect(),
        costs: vec![2; n - 1],
        order: order::by_number(n),
        rank: stale(n),
        first: stale(n + 1),
        row_heads: stale(edges),
        up: stale(edges),
        down: stale(edges),
        cost: 1,
        ..Lists::default()
    }
}

/// The lists as those calls leave them that come before a call.
fn before(call: Call, mut lists: Lists) -> Lists {
    for earlier in CALLS.into_iter().take_while(|&earlier| earlier != call) {
        let mut lent = Lent::new(&lists);
        lent.call(&Plain, earlier, lists.numbers(earlier));
        lists = lent.into_lists(&lists);
    }
    lists
}
