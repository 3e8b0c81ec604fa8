//! What a call costs: one table from one run. See the lines printed under it for what the columns are.
#![deny(warnings)]

use model::layout::write_message;
use model::size::*;
use model::{Results, Tables};
use std::hint::black_box;
use std::io::{Read, Write};
use std::process::{Command, ExitCode, Stdio};
use std::time::{Duration, Instant};

const SIZES: [usize; 4] = [10, 60, 101, 127];
const OPEN: [usize; 2] = [0, 3];
/// The operations that are shown for a bare store: all but RELEASE.
const BARE: [usize; 5] = [0, 1, 2, 3, 5];
const GUEST: u32 = 5;
const STRANGER: u32 = 4_000;
/// How many times an operation is run to count its instructions: the difference of the two is counted.
const RUNS: [usize; 2] = [2, 6];

const NOTES: &str = "\
archive       median time of the proved calls, release build, tables put back before each
model         the same calls by the Rust model of document 01 on the same bytes
ratio         archive to model
instructions  of the archive, the difference of two run lengths
checks alone  a sender that isn't introduced: turned away (number 3) right after sizes and soundness
table copy    a plain copy of all five tables, 66,545 bytes
nodes         slots in use, the root too; open: transactions, START + WRITE + END T being the third of them where 3 are
the store     eight guests with names as in device/vbd/51712/backend-id, five watches, two of which hear the WRITE; DIRECTORY is of a guest's home
small letters the same with names of small letters alone, all of a guest's nodes right below its home
a bare store  has the same nodes and no guest and no watch";

type Request = fn(&mut Tables, u32, &[u8], &mut [u8], &mut [u8]) -> Results;

#[derive(Clone)]
struct Core {
    tables: [Vec<u8>; 5],
    reply: Vec<u8>,
    events: Vec<u8>,
}

/// Messages with their senders, sent one after the other.
type Calls = Vec<(u32, Vec<u8>)>;

/// What the store holds: slots in use, open transactions, names of small letters alone, no guest and no watch.
#[derive(Clone, Copy)]
struct Store {
    nodes: usize,
    open: usize,
    letters: bool,
    bare: bool,
}

fn message(kind: u32, tx_id: u32, text: &str) -> Vec<u8> {
    let payload = text.replace('|', "\0");
    let mut message = vec![0; 16 + payload.len()];
    write_message(&mut message, [kind, 1, tx_id], payload.as_bytes());
    message
}

impl Core {
    fn lent(&mut self) -> (Tables<'_>, &mut [u8], &mut [u8]) {
        let [nodes, copies, watches, transactions, domains] = &mut self.tables;
        (Tables { nodes, copies, watches, transactions, domains }, &mut self.reply, &mut self.events)
    }

    fn call(&mut self, request: Request, sender: u32, message: &[u8]) -> Results {
        let (mut tables, reply, events) = self.lent();
        request(&mut tables, sender, message, reply, events)
    }

    fn put_back(&mut self, saved: &Core) {
        for (table, old) in self.tables.iter_mut().zip(&saved.tables) {
            table.copy_from_slice(old);
        }
    }

    fn new() -> Core {
        let zeros = |size| vec![0; size];
        let tables = [NODES, COPIES, WATCHES, TRANSACTIONS, DOMAINS].map(zeros);
        Core { tables, reply: zeros(REPLY), events: zeros(EVENTS) }
    }

    /// Tables like those of a box with guests: this many slots in use, five watches, and open transactions of domain 0.
    /// A bare store has the same nodes, all of domain 0, and no guest and no watch.
    fn stage(Store { nodes, open, letters, bare }: Store) -> Core {
        let mut core = Core::new();
        assert_eq!(archive::fresh(&mut core.lent().0), 0);
        let mut send = |sender: u32, kind: u32, tx_id: u32, text: &str| {
            let results = core.call(archive::request, sender, &message(kind, tx_id, text));
            assert_eq!((results.number, core.reply[0]), (0, kind as u8), "{text}");
        };
        for guest in (GUEST..GUEST + 8).filter(|_| !bare) {
            send(0, 8, 0, &format!("{guest}|{}|{guest}|", 4096 * guest));
        }
        for (maker, path) in paths(letters).into_iter().take(nodes - 1) {
            send(if bare { 0 } else { maker }, 11, 0, &format!("{path}|some value"));
            if let Some(guest) = path.strip_prefix("/local/domain/").filter(|rest| !bare && !rest.contains('/')) {
                send(0, 14, 0, &format!("{path}|n{guest}|r0|"));
            }
        }
        let watches = ["/local/domain|domains|1|", "/local/domain/5|home|", "@releaseDomain|gone|", "@introduceDomain|new|1|"];
        for watch in watches.iter().filter(|_| !bare) {
            send(0, 4, 0, watch);
        }
        if !bare {
            send(GUEST, 4, 0, if letters { "name|own|" } else { "device|own|" });
        }
        (0..open).for_each(|_| send(0, 6, 0, "|"));
        core
    }
}

/// Paths with their makers, parents first: each guest's home and fifteen nodes of its own in it.
fn paths(letters: bool) -> Vec<(u32, String)> {
    let names = if letters {
        "name vm memory console device control data store cpu error backend hvmloader description image platform"
    } else {
        "name vm device device/vif device/vif/0 device/vif/0/backend-id device/vif/0/mac device/vif/0/event-channel \
         device/vbd device/vbd/51712 device/vbd/51712/backend-id device/vbd/51712/virtual-device device/vbd/51712/feature-barrier \
         control control/feature-poweroff"
    };
    let mut paths = vec![(0, "/local".to_string()), (0, "/local/domain".to_string())];
    for guest in GUEST..GUEST + 8 {
        let home = format!("/local/domain/{guest}");
        paths.push((0, home.clone()));
        paths.extend(names.split(' ').map(|name| (guest, format!("{home}/{name}"))));
    }
    paths
}

const OPERATIONS: [&str; 6] = ["READ", "WRITE of a present node", "DIRECTORY", "START + WRITE + END T", "RELEASE", "checks alone"];

/// An operation's calls; `open` are open before.
fn calls(operation: usize, open: usize, letters: bool) -> Calls {
    let own = open as u32 + 1;
    let path = if letters { "/local/domain/5/name" } else { "/local/domain/5/device/vif/0/backend-id" };
    let (read, write) = (format!("{path}|"), format!("{path}|another value"));
    match operation {
        0 => vec![(0, message(2, 0, &read))],
        1 => vec![(0, message(11, 0, &write))],
        2 => vec![(0, message(1, 0, "/local/domain/5|"))],
        3 => vec![(0, message(6, 0, "|")), (0, message(11, own, &write)), (0, message(7, own, "T|"))],
        4 => vec![(0, message(9, 0, "5|"))],
        _ => vec![(STRANGER, message(2, 0, &read))],
    }
}

/// START needs a free place, so its own transaction is the third one.
fn before(operation: usize, open: usize) -> usize {
    if operation == 3 {
        open.saturating_sub(1)
    } else {
        open
    }
}

fn run(core: &mut Core, request: Request, calls: &Calls) {
    for (sender, message) in calls {
        black_box(core.call(request, *sender, black_box(message)));
    }
}

fn median(mut times: Vec<Duration>) -> f64 {
    times.sort();
    times[times.len() / 2].as_secs_f64() * 1e6
}

/// The median time of an operation in microseconds.
fn time(saved: &Core, request: Request, calls: &Calls) -> f64 {
    let mut core = saved.clone();
    let mut times = Vec::new();
    let start = Instant::now();
    while times.len() < 300 || start.elapsed() < Duration::from_millis(60) {
        core.put_back(saved);
        let begin = Instant::now();
        run(&mut core, request, calls);
        times.push(begin.elapsed());
    }
    median(times)
}

fn copy_time(saved: &Core) -> f64 {
    let mut core = saved.clone();
    let one = |core: &mut Core| {
        let begin = Instant::now();
        core.put_back(black_box(saved));
        black_box(&core.tables);
        begin.elapsed()
    };
    median((0..5_000).map(|_| one(&mut core)).collect())
}

/// `bench/count.sh`, which counts instructions.
fn counter() -> Command {
    let mut command = Command::new("sh");
    command.arg(concat!(env!("CARGO_MANIFEST_DIR"), "/count.sh"));
    command
}

/// Instructions inside the archive's calls over one run of this program, which gets the tables on its standard input.
fn collected(saved: &Core, operation: usize, store: Store, times: usize) -> Option<u64> {
    let numbers = [operation, store.open, store.letters as usize, times].map(|n| n.to_string());
    let mut counting = counter();
    counting.arg(std::env::current_exe().ok()?).arg("--count").args(numbers);
    let mut child = counting.stdin(Stdio::piped()).stdout(Stdio::piped()).spawn().ok()?;
    child.stdin.take()?.write_all(&saved.tables.concat()).ok()?;
    String::from_utf8_lossy(&child.wait_with_output().ok()?.stdout).trim().parse().ok()
}

fn instructions(saved: &Core, operation: usize, store: Store) -> Option<u64> {
    let [short, long] = RUNS.map(|times| collected(saved, operation, store, times));
    Some((long? - short?) / (RUNS[1] - RUNS[0]) as u64)
}

/// The part whose instructions are counted: an operation so many times.
fn count(numbers: &[usize]) {
    let &[operation, open, letters, times] = numbers else { panic!("four numbers") };
    let mut saved = Core::new();
    for table in &mut saved.tables {
        std::io::stdin().read_exact(table).expect("the tables");
    }
    let mut core = saved.clone();
    let calls = calls(operation, open, letters != 0);
    for _ in 0..times {
        core.put_back(&saved);
        run(&mut core, archive::request, &calls);
    }
}

fn grouped(number: u64) -> String {
    let digits = number.to_string();
    let mut out = String::new();
    for (i, digit) in digits.chars().enumerate() {
        if i > 0 && (digits.len() - i).is_multiple_of(3) {
            out.push(',');
        }
        out.push(digit);
    }
    out
}

/// A row of the table.
fn row(operation: usize, store: Store, counted: bool) {
    let shown = store.open;
    let store = Store { open: before(operation, shown), ..store };
    let (saved, calls) = (Core::stage(store), calls(operation, store.open, store.letters));
    let (proved, model) = (time(&saved, archive::request, &calls), time(&saved, model::request, &calls));
    let instructions = if counted { instructions(&saved, operation, store).map_or("?".into(), grouped) } else { "-".into() };
    let (name, nodes, ratio) = (OPERATIONS[operation], store.nodes, proved / model);
    println!("{name:26}{nodes:>6}{shown:>6}{proved:>10.2} us{model:>10.2} us{ratio:>8.2}{instructions:>14}");
}

fn table() -> ExitCode {
    let by = counter().output().map_or(String::new(), |output| String::from_utf8_lossy(&output.stdout).trim().to_string());
    let counted = !by.is_empty();
    let usual = Store { nodes: 101, open: 0, letters: false, bare: false };
    println!("{:26}{:>6}{:>6}{:>13}{:>13}{:>8}{:>14}", "", "nodes", "open", "archive", "model", "ratio", "instructions");
    for operation in 0..OPERATIONS.len() {
        for open in OPEN {
            for nodes in SIZES {
                row(operation, Store { nodes, open, ..usual }, counted);
            }
        }
    }
    println!("{:26}{:>6}{:>6}{:>10.2} us", "table copy", "", "", copy_time(&Core::stage(Store { nodes: 60, ..usual })));
    println!("names of small letters alone:");
    for operation in 0..OPERATIONS.len() {
        row(operation, Store { letters: true, ..usual }, counted);
    }
    for letters in [false, true] {
        println!("a bare store{}:", if letters { ", names of small letters alone" } else { "" });
        for operation in BARE {
            row(operation, Store { letters, bare: true, ..usual }, counted);
        }
    }
    println!("\n{NOTES}");
    match by.as_str() {
        "" => println!("no instructions were counted: valgrind is not installed"),
        "callgrind" => println!("the instructions were counted by callgrind"),
        _ => println!("the instructions were counted by {by}, which counts them as callgrind does; the times are those of code that it emulates"),
    }
    ExitCode::SUCCESS
}

fn main() -> ExitCode {
    let words: Vec<String> = std::env::args().skip(1).collect();
    match words.first().map(String::as_str) {
        None => table(),
        Some("--count") => {
            count(&words[1..].iter().map(|word| word.parse().expect("a number")).collect::<Vec<usize>>());
            ExitCode::SUCCESS
        }
        Some(_) => {
            eprintln!("usage: bench");
            2.into()
        }
    }
}
