//! `robust [SEED] [COUNT]`: the proved library against the reference implementation on made-up inputs, every second one damaged.
//! Each input is made from the seed and its number alone. The input and the buffers lie right after or right before a page that nobody
//! may touch: an access outside ends the program.

mod guarded;
mod inputs;
mod trial;

use guarded::{read_outside, Guarded, Side, SIDES};
use reference::rng::Rng;
use std::env;
use std::os::unix::process::ExitStatusExt;
use std::panic::{catch_unwind, AssertUnwindSafe};
use std::process::{Command, ExitCode, Stdio};
use std::thread;
use std::time::{Instant, SystemTime};
use trial::{work_out, Trial};

/// What was seen.
#[derive(Default)]
struct Tally {
    differences: u64,
    accepted: u64,
    /// Rows of the rolls, by kind of ending, and by side.
    kinds: [u64; 5],
    sides: [u64; 4],
    /// Calls, by 0 or the refusal's number.
    answers: [u64; 15],
}

impl Tally {
    fn add(&mut self, other: &Tally) {
        self.differences += other.differences;
        self.accepted += other.accepted;
        self.kinds.iter_mut().zip(other.kinds).for_each(|(sum, more)| *sum += more);
        self.sides.iter_mut().zip(other.sides).for_each(|(sum, more)| *sum += more);
        self.answers.iter_mut().zip(other.answers).for_each(|(sum, more)| *sum += more);
    }
}

/// What is lent.
struct Memory {
    input: Guarded,
    out: Guarded,
    numbers: Guarded,
    lists: [Guarded; 2],
}

impl Memory {
    fn new() -> Self {
        let lists = [Guarded::new(), Guarded::new()];
        Memory { input: Guarded::new(), out: Guarded::new(), numbers: Guarded::new(), lists }
    }
}

/// Makes all calls on one input and gives what differed.
fn compare(rng: &mut Rng, input: &[u8], memory: &mut Memory, tally: &mut Tally) -> Vec<String> {
    let sheet = work_out(input);
    if let Ok(sheet) = &sheet {
        tally.accepted += 1;
        for row in &sheet.rows {
            tally.kinds[usize::from(row.ending.kind())] += 1;
            tally.sides[usize::from(row.side.number())] += 1;
        }
    }
    let Memory { input: lent, out, numbers, lists } = memory;
    let lent = lent.lend_copy(input, rng.pick(&SIDES));
    let expected = sheet.as_ref().map_err(|refusal| *refusal);
    let mut trial =
        Trial { rng, input: lent, expected, out, numbers, lists, answers: &mut tally.answers, differences: Vec::new() };
    trial.run();
    let mut differences = trial.differences;
    if lent != input {
        differences.push("the input was changed".into());
    }
    differences
}

fn run(seed: u64, numbers: impl Iterator<Item = u64>) -> Tally {
    let first = Rng::new(seed).draw();
    let mut memory = Memory::new();
    let mut tally = Tally::default();
    for number in numbers {
        let mut rng = Rng::new(first.wrapping_add(number));
        let input = if number % 2 == 1 { inputs::damaged(&mut rng) } else { inputs::undamaged(&mut rng) };
        let compared = catch_unwind(AssertUnwindSafe(|| compare(&mut rng, &input, &mut memory, &mut tally)));
        let differences = compared.unwrap_or_else(|_| vec!["panicked".into()]);
        tally.differences += differences.len() as u64;
        for difference in differences {
            let hex: String = input.iter().map(|byte| format!("{byte:02x}")).collect();
            println!("input {number}: {hex}\n  {difference}");
        }
    }
    tally
}

/// Whether the guard pages do what they are for: this program reading outside is ended by signal 11.
fn guarded(side: &str) -> bool {
    let program = env::current_exe().expect("this program");
    let status = Command::new(program).args(["outside", side]).stdout(Stdio::null()).status();
    status.is_ok_and(|status| status.signal() == Some(11))
}

fn main() -> ExitCode {
    let arguments: Vec<String> = env::args().skip(1).collect();
    match arguments.iter().map(String::as_str).collect::<Vec<_>>()[..] {
        ["outside", "before"] => read_outside(Side::AfterAPage),
        ["outside", "after"] => read_outside(Side::BeforeAPage),
        _ => {}
    }
    let clock = SystemTime::UNIX_EPOCH.elapsed().expect("a clock after 1970").as_secs();
    let number = |place: usize, usual: u64| {
        arguments.get(place).map_or(usual, |text| text.parse().expect("robust [SEED] [COUNT]"))
    };
    let (seed, count) = (number(0, clock), number(1, 1_000_000));
    assert!(guarded("before") && guarded("after"), "the guard pages do not end the program");
    println!("seed {seed}; reading before or after a lent buffer ends the program");

    let begun = Instant::now();
    let threads = thread::available_parallelism().map_or(1, usize::from);
    let mut tally = Tally::default();
    thread::scope(|scope| {
        let part = |thread: usize| scope.spawn(move || run(seed, (thread as u64..count).step_by(threads)));
        let parts: Vec<_> = (0..threads).map(part).collect();
        parts.into_iter().for_each(|part| tally.add(&part.join().expect("a thread's tally")));
    });
    let seconds = begun.elapsed().as_secs_f64();

    let Tally { accepted, kinds, sides, .. } = tally;
    println!("{accepted} inputs accepted; rows of kinds 1 to 4: {:?}; of sides 0 to 3: {sides:?}", &kinds[1..]);
    println!("calls answered 0 to 14, of which 11 is unused: {:?}", tally.answers);
    let rate = count as f64 / seconds;
    println!("{count} inputs, {} differences, {seconds:.1} s, {rate:.0} a second", tally.differences);
    ExitCode::from(u8::from(tally.differences > 0))
}
