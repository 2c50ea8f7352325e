//! The soak: `--runs N --seed S` makes so many runs, in processes of their own, and stops at the first mismatch or crash, whose input it
//! leaves in target/soak. `--stack` measures how deep each call and each program goes. `--self-test` expects what is wrong to be noticed.

use planner_tests::document::law::Law;
use planner_tests::ffi::lent::Lent;
use planner_tests::parallel::in_order;
use planner_tests::random::Random;
use planner_tests::report::Bend;
use planner_tests::soak::counts::Counts;
use planner_tests::soak::programs::{ended, hunt_input, limited, Ended};
use planner_tests::soak::{kind_of, random_of, run, Kind, Watch, KINDS};
use planner_tests::stack::{self, STATED, STATED_OF_PROGRAMS};
use std::fs;
use std::hint::black_box;
use std::os::unix::process::ExitStatusExt;
use std::path::PathBuf;
use std::process::{Command, ExitCode, Stdio};
use std::thread;

/// What the gate makes: less than a minute on two cores.
const RUNS: u64 = 120_000;
const SEED: u64 = 1;

/// Runs of one process.
const BATCH: u64 = 2_000;

/// What the soak's own code may use of a thread's stack beside a call.
const OWN: usize = 128 * 1024;

/// Runs for which the stack is measured.
const STACK_RUNS: u64 = 3_000;

/// The calls that the library exports.
const CALLS: usize = 24;

/// What to do, as the command line says it.
#[derive(Clone)]
struct Plan {
    seed: u64,
    from: u64,
    to: u64,
    /// the file that gets each input before the call
    trace: Option<PathBuf>,
    /// for the self-test: the run that ends by a signal
    crash_at: Option<u64>,
}

fn main() -> ExitCode {
    let words: Vec<String> = std::env::args().skip(1).collect();
    let outcome = match words.first().map(String::as_str) {
        Some("--worker") => worker_plan(&words[1..]).and_then(worker),
        Some("--stack") if words.len() == 1 => measure(),
        Some("--self-test") if words.len() == 1 => self_test(),
        _ => plan(&words).and_then(|plan| soak(&plan)),
    };
    match outcome {
        Ok(()) => ExitCode::SUCCESS,
        Err(message) => {
            eprintln!("{message}");
            ExitCode::FAILURE
        }
    }
}

fn number(word: &str) -> Result<u64, String> {
    word.parse().map_err(|_| format!("{word}: not a number"))
}

fn plan(words: &[String]) -> Result<Plan, String> {
    let mut plan = Plan {
        seed: SEED,
        from: 0,
        to: RUNS,
        trace: None,
        crash_at: None,
    };
    for pair in words.chunks(2) {
        match pair {
            [flag, value] if flag == "--runs" => plan.to = number(value)?,
            [flag, value] if flag == "--seed" => plan.seed = number(value)?,
            _ => return Err("soak [--runs N] [--seed S] | --stack | --self-test".to_string()),
        }
    }
    Ok(plan)
}

/// The plan in the words that `worker_plan` reads.
fn worker_words(plan: &Plan) -> Vec<String> {
    let trace = plan.trace.as_ref().map(|file| file.display().to_string());
    let crash = plan.crash_at.map(|number| number.to_string());
    vec![
        "--worker".to_string(),
        plan.seed.to_string(),
        plan.from.to_string(),
        plan.to.to_string(),
        crash.unwrap_or_default(),
        trace.unwrap_or_default(),
    ]
}

fn worker_plan(words: &[String]) -> Result<Plan, String> {
    let [seed, from, to, crash, trace] = words else {
        return Err("--worker is for the soak itself".to_string());
    };
    Ok(Plan {
        seed: number(seed)?,
        from: number(from)?,
        to: number(to)?,
        trace: Some(PathBuf::from(trace)).filter(|_| !trace.is_empty()),
        crash_at: number(crash).ok(),
    })
}

/// Where inputs are left.
fn folder() -> PathBuf {
    let folder = PathBuf::from(env!("CARGO_MANIFEST_DIR")).join("../target/soak");
    fs::create_dir_all(&folder).expect("target/soak can be made");
    folder
}

/// Makes the runs in a thread that has no more stack than a call may use, and prints what was counted.
fn worker(plan: Plan) -> Result<(), String> {
    let thread = thread::Builder::new().stack_size(STATED + OWN);
    let counts = thread
        .spawn(move || runs(&plan))
        .map_err(|error| error.to_string())?
        .join()
        .map_err(|_| "the soak itself panicked".to_string())??;
    counts.print_lines();
    Ok(())
}

fn runs(plan: &Plan) -> Result<Counts, String> {
    let mut counts = Counts::default();
    for number in plan.from..plan.to {
        let mut watch = Watch::new(&Law::AS_WRITTEN);
        watch.trace = plan.trace.clone();
        let outcome = run(plan.seed, number, &mut watch);
        let kind = kind_of(number).name;
        if let Err(mismatch) = outcome {
            let file = folder().join(format!("mismatch-{}-{number}.txt", plan.seed));
            fs::write(&file, mismatch.to_string()).expect("the input can be written");
            let place = file.display();
            return Err(format!("run {number} ({kind}): mismatch, see {place}"));
        }
        if plan.crash_at == Some(number) {
            std::process::abort();
        }
        counts.add_run(kind, watch.tally.passed);
        for (number, times) in watch.answers {
            counts.add_answers(number, times);
        }
    }
    Ok(counts)
}

/// A process that makes some runs: the lines that it prints.
fn batch(plan: &Plan) -> Result<String, Failure> {
    // This program, even if a build has put another in its place meanwhile.
    let output = Command::new("/proc/self/exe")
        .args(worker_words(plan))
        .stderr(Stdio::inherit())
        .output()
        .expect("the soak can start itself");
    if let Some(signal) = output.status.signal() {
        return Err(Failure::Signal(signal));
    }
    if !output.status.success() {
        return Err(Failure::Mismatch);
    }
    Ok(String::from_utf8_lossy(&output.stdout).into_owned())
}

#[derive(PartialEq, Debug)]
enum Failure {
    Signal(i32),
    /// The worker has said which.
    Mismatch,
}

/// All runs, in processes of BATCH runs each, as many at a time as there are processors.
fn all_runs(plan: &Plan) -> Result<Counts, String> {
    let starts = (plan.from..plan.to).step_by(BATCH as usize);
    let parts: Vec<Plan> = starts
        .map(|from| Plan {
            from,
            to: plan.to.min(from + BATCH),
            ..plan.clone()
        })
        .collect();
    let (mut total, mut well) = (Counts::default(), Ok(()));
    in_order(&parts, batch, |part, printed| {
        well = add(&mut total, part, printed);
        well.is_ok()
    });
    well.map(|()| total)
}

/// Adds what a batch has printed, or says why the soak ends.
fn add(total: &mut Counts, part: &Plan, printed: Result<String, Failure>) -> Result<(), String> {
    let text = printed.map_err(|failure| match failure {
        Failure::Signal(signal) => crashed(part, signal),
        Failure::Mismatch => "1 failed".to_string(),
    })?;
    for line in text.lines() {
        let added = total.add_line(line);
        added.ok_or(format!("a worker printed {line}"))?;
    }
    Ok(())
}

/// Makes the runs of a process that crashed again, one by one, so that the file has the input of the call that crashes.
fn crashed(part: &Plan, signal: i32) -> String {
    for number in part.from..part.to {
        let file = folder().join(format!("crash-{}-{number}.txt", part.seed));
        let mut one = part.clone();
        (one.from, one.to) = (number, number + 1);
        one.trace = Some(file.clone());
        if let Err(Failure::Signal(signal)) = batch(&one) {
            let kind = kind_of(number).name;
            let place = file.display();
            return format!("run {number} ({kind}): signal {signal}, see {place}");
        }
        let _ = fs::remove_file(&file);
    }
    let (from, to) = (part.from, part.to);
    format!("runs {from} to {to}: signal {signal}, which none of them alone brings about")
}

fn soak(plan: &Plan) -> Result<(), String> {
    println!("soak: seed {}, {} runs", plan.seed, plan.to);
    let counts = all_runs(plan)?;
    counts.print();
    let (runs, comparisons) = counts.total();
    if runs != plan.to {
        return Err(format!("{runs} runs were made, not {}", plan.to));
    }
    let unmet = counts.unmet();
    if runs >= RUNS && !unmet.is_empty() {
        return Err(format!("refusals that never came up: {unmet:?}"));
    }
    println!("{runs} runs, {comparisons} comparisons, 0 mismatches, 0 crashes");
    Ok(())
}

/// The most stack that each call and each program uses; fails where one is above what is stated.
fn measure() -> Result<(), String> {
    let mut failed = None;
    let deepest = stack::measuring(|| failed = library_runs().err());
    if let Some(message) = failed {
        return Err(message);
    }
    println!("stack, in bytes, over {STACK_RUNS} runs of seed {SEED}:");
    for (name, bytes) in &deepest {
        println!("{name}: {bytes}; stated {STATED}");
    }
    for program in ["rulings", "hunt"] {
        let kib = least_stack(program)
            .ok_or(format!("{program} is missing or needs more than is stated"))?;
        println!("{program}: {}; stated {STATED_OF_PROGRAMS}", 1024 * kib);
    }
    let over: Vec<_> = deepest.iter().filter(|(_, used)| **used > STATED).collect();
    match deepest.iter().max_by_key(|(_, bytes)| **bytes) {
        Some((name, bytes)) if over.is_empty() && deepest.len() == CALLS => {
            println!("deepest call {name}, {bytes}; stated {STATED}");
            Ok(())
        }
        _ => Err(format!(
            "more than is stated, or not all measured: {over:?}"
        )),
    }
}

/// The first runs of the soak that spawn no program.
fn library_runs() -> Result<(), String> {
    let mut watch = Watch::new(&Law::AS_WRITTEN);
    (0..STACK_RUNS)
        .filter(|number| !kind_of(*number).spawns)
        .try_for_each(|number| run(SEED, number, &mut watch))
        .map_err(|mismatch| mismatch.to_string())
}

/// The least limit in KiB under which a program still answers all of some inputs; what the system puts on its stack counts too.
fn least_stack(program: &str) -> Option<usize> {
    let random = &mut Random::new(SEED);
    let inputs: Vec<Vec<u8>> = [include_bytes!("../../../crates/hunt/stdin").to_vec()]
        .into_iter()
        .chain((0..12).map(|_| hunt_input(random)))
        .collect();
    let at = |kib: usize| -> Vec<Ended> {
        let one = |bytes: &Vec<u8>| ended(&mut limited(program, kib), bytes);
        inputs.iter().map(one).collect()
    };
    let right = at(8 * 1024);
    let (mut low, mut high) = (0, STATED_OF_PROGRAMS / 1024);
    // A program that is not there fails alike under every limit.
    if right.iter().any(|end| end.status != Some(0)) || at(high) != right {
        return None;
    }
    while high - low > 4 {
        let middle = (low + high) / 2;
        match at(middle) == right {
            true => high = middle,
            false => low = middle,
        }
    }
    Some(high)
}

/// Everything that the soak is there to notice, brought about on purpose.
fn self_test() -> Result<(), String> {
    let (mut caught, mut missed) = (0, 0);
    let mut expect = |what: String, noticed: bool| {
        println!("{}  {what}", if noticed { "caught" } else { "MISSED" });
        *if noticed { &mut caught } else { &mut missed } += 1;
    };
    let bends = KINDS
        .iter()
        .flat_map(|kind| kind.bends.iter().map(move |bend| (kind, bend)));
    let bent: Vec<(&Kind, &Bend)> = bends.collect();
    in_order(&bent, noticed, |(kind, bend), noticed| {
        expect(format!("{}: {}", kind.name, bend.what), noticed);
        true
    });
    expect("a worker that crashes".to_string(), crash_noticed());
    expect("a program that crashes".to_string(), signal_noticed());
    expect("a byte past a lent list".to_string(), margin_noticed());
    expect("a deep call".to_string(), depth_noticed());
    println!("soak: {caught} caught, {missed} missed");
    match missed {
        0 => Ok(()),
        _ => Err("the self-test failed".to_string()),
    }
}

/// Whether some run of a kind differs from the law with this bend.
fn noticed((kind, bend): &(&Kind, &Bend)) -> bool {
    let mut law = Law::AS_WRITTEN;
    (bend.bend)(&mut law);
    let mut watch = Watch::new(&law);
    (0..10_000).any(|number| (kind.run)(&mut random_of(SEED, number), &mut watch).is_err())
}

/// A worker that ends by a signal: the run is found and its input left.
fn crash_noticed() -> bool {
    let mut plan = plan(&[]).expect("no words are a plan");
    (plan.to, plan.crash_at) = (20, Some(7));
    let file = folder().join(format!("crash-{SEED}-7.txt"));
    let said = all_runs(&plan).err().unwrap_or_default();
    let left = fs::read_to_string(&file).is_ok_and(|text| text.len() > 8);
    let _ = fs::remove_file(&file);
    said.starts_with("run 7 ") && said.contains("signal 6") && left
}

fn signal_noticed() -> bool {
    let mut command = Command::new("sh");
    let end = ended(command.args(["-c", "kill -SEGV $$"]), b"");
    end != Ended::well(String::new()) && end.signal == Some(11)
}

fn margin_noticed() -> bool {
    let mut list = Lent::new(4);
    let kept = list.margins_kept();
    // SAFETY: the margin behind the list is part of the same allocation.
    unsafe { *list.pointer::<u8>().add(4) ^= 1 };
    kept && !list.margins_kept()
}

/// A call that uses 100,000 bytes is measured so, or a little more.
fn depth_noticed() -> bool {
    let call = || black_box([1u8; 100_000])[7];
    let deepest = stack::measuring(|| {
        stack::calling("deep", call);
    });
    deepest
        .get("deep")
        .is_some_and(|used| (100_000..220_000).contains(used))
}
