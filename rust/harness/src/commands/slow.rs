//! `slow`: looks for images on which a resolution takes long for the check of the image. It keeps the slowest image of
//! each beginning, changes it, and fails where one exceeds the bound.

use std::fs;
use std::hint::black_box;
use std::path::PathBuf;
use std::sync::mpsc::{Receiver, RecvTimeoutError, Sender, channel};
use std::thread;
use std::time::{Duration, Instant};

use super::report::grouped;
use super::{DONE, FAILED, usage};
use crate::generate::change::changed;
use crate::generate::slow::{BOUNDED_BYTES, FAMILIES, holds};
use crate::image::{MOST_NUMBERED, Tree};
use crate::large_stack::LARGE;
use crate::port;
use crate::random::Random;
use crate::second_reading::resolution_need;

/// How many times its check a resolution may take on an image of at most `BOUNDED_BYTES`.
const BOUND: f64 = 1000.0;
const SECONDS: u64 = 60;
const SEED: u64 = 0x510;
/// The sizes that each family begins with.
const BEGINNINGS: [usize; 2] = [BOUNDED_BYTES / 8, BOUNDED_BYTES];
/// What is lent at most, room for 65,536 scopes: with more the time would be that of clearing it.
const MOST_ROOM: usize = 4 * MOST_NUMBERED + 8 * (1 << 16);
/// A call that is short is made so often that the clock does not count.
const SHORT: Duration = Duration::from_micros(20);
/// What seems slower than all before is timed so often, and the least time counts: other work on the machine makes
/// neither a failure nor an image that is kept. What takes this long as a whole is not tried again.
const TRIES: usize = 5;
const TRIED_FOR: Duration = Duration::from_secs(1);
/// A call that has not come back after this and after so many times the bound never will.
const PATIENCE: Duration = Duration::from_secs(10);
const PATIENT: f64 = 20.0;

/// What the words behind the command ask for.
#[derive(Clone, Debug, PartialEq)]
struct Options {
    seconds: u64,
    seed: u64,
    bound: f64,
    /// One image that is to be timed, instead of the search.
    image: Option<PathBuf>,
    /// Where an image that exceeds the bound is written, or else the slowest.
    out: PathBuf,
}

impl Options {
    fn parse(words: &[&str]) -> Option<Self> {
        let mut options = Options {
            seconds: SECONDS,
            seed: SEED,
            bound: BOUND,
            image: None,
            out: PathBuf::from("slow.image"),
        };
        for pair in words.chunks(2) {
            match *pair {
                ["--seconds", word] => options.seconds = word.parse().ok()?,
                ["--seed", word] => options.seed = super::extent::number(word)?,
                ["--bound", word] => options.bound = word.parse().ok()?,
                ["--image", file] => options.image = Some(file.into()),
                ["--out", file] => options.out = file.into(),
                _ => return None,
            }
        }
        Some(options)
    }
}

pub fn run(words: &[&str]) -> u8 {
    let Some(options) = Options::parse(words) else {
        return usage();
    };
    let timer = Timer::start(Box::new(resolver()), options.bound, PATIENCE);
    match &options.image {
        Some(file) => time_file(&timer, file, options.bound),
        None => search(&timer, beginnings(), &options),
    }
}

/// The call that is timed: an image, and the working bytes that are lent with it.
type Timed = Box<dyn FnMut(&[u8], usize) -> u32 + Send>;

/// A resolution with the highest budget; its buffers are lent again and again.
fn resolver() -> impl FnMut(&[u8], usize) -> u32 + Send {
    let mut table = vec![0; 2 * MOST_NUMBERED];
    let mut working = vec![0; MOST_ROOM];
    move |image, room| {
        let working = &mut working[..room];
        port::name_resolution(image, u32::MAX, &mut table, working, &mut 0)
    }
}

/// Nanoseconds of the check and of the call on an image.
#[derive(Clone, Copy, Debug, PartialEq)]
struct Times {
    check: f64,
    call: f64,
}

impl Times {
    fn ratio(self) -> f64 {
        self.call / self.check
    }
}

/// An image, the working bytes that are lent with it, and the ratio that it must exceed to be of interest.
struct Request {
    image: Vec<u8>,
    room: usize,
    known: f64,
}

/// A thread that times images. A call cannot be stopped: where one does not come back, the thread is left to itself.
struct Timer {
    requests: Sender<Request>,
    times: Receiver<Times>,
    bound: f64,
    patience: Duration,
}

impl Timer {
    fn start(mut call: Timed, bound: f64, patience: Duration) -> Self {
        let (requests, received) = channel::<Request>();
        let (send, times) = channel();
        let work = move || {
            for Request { image, room, known } in received {
                let times = times_of(&image, &mut || call(&image, room), known);
                // Nobody waits for what comes too late.
                let _ = send.send(times);
            }
        };
        let thread = thread::Builder::new().stack_size(LARGE).spawn(work);
        thread.expect("a thread that times");
        Timer {
            requests,
            times,
            bound,
            patience,
        }
    }

    /// The times of an image, or none where the call does not come back.
    fn times(&self, image: &[u8], known: f64) -> Option<Times> {
        let check = least(&mut || port::check(image));
        let request = Request {
            image: image.to_vec(),
            room: resolution_need(image).min(MOST_ROOM as u64) as usize,
            known: known.min(self.bound),
        };
        self.requests.send(request).expect("the timing thread");
        let nanos = PATIENT * self.bound.max(1.0) * check;
        let limit = self.patience + Duration::from_nanos(nanos as u64);
        match self.times.recv_timeout(limit) {
            Ok(times) => Some(times),
            Err(RecvTimeoutError::Timeout) => None,
            Err(RecvTimeoutError::Disconnected) => panic!("the timing thread has ended"),
        }
    }
}

/// The least times of some tries: of several where the ratio seems to be above what is known.
fn times_of(image: &[u8], call: &mut dyn FnMut() -> u32, known: f64) -> Times {
    let start = Instant::now();
    let mut times = Times {
        check: least(&mut || port::check(image)),
        call: least(call),
    };
    for _ in 1..TRIES {
        if times.ratio() <= known || start.elapsed() > TRIED_FOR {
            break;
        }
        times.check = times.check.min(least(&mut || port::check(image)));
        times.call = times.call.min(least(call));
    }
    times
}

/// Nanoseconds of a call: the least of two rounds, where a round is short.
fn least(call: &mut dyn FnMut() -> u32) -> f64 {
    let start = Instant::now();
    black_box(call());
    let first = start.elapsed();
    if first > 50 * SHORT {
        return first.as_nanos() as f64;
    }
    let count = SHORT.as_nanos() / first.as_nanos().max(1) + 1;
    let rounds = [(); 2].map(|()| {
        let start = Instant::now();
        for _ in 0..count {
            black_box(call());
        }
        start.elapsed().as_nanos() as f64 / count as f64
    });
    rounds.into_iter().fold(first.as_nanos() as f64, f64::min)
}

/// The slowest image so far of one beginning.
struct Kept {
    name: String,
    tree: Tree,
    ratio: f64,
}

/// Every family in each size that it begins with.
fn beginnings() -> Vec<(String, Tree)> {
    let sizes = |bytes: usize| {
        FAMILIES.iter().map(move |family| {
            let name = format!("{}, {} KiB", family.name, bytes >> 10);
            (name, family.within(bytes))
        })
    };
    BEGINNINGS.into_iter().flat_map(sizes).collect()
}

/// Times the beginnings, and then changed copies of what is kept, until the time is up or the bound is exceeded.
fn search(timer: &Timer, beginnings: Vec<(String, Tree)>, options: &Options) -> u8 {
    let start = Instant::now();
    let begun = beginnings.into_iter().map(|(name, tree)| {
        let ratio = held(timer, &tree, (&name, 0.0), options)?;
        Some(Kept { name, tree, ratio })
    });
    let Some(mut kept) = begun.collect::<Option<Vec<Kept>>>() else {
        return FAILED;
    };
    let mut random = Random::new(options.seed);
    let mut tried = kept.len();
    while start.elapsed().as_secs() < options.seconds {
        let place = chosen(&mut random, &kept);
        let other = &random.pick(&kept).tree;
        let tree = changed(&mut random, &kept[place].tree, other);
        if !holds(&tree, BOUNDED_BYTES) || port::check(&tree.encode()) != 0 {
            continue;
        }
        tried += 1;
        let before = (&*kept[place].name, kept[place].ratio);
        let Some(ratio) = held(timer, &tree, before, options) else {
            return FAILED;
        };
        if ratio > kept[place].ratio {
            (kept[place].tree, kept[place].ratio) = (tree, ratio);
        }
    }
    print_kept(kept, tried, options);
    DONE
}

/// Mostly one of all, at times the slowest.
fn chosen(random: &mut Random, kept: &[Kept]) -> usize {
    let place = random.below(kept.len());
    let slowest =
        |&first: &usize, &second: &usize| kept[first].ratio.total_cmp(&kept[second].ratio);
    match random.chance(30) {
        true => (0..kept.len()).max_by(slowest).unwrap_or(place),
        false => place,
    }
}

/// The ratio of an image that keeps to the bound; one that does not is written and said.
fn held(timer: &Timer, tree: &Tree, (name, known): (&str, f64), options: &Options) -> Option<f64> {
    let image = tree.encode();
    let times = timer.times(&image, known);
    let ratio = times.map(Times::ratio);
    if ratio.is_some_and(|ratio| ratio <= options.bound) {
        return ratio;
    }
    println!(
        "FAILED: an image of {} bytes, begun as {name}: {}",
        grouped(image.len()),
        said(times, options.bound)
    );
    write(&image, options);
    None
}

/// Writes an image to the file that is for it, and says how to time it again.
fn write(image: &[u8], options: &Options) {
    let (out, bound) = (options.out.display(), options.bound);
    match fs::write(&options.out, image) {
        Ok(()) => println!("it is in {out}; again: harness slow --image {out} --bound {bound}"),
        Err(error) => println!("{out}: {error}"),
    }
}

fn said(times: Option<Times>, bound: f64) -> String {
    times.map_or(
        format!("not back after far more than {bound} times its check"),
        |times| {
            let Times { check, call } = times;
            format!(
                "{:.1} times its check ({call:.0} ns over {check:.0} ns), bound {bound}",
                times.ratio()
            )
        },
    )
}

/// Times one image from a file.
fn time_file(timer: &Timer, file: &PathBuf, bound: f64) -> u8 {
    let image = match fs::read(file) {
        Ok(image) if port::check(&image) == 0 => image,
        Ok(_) => {
            eprintln!("{}: refused", file.display());
            return FAILED;
        }
        Err(error) => {
            eprintln!("{}: {error}", file.display());
            return FAILED;
        }
    };
    let times = timer.times(&image, 0.0);
    println!("{}", said(times, bound));
    let is_held = times.is_some_and(|times| times.ratio() <= bound);
    if is_held { DONE } else { FAILED }
}

/// How many of the slowest are printed.
const PRINTED: usize = 10;

fn print_kept(mut kept: Vec<Kept>, tried: usize, options: &Options) {
    let (bound, seed) = (options.bound, options.seed);
    println!(
        "{} images of at most {} bytes, none above {bound} times its check; seed {seed:#x}",
        grouped(tried),
        grouped(BOUNDED_BYTES)
    );
    println!("| begun as | bytes | resolution over check |");
    println!("|---|---|---|");
    kept.sort_by(|first, second| second.ratio.total_cmp(&first.ratio));
    for Kept { name, tree, ratio } in kept.iter().take(PRINTED) {
        println!("| {name} | {} | {ratio:.1} |", grouped(tree.encode().len()));
    }
    println!("the first of them is the slowest");
    kept.iter()
        .take(1)
        .for_each(|slowest| write(&slowest.tree.encode(), options));
}

#[cfg(test)]
mod tests {
    use super::*;
    use crate::commands::BAD_USAGE;
    use crate::image::Fields;
    use crate::notation::survey_case;

    fn options(name: &str, bound: f64) -> Options {
        let file = format!("slow-{}-{name}.image", std::process::id());
        Options {
            bound,
            out: std::env::temp_dir().join(file),
            ..Options::parse(&["--seconds", "30"]).expect("options")
        }
    }

    fn start() -> Vec<(String, Tree)> {
        vec![("printed case".to_string(), survey_case())]
    }

    fn wait(time: Duration) {
        let start = Instant::now();
        while start.elapsed() < time {
            std::hint::spin_loop();
        }
    }

    /// The written image, taken away again.
    fn written(options: &Options) -> Vec<u8> {
        let image = fs::read(&options.out).expect("an image that was written");
        fs::remove_file(&options.out).expect("a file of this test");
        image
    }

    #[test]
    fn words_are_options() {
        let options = Options::parse(&["--seed", "0x10", "--bound", "2.5"]).expect("options");
        assert_eq!((options.seed, options.bound), (16, 2.5));
        assert_eq!(Options::parse(&["--seconds"]), None);
        assert_eq!(run(&["--seconds", "x"]), BAD_USAGE);
        assert_eq!(run(&["--nothing", "1"]), BAD_USAGE);
        assert_eq!(run(&["--image", "there is none"]), FAILED);
    }

    #[test]
    fn a_call_that_is_slow_in_the_square_of_the_items_is_found() {
        let items = |image: &[u8]| Fields::decode(image).expect("accepted").header.items;
        let planted = move |image: &[u8], _| {
            let items = u64::from(items(image));
            wait(Duration::from_nanos(items * items));
            0
        };
        let options = options("planted", BOUND);
        let timer = Timer::start(Box::new(planted), options.bound, PATIENCE);
        assert_eq!(search(&timer, start(), &options), FAILED);
        let image = written(&options);
        assert!(image.len() <= BOUNDED_BYTES && port::check(&image) == 0);
        assert!(items(&image) > items(&survey_case().encode()));
    }

    #[test]
    fn a_call_that_does_not_come_back_is_a_failure() {
        let planted = |_: &[u8], _| {
            thread::sleep(Duration::from_secs(20));
            0
        };
        let options = options("never", BOUND);
        let timer = Timer::start(Box::new(planted), options.bound, Duration::from_millis(20));
        assert_eq!(search(&timer, start(), &options), FAILED);
        assert_eq!(written(&options), survey_case().encode());
    }

    #[test]
    fn a_lower_bound_is_exceeded_and_a_file_is_timed_alone() {
        let options = options("lowered", 0.01);
        let timer = || Timer::start(Box::new(resolver()), options.bound, PATIENCE);
        assert_eq!(search(&timer(), start(), &options), FAILED);
        let times = |bound: &str| {
            let file = options.out.to_str().expect("a path");
            run(&["--image", file, "--bound", bound])
        };
        assert_eq!((times("0.01"), times("1000000")), (FAILED, DONE));
        written(&options);
    }

    #[test]
    fn without_a_slow_call_the_time_goes_by() {
        let options = Options {
            seconds: 1,
            ..options("none", 1e9)
        };
        let timer = Timer::start(
            Box::new(|image, _| port::check(image)),
            options.bound,
            PATIENCE,
        );
        assert_eq!(search(&timer, start(), &options), DONE);
        assert_eq!(port::check(&written(&options)), 0);
    }
}
