//! `all`: every comparison in turn, and one table of what was compared.

use std::time::Instant;

use super::extent::Extent;
use super::report::Report;
use super::{check, depth, exhaust, needs, texts};

/// Each command's count times one, and its own seed.
pub const DEFAULT: Extent = Extent { count: 1, seed: 0 };

/// A command by its name.
type Command = (&'static str, Box<dyn Fn() -> Report>);

/// Multiplies each command's count, and changes each one's seed by the given one.
pub fn run(extent: Extent) -> Report {
    let mut commands: Vec<Command> = vec![sized("check", check::run, check::DEFAULT, extent)];
    commands.push(("exhaust", Box::new(exhaust::run)));
    commands.extend(beside_original(extent));
    commands.push(sized("needs", needs::run, needs::DEFAULT, extent));
    commands.push(sized("texts", texts::run, texts::DEFAULT, extent));
    commands.push(("depth", Box::new(depth::run)));
    let mut whole = Report::default();
    for (name, command) in commands {
        println!("-- {name}");
        let start = Instant::now();
        whole.add(command());
        println!("{:.1} seconds", start.elapsed().as_secs_f64());
    }
    println!("-- what was compared\n{}", whole.table());
    whole
}

fn sized(name: &'static str, run: fn(Extent) -> Report, own: Extent, asked: Extent) -> Command {
    let extent = Extent {
        count: own.count * asked.count,
        seed: own.seed ^ asked.seed,
    };
    (name, Box::new(move || run(extent)))
}

#[cfg(original)]
fn beside_original(extent: Extent) -> Vec<Command> {
    use super::{conditions, dependencies, indices, original, resolution};
    vec![
        sized("original", original::run, original::DEFAULT, extent),
        sized("indices", indices::run, indices::DEFAULT, extent),
        sized("resolution", resolution::run, resolution::DEFAULT, extent),
        sized("conditions", conditions::run, conditions::DEFAULT, extent),
        sized(
            "dependencies",
            dependencies::run,
            dependencies::DEFAULT,
            extent,
        ),
    ]
}

/// Without the original there is only to say so.
#[cfg(not(original))]
fn beside_original(_: Extent) -> Vec<Command> {
    let not_at_hand = || Report {
        status: super::no_original("all"),
        rows: Vec::new(),
    };
    vec![("beside the original", Box::new(not_at_hand))]
}

#[cfg(test)]
mod tests {
    use super::*;

    #[test]
    fn a_count_is_multiplied_and_a_seed_changed() {
        let seen = |extent: Extent| Report {
            status: extent.count as u8 + extent.seed as u8,
            rows: Vec::new(),
        };
        let own = Extent { count: 10, seed: 1 };
        let status = |asked| sized("seen", seen, own, asked).1().status;
        assert_eq!(status(DEFAULT), 11);
        assert_eq!(status(Extent { count: 3, seed: 2 }), 33);
    }
}
