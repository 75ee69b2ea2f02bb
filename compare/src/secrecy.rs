//! Demand 3: words of a segment at high security tell nothing to the outside.

mod pair;
mod record;

pub use pair::twin;
pub use record::SecrecyRecord;

use crate::comparison::Difference;
use crate::generator::damage::add_malformed;
use crate::generator::list::{extend, Style, MIXED, WILD};
use crate::generator::part::{part, Size};
use crate::model::LONGEST_LIST;
use crate::random::Random;
use crate::scenario::{Scenario, Segment, AUXILIARY_FUSE, GENERAL_FUSE};
use crate::subject::Subject;
use pair::Pair;

/// Fuse bytes that put a segment at high security on every part.
const HIGH: [u32; 6] = [0x31, 0x30, 0x01, 0x00, 0x11, 0x20];

/// Fuse bytes that do so by their key, on parts that have keys.
const HIGH_BY_KEY: [u32; 4] = [0x33, 0x13, 0x02, 0x22];

/// The well-formed events of a short list, and of one longer than a run may take.
const SHORT: usize = 60;
const LONG: usize = 6000;

/// A part whose secret segment is at high security, and a short list of any events.
pub fn short_scenario(random: &mut Random, secret: Segment) -> Scenario {
    let part = high_part(random, secret);
    let style = either_style(random);
    with_list(random, part, SHORT, &style)
}

/// The same with a long list that leaves the secret's words mostly as they are.
pub fn long_scenario(random: &mut Random, secret: Segment) -> Scenario {
    let part = high_part(random, secret);
    let writable = part.state[fuse(secret)] & 0x01 != 0;
    // Erased pages are equal on both devices; write protection keeps them from being erased.
    let style = either_style(random).without(match (secret, writable) {
        (Segment::General, true) => &[7, 8],
        (Segment::General, false) => &[8],
        (Segment::Auxiliary, true) => &[7, 9],
        (Segment::Auxiliary, false) => &[9],
    });
    with_list(random, part, LONG, &style)
}

/// A part with AS, now and then a large one, whose secret segment is at high security.
fn high_part(random: &mut Random, secret: Segment) -> Scenario {
    let size = if random.once_in(16) {
        Size::Any
    } else {
        Size::Small
    };
    let mut scenario = part(random, size);
    while scenario.auxiliary.is_empty() {
        scenario = part(random, size);
    }
    let keys = scenario.description[3] != 0;
    scenario.state[fuse(secret)] = if keys && random.once_in(2) {
        random.pick(&HIGH_BY_KEY)
    } else {
        random.pick(&HIGH)
    };
    scenario
}

fn either_style(random: &mut Random) -> Style {
    if random.once_in(2) {
        MIXED
    } else {
        WILD
    }
}

fn with_list(random: &mut Random, mut scenario: Scenario, count: usize, style: &Style) -> Scenario {
    extend(random, &mut scenario, count, style);
    add_malformed(random, &mut scenario.events);
    scenario.slots = scenario.events.len() / 3 * 2;
    scenario
}

/// The position in a state of the fuse byte that protects the secret.
fn fuse(secret: Segment) -> usize {
    match secret {
        Segment::General => GENERAL_FUSE,
        Segment::Auxiliary => AUXILIARY_FUSE,
    }
}

/// True where the secret's segment is at high security, as demand 3 supposes.
pub fn is_high(scenario: &Scenario, secret: Segment) -> bool {
    let byte = scenario.state[fuse(secret)] & 0x33;
    let keys = scenario.description[3] != 0;
    byte & 0x02 == 0 || keys && ![0x03, 0x32].contains(&byte)
}

/// Takes two devices, alike but for the secret's words, through the list: in steps, then in runs.
pub fn check(
    subject: &Subject,
    scenario: &Scenario,
    secret: Segment,
    seed: u64,
) -> Result<SecrecyRecord, Difference> {
    assert!(is_high(scenario, secret), "demand 3 supposes high security");
    let pair = Pair::new(subject, scenario, secret, seed);
    let (mut record, may_tell) = check_steps(pair.clone())?;
    record.in_runs = check_runs(pair, &may_tell)?;
    Ok(record)
}

/// Steps through the list; also says which events' values may differ.
fn check_steps(mut pair: Pair) -> Result<(SecrecyRecord, Vec<bool>), Difference> {
    let mut record = SecrecyRecord::default();
    let mut may_tell = Vec::new();
    for (position, event) in pair.scenario.triples().enumerate() {
        let differs = pair.differs();
        may_tell.push(pair.may_tell());
        let [report, other] = pair
            .step(event)
            .map_err(|difference| difference.after_event(position))?;
        if may_tell[position] {
            record.told_inside += u64::from(report.value != other.value);
        } else if differs {
            let reads_secret = event[0] == 4 && pair.scenario.holds(pair.secret, event[1]);
            record.outside += 1;
            record.late += u64::from(position >= LONGEST_LIST);
            record.zeroed += u64::from(reads_secret && report.answer == 1);
        }
    }
    Ok((record, may_tell))
}

/// Runs the list, again from where a run ended; returns the events from outside that it tested.
fn check_runs(mut pair: Pair, may_tell: &[bool]) -> Result<u64, Difference> {
    let mut tested = 0;
    let mut start = 0;
    while start < may_tell.len() {
        let end = may_tell.len().min(start + LONGEST_LIST);
        let differs = pair.differs();
        let events = &pair.scenario.events[3 * start..3 * end];
        let count = pair
            .run(events, &may_tell[start..end])
            .map_err(|difference| difference.in_run_from(start))?;
        let answered = may_tell[start..end].iter().take(count);
        if differs {
            tested += answered.filter(|may_tell| !**may_tell).count() as u64;
        }
        // A run that answers nothing would be repeated for ever.
        start += count.max(1);
    }
    Ok(tested)
}
