//! The table of all tests: which inputs there are, what they are played through, and how many of them.

use crate::random::Rng;
use crate::{
    breaks, captures, device_scripts, link_scripts, refusal_scripts, scripts, streams, transfer_scripts, vectors,
    whole_tables,
};

/// What an input is played through: the program `list_program`, one kind of script on `test_driver`, or a capture on
/// `replay_program`: through a pipe, in many cuts into reads, or live.
#[derive(Clone, Copy, PartialEq, Eq, Debug)]
pub enum Play {
    List,
    Messages,
    Calls,
    Links,
    Transfers,
    Device,
    Replay,
    Cuts,
    Live,
}

const PLAYS: [Play; 9] = [
    Play::List,
    Play::Messages,
    Play::Calls,
    Play::Links,
    Play::Transfers,
    Play::Device,
    Play::Replay,
    Play::Cuts,
    Play::Live,
];

#[derive(Clone, Copy, PartialEq, Eq, Debug)]
pub enum Program {
    List,
    Driver,
    Replay,
}

pub const PROGRAMS: [Program; 3] = [Program::List, Program::Driver, Program::Replay];

impl Play {
    fn name(self) -> &'static str {
        match self {
            Play::List => "list",
            Play::Messages => "messages",
            Play::Calls => "calls",
            Play::Links => "links",
            Play::Transfers => "transfers",
            Play::Device => "device",
            Play::Replay => "replay",
            Play::Cuts => "cuts",
            Play::Live => "live",
        }
    }

    pub fn named(name: &str) -> Option<Play> {
        PLAYS.into_iter().find(|play| play.name() == name)
    }

    pub fn program(self) -> Program {
        match self {
            Play::List => Program::List,
            Play::Messages | Play::Calls | Play::Links | Play::Transfers | Play::Device => Program::Driver,
            Play::Replay | Play::Cuts | Play::Live => Program::Replay,
        }
    }
}

impl Program {
    pub fn name(self) -> &'static str {
        match self {
            Program::List => "list_program",
            Program::Driver => "test_driver",
            Program::Replay => "replay_program",
        }
    }
}

/// Makes an input from its index; one that the index does not fix is random.
type Make = fn(&mut Rng, u64) -> Vec<u8>;

/// What a family makes, and with it what that is played through.
#[derive(Clone, Copy)]
enum Kind {
    /// A stream to list, to play in records, to feed to the reader in random cuts, and for the whole box to handle.
    Stream(Make),
    /// A stream that is too long for random cuts.
    Long(Make),
    /// A script of single calls to the reader and the writer.
    Calls(Make),
    /// A script of a link's records.
    Links(Make),
    /// A script of a transfer's records.
    Transfers(Make),
    /// A script of bytes on the wire for the whole box.
    Device(Make),
    Capture(Make),
    /// A capture that is short enough for many cuts into reads.
    Short(Make),
    /// A capture whose lines are awaited before more of it is sent.
    Live(Make),
}

impl Kind {
    fn make(self) -> Make {
        match self {
            Kind::Stream(make) | Kind::Long(make) | Kind::Calls(make) | Kind::Links(make) => make,
            Kind::Transfers(make) | Kind::Device(make) => make,
            Kind::Capture(make) | Kind::Short(make) | Kind::Live(make) => make,
        }
    }
}

pub struct Family {
    pub name: &'static str,
    kind: Kind,
    /// How many inputs, for the count of a run.
    inputs: fn(u64) -> u64,
}

const fn family(name: &'static str, kind: Kind, inputs: fn(u64) -> u64) -> Family {
    Family { name, kind, inputs }
}

fn full_count(count: u64) -> u64 {
    count
}

const FAMILIES: [Family; 64] = [
    family("whole", Kind::Stream(streams::whole), full_count),
    family("damaged", Kind::Stream(streams::damaged), full_count),
    family("cut", Kind::Stream(streams::cut), full_count),
    family("brim", Kind::Stream(streams::brim), full_count),
    family("noise", Kind::Stream(streams::noise), full_count),
    family("few-bytes", Kind::Stream(streams::few_bytes), full_count),
    family("half-headers", Kind::Stream(streams::half_headers), full_count),
    family("all-ff", Kind::Stream(streams::all_ff), full_count),
    family("lengths", Kind::Stream(streams::lengths), full_count),
    family("wrong-sums", Kind::Stream(streams::wrong_sums), full_count),
    family("every-sum", Kind::Stream(streams::every_sum), |_| streams::SUM_SETS),
    family("breaks", Kind::Stream(breaks::anywhere), full_count),
    // Never fewer than one input for each size.
    family("every-break", Kind::Stream(breaks::every_place), |count| count.max(breaks::SWEPT_SIZES)),
    family("every-break-of-largest", Kind::Long(breaks::every_place_of_largest), |_| 2),
    family("every-breaking-byte", Kind::Stream(breaks::every_byte), |_| breaks::COUNTS),
    // Never fewer than one input for each command.
    family("commands", Kind::Stream(streams::commands), |count| count.max(256)),
    family("every-bit", Kind::Stream(streams::every_bit), |_| streams::BIT_SETS),
    family("empty", Kind::Stream(streams::empty), |_| 1),
    family("vectors", Kind::Stream(|_, index| vectors::all()[index as usize].clone()), |_| vectors::all().len() as u64),
    family("long", Kind::Long(streams::long), |count| count / 10),
    family("limits", Kind::Calls(scripts::limits), full_count),
    family("writer", Kind::Calls(scripts::writer), full_count),
    family("every-room", Kind::Calls(scripts::every_room), |count| count / 4),
    family("every-cut-vectors", Kind::Calls(scripts::every_cut_of_vector), |_| vectors::short().len() as u64),
    family("every-cut-damaged", Kind::Calls(scripts::every_cut_of_damaged), |count| count / 2),
    family("every-stream", Kind::Calls(scripts::every_stream), |_| scripts::STREAM_SETS),
    family("every-large-room", Kind::Calls(scripts::every_large_room), |_| 1),
    family("long-life", Kind::Links(link_scripts::long_life), full_count),
    family("any-state", Kind::Links(link_scripts::any_state), full_count),
    family("link-noise", Kind::Links(link_scripts::noise), full_count),
    family("capture-whole", Kind::Capture(captures::whole), full_count),
    family("capture-small-records", Kind::Capture(captures::small_records), full_count),
    family("capture-empty-records", Kind::Capture(captures::empty_records), full_count),
    family("capture-in-step", Kind::Capture(captures::in_step), full_count),
    family("capture-all-ff", Kind::Capture(captures::all_ff), full_count),
    family("capture-breaks", Kind::Capture(captures::breaks), full_count),
    family("capture-vectors", Kind::Capture(captures::of_vector), |_| vectors::all().len() as u64),
    family("capture-cut", Kind::Capture(captures::cut), full_count),
    family("capture-cut-heads", Kind::Capture(captures::cut_heads), full_count),
    family("capture-damaged", Kind::Capture(captures::damaged), full_count),
    family("capture-damaged-heads", Kind::Capture(captures::damaged_heads), full_count),
    family("capture-directions", Kind::Capture(captures::directions), full_count),
    family("capture-few-bytes", Kind::Capture(captures::few_bytes), full_count),
    family("capture-noise", Kind::Capture(captures::noise), full_count),
    family("capture-full-records", Kind::Capture(captures::full_records), |count| count / 4),
    family("capture-long", Kind::Capture(captures::long), |count| count / 10),
    family("every-cut-capture", Kind::Short(captures::shortest), |_| captures::SHORTEST_COUNT),
    family("two-cuts-capture", Kind::Short(captures::short), |count| count / 25),
    family("live-capture", Kind::Live(captures::any), |count| count / 2),
    family("live-worked-capture", Kind::Live(captures::worked), |_| 1),
    family("replies", Kind::Calls(scripts::replies), full_count),
    family("transfer-life", Kind::Transfers(transfer_scripts::life), full_count),
    family("transfer-any-state", Kind::Transfers(transfer_scripts::any_state), full_count),
    family("transfer-noise", Kind::Transfers(transfer_scripts::noise), full_count),
    family("every-announcement", Kind::Transfers(refusal_scripts::announcements), |_| {
        refusal_scripts::ANNOUNCEMENT_SETS
    }),
    family("every-piece", Kind::Transfers(refusal_scripts::pieces), |_| refusal_scripts::PIECE_SETS),
    family("every-cancellation", Kind::Transfers(refusal_scripts::cancellations), |_| 2),
    family("every-transfer-room", Kind::Transfers(refusal_scripts::every_room), |count| count / 8),
    family("device-life", Kind::Device(device_scripts::life), full_count),
    family("device-commands", Kind::Device(device_scripts::commands), |count| count / 10),
    family("device-states", Kind::Device(device_scripts::states), |count| count / 20),
    family("every-small-table", Kind::Device(whole_tables::every_small), |_| whole_tables::SMALL_SETS),
    family("most-pieces", Kind::Device(whole_tables::most_pieces), |_| whole_tables::MOST_SETS),
    family("whole-table", Kind::Device(whole_tables::whole_table), |_| whole_tables::TABLE_SETS),
];

/// One input, played once.
#[derive(Clone, Copy)]
pub struct Test {
    pub play: Play,
    family: usize,
    index: u64,
}

impl Test {
    pub fn named(play: Play, family: &str, index: u64) -> Option<Test> {
        let place = FAMILIES.iter().position(|known| known.name == family)?;
        let fits = FAMILIES[place].plays().contains(&play) && index < (FAMILIES[place].inputs)(u64::MAX);
        fits.then_some(Test { play, family: place, index })
    }

    pub fn name(&self, seed: u64) -> String {
        let family = FAMILIES[self.family].name;
        format!("{} seed {seed} family {family} index {}", self.play.name(), self.index)
    }

    pub fn input(&self, seed: u64) -> Vec<u8> {
        let mut rng = Rng::for_test(seed, self.family as u64, self.index);
        let kind = FAMILIES[self.family].kind;
        let made = kind.make()(&mut rng, self.index);
        match (kind, self.play) {
            (Kind::Stream(_), Play::Calls) => scripts::random_cuts(&made, &mut rng),
            (Kind::Stream(_), Play::Device) => device_scripts::of_stream(&made, &mut rng),
            (_, Play::Messages) => scripts::in_records(&made, &mut rng),
            _ => made,
        }
    }
}

impl Family {
    fn plays(&self) -> &'static [Play] {
        match self.kind {
            Kind::Stream(_) => &[Play::List, Play::Messages, Play::Calls, Play::Device],
            Kind::Long(_) => &[Play::List, Play::Messages],
            Kind::Calls(_) => &[Play::Calls],
            Kind::Links(_) => &[Play::Links],
            Kind::Transfers(_) => &[Play::Transfers],
            Kind::Device(_) => &[Play::Device],
            Kind::Capture(_) => &[Play::Replay],
            Kind::Short(_) => &[Play::Cuts],
            Kind::Live(_) => &[Play::Live],
        }
    }
}

/// All tests of a run.
pub fn tests(count: u64) -> Vec<Test> {
    let mut tests = Vec::new();
    for (place, family) in FAMILIES.iter().enumerate() {
        for index in 0..(family.inputs)(count) {
            tests.extend(family.plays().iter().map(|&play| Test { play, family: place, index }));
        }
    }
    tests
}
