//! The machine: settings, one command performed and priced, the course through a body, and the forecast.
//! Answers to 01, "One step, and what it costs", and to the number 17.

use crate::no::{No, Refusal};
use crate::program::{Command, Kind, Loop, Reader, Widths, read_command};

/// The columns of the sign.
pub const COLUMNS: u16 = 96;

/// The scans that a text takes to come in from above or below.
const SCANS_IN: u32 = 7;

/// What commands set and later commands go by.
#[derive(Clone, Copy, Debug, PartialEq, Eq)]
pub struct Settings {
    pub pace: u8,
    pub scans: u8,
    /// The AUX drive: 0 floats, 1 sinks.
    pub sink: u8,
    pub dim: u8,
    pub bright: u8,
}

impl Settings {
    /// The settings of a sign just switched on.
    pub const POWER_ON: Settings = Settings { pace: 4, scans: 1, sink: 0, dim: 16, bright: 0 };

    /// The settings behind a reset, which leaves what concerns brightness.
    pub fn after_reset(self) -> Settings {
        Settings { dim: self.dim, bright: self.bright, ..Settings::POWER_ON }
    }

    /// Whether every setting is one that a command could have left.
    pub fn are_sound(&self) -> bool {
        let lighting = self.dim != 0 && matches!(self.bright, 0 | 2..=31);
        pacing_in_range(self.pace, self.scans) && self.sink <= 1 && lighting
    }

    /// Takes over what a command sets.
    fn change(&mut self, command: &Command) {
        match command.kind {
            Kind::P => self.pace = command.number,
            Kind::Equals => self.scans = command.number,
            Kind::XS => self.sink = 1,
            Kind::XF => self.sink = 0,
            Kind::XD => self.dim = command.number,
            Kind::XB if command.number < 2 => self.bright = 0,
            Kind::XB => self.bright = command.number.min(31),
            _ => {}
        }
    }
}

fn pacing_in_range(pace: u8, scans: u8) -> bool {
    (1..=20).contains(&pace) && (1..=6).contains(&scans)
}

/// What one step did; the default is the step of a sign with nothing to do.
#[derive(Clone, Copy, Debug, Default, PartialEq, Eq)]
pub struct Step {
    pub kind: Option<Kind>,
    pub number: u32,
    pub place: u32,
    pub length: u32,
    pub column: u32,
    pub scans: u32,
    pub milliseconds: u32,
}

/// Performs a command on the settings and prices it.
pub(crate) fn perform(command: &Command, settings: &mut Settings) -> Step {
    let kind = performed(command);
    let shown = matches!(kind, Kind::II | Kind::IA | Kind::IB);
    let column = if shown { (COLUMNS - command.text.widths.lit) / 2 } else { 0 };
    let scans = scans_of(kind, command.text.widths, settings);
    let milliseconds = match kind {
        Kind::W => 100 * u32::from(command.number),
        _ => (200 * scans).div_ceil(5 + u32::from(settings.pace)),
    };
    settings.change(command);
    Step {
        kind: Some(kind),
        number: u32::from(command.number),
        place: u32::from(command.text.place),
        length: u32::from(command.text.length),
        column: u32::from(column),
        scans,
        milliseconds,
    }
}

/// The kind as it is performed: a text too wide to be shown scrolls.
fn performed(command: &Command) -> Kind {
    if command.text.widths.lit > COLUMNS { Kind::S } else { command.kind }
}

/// The scans that a command takes.
fn scans_of(kind: Kind, widths: Widths, settings: &Settings) -> u32 {
    match kind {
        Kind::IA | Kind::IB => SCANS_IN,
        Kind::S if widths.whole > 0 => u32::from(widths.whole + COLUMNS) * u32::from(settings.scans),
        _ => 0,
    }
}

/// Where a running program stands; all zeros when none runs.
#[derive(Clone, Copy, Debug, Default, PartialEq, Eq)]
pub struct Course {
    pub place: u8,
    pub loop_place: u8,
    pub loop_left: u8,
}

impl Course {
    /// Goes to where the command at this place leads.
    pub(crate) fn follow(&mut self, command: &Command) {
        let next = command.end;
        match command.kind {
            Kind::L => *self = Course { place: next, loop_place: next, loop_left: command.number },
            Kind::E if self.loop_left > 1 => {
                self.loop_left -= 1;
                self.place = self.loop_place;
            }
            Kind::E => *self = Course { place: next, ..Course::default() },
            Kind::F => self.place = self.loop_place,
            Kind::R => self.place = 0,
            _ => self.place = next,
        }
    }

    /// Whether loop place and count fit a command that stands in this loop, or in none.
    pub fn fits(&self, around: Option<Loop>) -> bool {
        match around {
            Some(open) => self.loop_place == open.behind && (1..=open.number).contains(&self.loop_left),
            None => self.loop_place == 0 && self.loop_left == 0,
        }
    }
}

/// Totals of a program that comes to its end.
#[derive(Clone, Copy, Debug, Default, PartialEq, Eq)]
pub struct Totals {
    pub steps: u32,
    pub scans: u32,
    pub milliseconds: u32,
}

impl Totals {
    fn count(&mut self, step: &Step) {
        self.add(Totals { steps: 1, scans: step.scans, milliseconds: step.milliseconds }, 1);
    }

    fn add(&mut self, other: Totals, times: u32) {
        self.steps += other.steps * times;
        self.scans += other.scans * times;
        self.milliseconds += other.milliseconds * times;
    }

    fn since(&self, earlier: Totals) -> Totals {
        Totals {
            steps: self.steps - earlier.steps,
            scans: self.scans - earlier.scans,
            milliseconds: self.milliseconds - earlier.milliseconds,
        }
    }
}

/// How long a program runs, and the pace and scan setting behind its last step.
#[derive(Clone, Copy, Debug, PartialEq, Eq)]
pub enum Forecast {
    Endless,
    Ends { totals: Totals, pace: u8, scans: u8 },
}

/// How things stood when a loop was entered.
struct Entry {
    place: u8,
    times: u32,
    totals: Totals,
    settings: Settings,
}

/// How long a body runs from this pace and scan setting, and which ones it leaves.
pub fn forecast(body: &[u8], pace: u8, scans: u8) -> Result<Forecast, Refusal> {
    if !pacing_in_range(pace, scans) {
        return Err(Refusal::at(No::Settings, 0));
    }
    let mut reader = Reader::begin(body)?;
    let mut settings = Settings { pace, scans, ..Settings::POWER_ON };
    let mut totals = Totals::default();
    let mut entry = None;
    while let Some(command) = reader.next_command()? {
        totals.count(&perform(&command, &mut settings));
        match command.kind {
            Kind::L => entry = Some(Entry { place: command.end, times: u32::from(command.number), totals, settings }),
            Kind::E => {
                if let Some(entry) = entry.take() {
                    let first = totals.since(entry.totals);
                    totals.add(steady_pass(body, &entry, command.end, first, settings), entry.times - 1);
                }
            }
            _ => {}
        }
    }
    if reader.endless() {
        return Ok(Forecast::Endless);
    }
    // Every pass of a loop sets the same, so the first one, read here, left what the last one leaves.
    Ok(Forecast::Ends { totals, pace: settings.pace, scans: settings.scans })
}

/// The totals of each pass but the first, which may have begun at another pace or scan setting.
fn steady_pass(body: &[u8], entry: &Entry, end: u8, first: Totals, mut settings: Settings) -> Totals {
    let same = entry.settings.pace == settings.pace && entry.settings.scans == settings.scans;
    if same || entry.times == 1 {
        return first;
    }
    let mut pass = Totals::default();
    let mut place = entry.place;
    while place < end
        && let Ok(command) = read_command(body, place.into())
    {
        pass.count(&perform(&command, &mut settings));
        place = command.end;
    }
    pass
}
