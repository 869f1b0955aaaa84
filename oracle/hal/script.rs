//! The chip behind the V4x7 registers: the record, scripted readings, and what `init` did, step by step.

/// The fields in the image's order, and a bit for each field that a write set.
#[derive(Clone, Copy)]
pub struct Record {
    pub fields: [u8; 33],
    pub touched: u64,
}

impl Record {
    pub fn set(&mut self, at: usize, value: u8) {
        self.fields[at] = value;
        self.touched |= 1 << at;
    }
}

/// Five ready bits in the image's order, SWS and SCKMOD.
#[derive(Clone, Copy)]
pub struct Reading {
    pub ready: [u8; 5],
    pub sws: u8,
    pub sckmod: u8,
}

/// So many of one reading. The last reading of a script repeats without end.
pub type Segment = (u32, Reading);

pub struct Chip {
    pub fields: [u8; 33],
    /// Whether `init` runs: only then does reading a register use a reading, and a write count as a step.
    running: bool,
    segments: Vec<Segment>,
    /// The segment in use, and how many of its readings were used.
    at: usize,
    taken: u32,
    /// Calls are counted as document 01 counts them: one step's work or one reading each. `init` is stopped at the limit.
    limit: u32,
    pub calls: u32,
    /// The step that each call worked.
    pub steps: Vec<u8>,
    pub used: u32,
    /// The step worked last, how many readings in a row it used, and the step whose call the limit kept from being made.
    pub step: u8,
    pub readings: u32,
    pub next: u8,
    /// The last step that wrote; a wait has the number after it.
    wrote: u8,
    /// Whether CFGR0, read once more at step 28, shows the last used reading again, as document 01 has it, or the script's next one.
    held: bool,
    /// Whether it showed another SWS there.
    pub away: bool,
    pub keys: Vec<(bool, u32)>,
}

/// Thrown where the limit of calls is reached.
pub struct Stopped;

const READY: usize = 7;
const SWS: usize = 12;
const SW: usize = 13;
const SCKMOD: usize = 30;

/// Each write of `init`: the fields that it sets, and document 01's step. A write that isn't here is none of the 28 steps.
const WRITES: [(&[usize], u8); 16] = [
    (&[0], 1),
    (&[3, 4, 5, 6, 2], 6),
    (&[1], 8),
    (&[2], 9),
    (&[6], 11),
    (&[22, 23], 13),
    (&[5], 14),
    (&[14, 15], 16),
    (&[4], 17),
    (&[30, 31, 32], 20),
    (&[24, 25, 27], 22),
    (&[24, 25, 27, 28], 22),
    (&[16, 17, 18, 19, 20, 21], 23),
    (&[29], 24),
    // SYSPLL_GATE and SW are written twice; the later steps are told apart in `step_of`.
    (&[26], 5),
    (&[13], 3),
];

impl Chip {
    /// A record that nothing moves: what the decoder and the queries read.
    pub fn still(fields: [u8; 33]) -> Chip {
        Chip {
            fields,
            running: false,
            segments: Vec::new(),
            at: 0,
            taken: 0,
            limit: 0,
            calls: 0,
            steps: Vec::new(),
            used: 0,
            step: 0,
            readings: 0,
            next: 0,
            wrote: 0,
            held: true,
            away: false,
            keys: Vec::new(),
        }
    }

    pub fn scripted(fields: [u8; 33], segments: Vec<Segment>, limit: u32, held: bool) -> Chip {
        Chip {
            running: true,
            segments,
            limit,
            held,
            ..Chip::still(fields)
        }
    }

    fn call(&mut self, step: u8) {
        if self.calls == self.limit {
            self.next = step;
            // Not a panic: the hook that notes the Rust's panics stays out of it.
            std::panic::resume_unwind(Box::new(Stopped));
        }
        self.calls += 1;
        self.steps.push(step);
        self.readings = if step == self.step { self.readings + 1 } else { 1 };
        self.step = step;
    }

    fn step_of(&self, touched: u64) -> u8 {
        let mask = |places: &[usize]| places.iter().fold(0u64, |sum, at| sum | 1 << at);
        let found = WRITES.iter().find(|(places, _)| mask(places) == touched);
        let step = found.map_or(0, |(_, step)| *step);
        assert!(step != 0, "init wrote fields that no step writes: {:#x}", touched);
        match step {
            5 if self.wrote > 5 => 25,
            3 if self.wrote > 3 => 26,
            _ => step,
        }
    }

    pub fn write(&mut self, record: Record) {
        if self.running {
            let step = self.step_of(record.touched);
            self.call(step);
            self.wrote = step;
        }
        self.fields = record.fields;
    }

    /// KEYR (mode false) and MODEKEYR: four writes make one step.
    pub fn key(&mut self, mode: bool, key: u32) {
        if self.keys.is_empty() {
            self.call(19);
            self.wrote = 19;
        }
        self.keys.push((mode, key));
    }

    fn next_reading(&mut self) -> Reading {
        while self.at + 1 < self.segments.len() && self.taken >= self.segments[self.at].0 {
            self.at += 1;
            self.taken = 0;
        }
        self.taken += 1;
        self.segments[self.at].1
    }

    /// Uses one reading: its ready bits and SWS go into the record, its SCKMOD doesn't.
    fn use_reading(&mut self) -> Reading {
        self.call(self.wrote + 1);
        self.used += 1;
        let reading = self.next_reading();
        self.fields[READY..READY + 5].copy_from_slice(&reading.ready);
        self.fields[SWS] = reading.sws & 3;
        reading
    }

    /// Step 28: `init` decodes the record. It reads CFGR0 once more for it, and SWS is what the chip then shows: no reading that document 01 counts.
    fn look_once_more(&mut self) -> [u8; 33] {
        self.call(28);
        let mut seen = self.fields;
        if !self.held {
            seen[SWS] = self.next_reading().sws & 3;
            self.away = seen[SWS] != self.fields[SWS];
        }
        seen
    }

    pub fn look(&mut self) -> [u8; 33] {
        self.fields
    }

    pub fn look_with_reading(&mut self) -> [u8; 33] {
        if self.running && self.step == 27 && self.fields[SWS] == self.fields[SW] {
            return self.look_once_more();
        }
        if self.running {
            self.use_reading();
        }
        self.fields
    }

    pub fn look_at_flash(&mut self) -> [u8; 33] {
        let mut seen = self.fields;
        if self.running {
            seen[SCKMOD] = self.use_reading().sckmod & 3;
        }
        seen
    }
}
