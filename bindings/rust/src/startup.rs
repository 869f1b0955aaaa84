use crate::calls::{wontabeli_call_bound, wontabeli_flash_key, wontabeli_start, wontabeli_step, wontabeli_waits_owed};
use crate::numbers::*;
use crate::{result, Refusal};

/// What the host read from the chip. Of `sws` and `sckmod` the low two bits count.
#[derive(Clone, Copy, Debug, Default, PartialEq, Eq)]
pub struct Reading {
    /// HSI is ready.
    pub hsirdy: bool,
    /// HSE is ready.
    pub hserdy: bool,
    /// The main PLL is ready.
    pub pllrdy: bool,
    /// The USBHS PLL is ready.
    pub usbhs_pllrdy: bool,
    /// The ETH PLL is ready.
    pub eth_pllrdy: bool,
    /// The clock in use: SWS of CFGR0.
    pub sws: u8,
    /// The flash's mode: SCKMOD of its CTLR.
    pub sckmod: u8,
}

impl Reading {
    fn number(self) -> u16 {
        u16::from(self.hsirdy) * HSIRDY
            + u16::from(self.hserdy) * HSERDY
            + u16::from(self.pllrdy) * PLLRDY
            + u16::from(self.usbhs_pllrdy) * USBHS_PLLRDY
            + u16::from(self.eth_pllrdy) * ETH_PLLRDY
            + u16::from(self.sws % 4) * SWS
            + u16::from(self.sckmod % 4) * SCKMOD
    }
}

/// What came of a call. `step` is the step that it names, and `used` counts the readings used so far.
#[allow(missing_docs)] // the fields are the same in all
#[derive(Clone, Copy, Debug, PartialEq, Eq)]
pub enum Report {
    /// The step is worked: the host writes the fields that changed, and at 19 the keys after them.
    Worked { step: u8, used: u32 },
    /// The reading did not meet the step's wait.
    Waiting { step: u8, used: u32 },
    /// Over: the clocks run as the check promised.
    Running { step: u8, used: u32 },
    /// Over, by `WaitFailed` or `FlashModeDiffers` at this step.
    Failed { refusal: Refusal, step: u8, used: u32 },
}

/// A register of the flash that takes keys.
#[derive(Clone, Copy, Debug, PartialEq, Eq)]
pub enum KeyRegister {
    /// KEYR.
    Keyr,
    /// MODEKEYR.
    ModeKeyr,
}

/// A key that the host writes at step 19, and to which register.
#[derive(Clone, Copy, Debug, PartialEq, Eq)]
pub struct FlashKey {
    /// Where it goes.
    pub register: KeyRegister,
    /// What is written there.
    pub key: u32,
}

impl FlashKey {
    /// The keys in their order, positions 0 to 3.
    pub fn at(position: u8) -> Result<FlashKey, Refusal> {
        let mut out = [0; PAIR_WORDS];
        result(unsafe { wontabeli_flash_key(position, out.as_mut_ptr(), out.len()) })?;
        let register = if out[0] == KEYR { KeyRegister::Keyr } else { KeyRegister::ModeKeyr };
        Ok(FlashKey { register, key: out[1] })
    }
}

/// The chip, as `Startup::run` needs it: `read` and `tick` before each call, `write` after it unless it failed, and after step 19's `write` four times
/// `write_key`.
pub trait Chip {
    /// Writes the image's fields to the registers, but never the ready bits and SWS, which only the chip writes; SCKMOD, LOCK and FLOCK in one write.
    /// What a register holds already may be left out. That is the register, and not the last image: the keys open LOCK and FLOCK, and step 20 sets them.
    fn write(&mut self, image: [u8; IMAGE_SIZE]);
    /// Writes a key to a register of the flash.
    fn write_key(&mut self, key: FlashKey);
    /// Reads the ready bits, SWS and SCKMOD as they are now.
    fn read(&mut self) -> Reading;
    /// What a free-running counter of 32 bits shows, asked for right after `read`. It has no default, so that no host forgets it; without a counter, 0:
    /// all ticks are then 0.
    fn tick(&mut self) -> u32;
}

/// The steps that wait, in the order of their ticks in a startup's bytes.
pub const WAITS: [u8; 8] = [2, 4, 7, 10, 12, 15, 18, 27];

/// A startup, in the bytes that the library works on.
#[derive(Clone, Debug, PartialEq, Eq)]
pub struct Startup {
    place: [u8; PLACE_SIZE],
}

impl Startup {
    /// Starts with a profile and the image of the registers as they are. It works no step.
    pub fn start(profile: &[u8], image: &[u8]) -> Result<Startup, Refusal> {
        let mut place = [0; PLACE_SIZE];
        let number = unsafe {
            wontabeli_start(profile.as_ptr(), profile.len(), image.as_ptr(), image.len(), place.as_mut_ptr(), place.len())
        };
        result(number)?;
        Ok(Startup { place })
    }

    /// A startup as it was stored. `step` refuses some bytes that no starting leads to (docs/REFUSALS.md, 28, 30 and 31); other damage is worked as it
    /// stands.
    pub fn from_bytes(place: [u8; PLACE_SIZE]) -> Startup {
        Startup { place }
    }

    /// The startup's bytes, to be stored (docs/FORMATS.md has the places).
    pub fn bytes(&self) -> [u8; PLACE_SIZE] {
        self.place
    }

    /// The image that the host writes to the chip, but for the ready bits and SWS.
    pub fn image(&self) -> [u8; IMAGE_SIZE] {
        let mut image = [0; IMAGE_SIZE];
        image.copy_from_slice(&self.place[PLACE_IMAGE..PLACE_IMAGE + IMAGE_SIZE]);
        image
    }

    // The number that four of its bytes spell.
    fn number_at(&self, at: usize) -> u32 {
        u32::from_be_bytes([self.place[at], self.place[at + 1], self.place[at + 2], self.place[at + 3]])
    }

    /// The ticks of a step's wait, from its first reading to the met one, modulo 2^32: so a wait longer than a full turn of the counter shows the
    /// remainder only. 0 before the wait is met, for good where it is skipped or fails, where its first reading met it, and for a step that is none of
    /// `WAITS`.
    pub fn ticks(&self, step: u8) -> u32 {
        WAITS.iter().position(|wait| *wait == step).map_or(0, |wait| self.number_at(PLACE_TICKS + 4 * wait))
    }

    /// The most ticks that a wait took; 0 before any is met.
    pub fn longest_wait(&self) -> u32 {
        self.number_at(PLACE_LONGEST)
    }

    /// One call: one step's work done or one reading used. The tick is what a free-running counter showed at the reading. A startup that ends by 21 or 22
    /// is `Ok(Report::Failed { .. })`, and a call after the end gives the last report again. `Err` says that the call is refused: by the bytes, or by 23,
    /// where the clocks differ. The bytes then stay.
    pub fn step(&mut self, reading: Reading, tick: u32) -> Result<Report, Refusal> {
        let number = unsafe { wontabeli_step(self.place.as_mut_ptr(), self.place.len(), reading.number(), tick) };
        let (named, used) = (self.place[PLACE_NAMED], self.number_at(PLACE_USED));
        // An ended startup stands at the step of its end.
        let last = self.place[PLACE_STEP];
        match result(number) {
            Ok(()) if self.place[PLACE_PHASE] == PHASE_RUNNING => Ok(Report::Running { step: last, used }),
            Ok(()) if self.place[PLACE_REPORT] == REPORT_WAITING => Ok(Report::Waiting { step: named, used }),
            Ok(()) => Ok(Report::Worked { step: named, used }),
            Err(refusal @ (Refusal::WaitFailed | Refusal::FlashModeDiffers)) => Ok(Report::Failed { refusal, step: last, used }),
            Err(refusal) => Err(refusal),
        }
    }

    /// Calls until the startup is over, and gives its last report; `ticks` and `longest_wait` then say how long it waited. In each turn it reads, calls,
    /// writes the image, and at step 19 then the keys: fields written after the keys would lock the flash again. It makes no more calls than
    /// `call_bound` says, which is proved to be enough; so a report `Worked` or `Waiting` can come back only where what is linked is not the proved
    /// archive. A startup that runs already is written to the chip once more.
    pub fn run(&mut self, chip: &mut impl Chip) -> Result<Report, Refusal> {
        let mut report = self.turn(chip)?;
        for _ in 1..call_bound(&self.place[..PROFILE_SIZE])? {
            if let Report::Running { .. } | Report::Failed { .. } = report {
                break;
            }
            report = self.turn(chip)?;
        }
        Ok(report)
    }

    // A reading with its tick, a call, and what the host then writes.
    fn turn(&mut self, chip: &mut impl Chip) -> Result<Report, Refusal> {
        let reading = chip.read();
        let report = self.step(reading, chip.tick())?;
        if let Report::Failed { .. } = report {
            return Ok(report);
        }
        chip.write(self.image());
        if let Report::Worked { step: 19, .. } = report {
            for position in 0..4 {
                chip.write_key(FlashKey::at(position)?);
            }
        }
        Ok(report)
    }
}

/// How many waits a profile's startup has. The check is not asked.
pub fn waits_owed(profile: &[u8]) -> Result<u32, Refusal> {
    let mut out = 0;
    result(unsafe { wontabeli_waits_owed(profile.as_ptr(), profile.len(), &mut out) })?;
    Ok(out)
}

/// Within how many calls a profile's startup is over. The check is not asked.
pub fn call_bound(profile: &[u8]) -> Result<u32, Refusal> {
    let mut out = 0;
    result(unsafe { wontabeli_call_bound(profile.as_ptr(), profile.len(), &mut out) })?;
    Ok(out)
}
