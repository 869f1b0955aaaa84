//! Document 01's rows A1 to A11, and the Rust's own named configurations, asked of the Rust.

use crate::answer::{answer, Excluding};
use crate::gen::boards::{refused, REFUSALS};
use crate::gen::config::with;
use crate::gen::family::named_check;
use crate::gen::good::GOOD;
use crate::paper::layout::config_of;
use crate::paper::profile::clocks;
use crate::record::*;
use crate::rust::checked;

/// A row: its name, the configuration, and what must come: a refusal, or a value at a place among the six clocks and the ADC.
struct Row(&'static str, [u8; CONFIG], Want);

enum Want {
    Refused(u8),
    /// The place (0 SYSCLK, 1 HCLK, 3 PCLK2, 5 its timer, 6 ADC) and the frequency.
    Is(&'static [(usize, u32)]),
}
use Want::{Is, Refused};

const SYS: usize = 6;
const FROM_HSE: usize = 7;
const PLL: usize = 8;
const MUL: usize = 9;
const SYSPLL: usize = 10;
const BY: usize = 11;
const ADC_USBHS: [(usize, u8); 3] = [(12, 1), (13, 1), (19, 1)];

/// What the PLL rows share: main PLL on, system clock PLL, source HSE.
const HSE_PLL: [(usize, u8); 3] = [(PLL, 1), (SYS, 2), (FROM_HSE, 1)];

fn changed(shared: &[(usize, u8)], own: &[(usize, u8)]) -> Vec<(usize, u8)> {
    [shared, own].concat()
}

fn rows_1_to_5() -> Vec<Row> {
    vec![
        Row("A1 HPRE 11", with(0, &[(15, 11)]), Is(&[(1, 1_250_000)])),
        Row("A1 HPRE 12", with(0, &[(15, 12)]), Is(&[(1, 312_500)])),
        Row("A2 4,999,999", with(4_999_999, &[(SYS, 1)]), Refused(4)),
        Row("A2 5,000,000", with(5_000_000, &[(SYS, 1)]), Is(&[(0, 5_000_000)])),
        Row("A3 32,000,000", with(32_000_000, &[(SYS, 1)]), Is(&[(0, 32_000_000)])),
        Row("A3 32,000,001", with(32_000_001, &[(SYS, 1)]), Refused(4)),
        Row("A4", with(0, &[(PLL, 1), (MUL, 21)]), Refused(5)),
        Row(
            "A5",
            with(0, &[(PLL, 1), (SYS, 2), (MUL, 20), (BY, 1)]),
            Is(&[(1, 200_000_000)]),
        ),
    ]
}

fn rows_6_to_11() -> Vec<Row> {
    let a6 = with(8_000_001, &changed(&HSE_PLL, &[(MUL, 5)]));
    let a7 = with(25_000_000, &[(14, 1), (SYS, 2), (SYSPLL, 3), (BY, 1)]);
    let a8 = with(17_777_778, &changed(&HSE_PLL, &[(MUL, 7), (BY, 1), (21, 1)]));
    let a9 = |divisor| with(0, &changed(&ADC_USBHS, &[(20, divisor)]));
    let a10 = with(5_000_000, &[(SYS, 1), (15, 15), (17, 7)]);
    let a11 = config_of(&[0, 0, 0, 0, 0, 0x18, 0, 0, 0, 0x34]).0;
    vec![
        Row("A6", a6, Is(&[(0, 100_000_012)])),
        Row("A7", a7, Is(&[(0, 166_666_666)])),
        Row("A8", a8, Refused(15)),
        Row("A9 by 2", a9(2), Is(&[(6, 30_000_000)])),
        Row("A9 by 1", a9(1), Refused(15)),
        Row("A10", a10, Is(&[(6, 76), (3, 610), (5, 1_220)])),
        Row(
            "A11",
            a11,
            Is(&[(0, 20_000_000), (1, 20_000_000), (5, 20_000_000), (6, 2_500_000)]),
        ),
    ]
}

fn rows() -> impl Iterator<Item = Row> {
    rows_1_to_5().into_iter().chain(rows_6_to_11())
}

/// The rows as queries.
pub fn queries() -> impl Iterator<Item = Query> {
    rows().map(|Row(_, config, _)| query(CHECK, &[&config]))
}

/// A named configuration that doesn't give the frequency in its name: its multiplier is 6 (docs/DIFFERENCES.md, N4).
const NOT_AS_NAMED: (u8, &str, u32) = (V30X_CHECK, "SYSCLK_FREQ_96MHZ_HSE", 48_000_000);

/// The frequency in a name: `SYSCLK_FREQ_48MHZ_HSE`.
fn in_name(kind: u8, name: &str) -> u32 {
    if (kind, name) == (NOT_AS_NAMED.0, NOT_AS_NAMED.1) {
        return NOT_AS_NAMED.2;
    }
    let digits = name.chars().filter(char::is_ascii_digit).collect::<String>();
    digits.parse::<u32>().map_or(0, |mhz| 1_000_000 * mhz)
}

/// Whether each named configuration gives the frequency in its name, and our query of it the clocks that the Rust's own constant gives.
fn named_run() -> bool {
    let mut right = true;
    let lists: [(u8, &[(&str, [u32; 6])]); 3] = [
        (V1_CHECK, &hal_v1::named()),
        (L1_CHECK, &hal_l1::named()),
        (V30X_CHECK, &hal_v30x::named()),
    ];
    for (kind, list) in lists {
        for (at, (name, clocks)) in list.iter().enumerate() {
            let a = answer(&named_check(kind, at), Excluding { listed: true }).0;
            if a[1] != 0 || a[2..26] != clock_bytes(*clocks) || clocks[0] != in_name(kind, name) {
                println!(
                    "{} {} differs: the Rust's clocks are {:?}, asked by codes {}",
                    name_of(kind),
                    name,
                    clocks,
                    hex(&a)
                );
                right = false;
            }
        }
    }
    right
}

/// Whether each board that the generator takes for refused is refused by its number.
fn refused_run() -> bool {
    let mut right = true;
    for number in REFUSALS {
        let told = clocks(&refused(number));
        if told != Err(number) {
            println!("the board for refusal {} is answered {:?}", number, told);
            right = false;
        }
    }
    right
}

/// Whether the Rust gives every row and what its named configurations say, and accepts every configuration that the generator takes for good.
pub fn run() -> Result<bool, String> {
    let mut right = named_run() & refused_run();
    for Row(name, config, want) in rows() {
        let a = answer(&query(CHECK, &[&config]), Excluding { listed: true }).0;
        let fits = match want {
            Refused(number) => a[1] == number,
            Is(values) => a[1] == 0 && values.iter().all(|(at, value)| number(&a[2 + 4 * at..]) == *value),
        };
        if !fits {
            println!("row {} differs: {}", name, hex(&a));
            right = false;
        }
    }
    for (i, config) in GOOD.iter().enumerate() {
        if let Err(number) = checked(config) {
            println!("good configuration {} is refused: {}", i, number);
            right = false;
        }
    }
    if right {
        println!("rows A1 to A11, and named configurations: the Rust gives them");
    }
    Ok(right)
}
