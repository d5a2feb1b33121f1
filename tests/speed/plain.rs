//! A plain Rust reader of bundles, written from docs/bundle.md alone, the inputs on which it and the
//! proved library are measured, and damaged bundles on which their answers are compared.
//!
//! The plain reader stands here twice: as it is written, and with the function that takes a number
//! off inlined by force, which rustc does not do by itself where several functions call it.

use std::hint::black_box;
use std::time::Instant;

#[link(name = "exported", kind = "static")]
extern "C" {
    fn sum_numbers(bytes: *const u8, len: usize) -> u64;
    fn check_bundle(bytes: *const u8, len: usize, fault: *mut u64, room: usize) -> bool;
}

fn proved_sum(bytes: &[u8]) -> u64 {
    unsafe { sum_numbers(bytes.as_ptr(), bytes.len()) }
}

fn proved_check(bytes: &[u8]) -> Result<(), [u64; 5]> {
    let mut fault = [0; 5];
    match unsafe { check_bundle(bytes.as_ptr(), bytes.len(), fault.as_mut_ptr(), 5) } {
        true => Ok(()),
        false => Err(fault),
    }
}

/// The plain reader, with an attribute on the function that takes a number off.
macro_rules! reader {
    ($name:ident $(, $inlined:meta)?) => {
        mod $name {
            /// Takes a number off `bytes`, or says the cause of its fault.
            $(#[$inlined])?
            fn read(bytes: &[u8]) -> Result<(u64, &[u8]), u64> {
                let mut left = bytes;
                let mut value = 0;
                for i in 0..6 {
                    let [group, rest @ ..] = left else {
                        return Err(1);
                    };
                    value |= u64::from(*group & 127) << (i * 7);
                    if *group < 128 {
                        return if *group == 0 && i > 0 { Err(3) } else { Ok((value, rest)) };
                    }
                    left = rest;
                }
                Err(2)
            }

            #[inline(never)]
            pub fn sum(bytes: &[u8]) -> u64 {
                let mut left = bytes;
                let mut total = 0u64;
                while let Ok((n, rest)) = read(left) {
                    total = total.wrapping_add(n);
                    left = rest;
                }
                total
            }

            struct Reader<'a> {
                bytes: &'a [u8],
                at: usize,
                end: usize,
                track: u64,
                record: u64,
            }

            impl Reader<'_> {
                fn fault(&self, layer: u64, cause: u64, place: usize) -> [u64; 5] {
                    [layer, cause, place as u64, self.track, self.record]
                }

                fn number(&mut self) -> Result<u64, [u64; 5]> {
                    match read(&self.bytes[self.at..self.end]) {
                        Ok((n, rest)) => {
                            self.at = self.end - rest.len();
                            Ok(n)
                        }
                        Err(cause) => Err(self.fault(1, cause, self.at)),
                    }
                }

                fn value(&mut self, low: u64, high: u64) -> Result<u64, [u64; 5]> {
                    let place = self.at;
                    let n = self.number()?;
                    if (low..=high).contains(&n) { Ok(n) } else { Err(self.fault(4, 7, place)) }
                }

                fn record(&mut self, last: u64) -> Result<u64, [u64; 5]> {
                    let place = self.at;
                    let stamp = last + self.number()?;
                    if stamp > 274_877_906_943 {
                        return Err(self.fault(3, 6, place));
                    }
                    let place = self.at;
                    match self.number()? {
                        1 => {
                            self.number()?;
                            self.number()?;
                            let len = self.number()?;
                            if ((self.end - self.at) as u64) < len {
                                return Err(self.fault(2, 5, self.at));
                            }
                            self.at += len as usize;
                        }
                        3 | 14 => {
                            self.number()?;
                            self.number()?;
                        }
                        4 | 5 | 10 | 12 => {
                            self.number()?;
                        }
                        8 | 9 | 11 | 13 => {}
                        _ => return Err(self.fault(2, 4, place)),
                    }
                    Ok(stamp)
                }
            }

            #[inline(never)]
            pub fn check(bytes: &[u8]) -> Result<(), [u64; 5]> {
                let mut r = Reader { bytes, at: 0, end: bytes.len(), track: 255, record: 0 };
                if bytes.len() > 60_000 {
                    return Err(r.fault(4, 9, 60_000));
                }
                r.value(1, 1)?;
                r.value(1, 2)?;
                r.value(1, 2)?;
                r.value(0, 0)?;
                let count = r.value(1, 8)? as usize;
                let mut lengths = [0; 8];
                for length in &mut lengths[..count] {
                    *length = r.number()?;
                }
                if lengths.iter().sum::<u64>() != (bytes.len() - r.at) as u64 {
                    return Err(r.fault(4, 8, r.at));
                }
                for (i, length) in lengths[..count].iter().enumerate() {
                    r.track = i as u64;
                    r.record = 0;
                    r.end = r.at + *length as usize;
                    let mut stamp = 0;
                    while r.at < r.end {
                        stamp = r.record(stamp)?;
                        r.record += 1;
                    }
                }
                Ok(())
            }
        }
    };
}

reader!(plain);
reader!(forced, inline(always));

/// Numbers that look random and are the same in every run.
struct Dice(u64);

impl Dice {
    fn below(&mut self, n: u64) -> u64 {
        self.0 ^= self.0 << 13;
        self.0 ^= self.0 >> 7;
        self.0 ^= self.0 << 17;
        self.0 % n
    }

    fn of(&mut self, choices: &[u64]) -> u64 {
        choices[self.below(choices.len() as u64) as usize]
    }

    fn groups(&mut self, groups: u64) -> u64 {
        let low = if groups == 1 {
            0
        } else {
            1 << (7 * (groups - 1))
        };
        low + self.below((1 << (7 * groups)) - low)
    }
}

fn push(out: &mut Vec<u8>, mut n: u64) {
    while n >= 128 {
        out.push((n % 128 + 128) as u8);
        n /= 128;
    }
    out.push(n as u8);
}

fn numbers(dice: &mut Dice, groups: &[u64]) -> Vec<u8> {
    let mut out = Vec::new();
    while out.len() < 59_994 {
        let k = dice.of(groups);
        push(&mut out, dice.groups(k));
    }
    out
}

fn push_record(dice: &mut Dice, out: &mut Vec<u8>) {
    let difference = dice.of(&[0, 5, 210, 15_000]);
    push(out, difference);
    let kind = dice.of(&[1, 3, 3, 3, 3, 4, 5, 8, 8, 9, 10, 11, 11, 12, 13, 14]);
    push(out, kind);
    match kind {
        1 => {
            push(out, dice.below(64));
            push(out, dice.below(60_001));
            let len = 1 + dice.below(16);
            push(out, len);
            for _ in 0..len {
                out.push(33 + dice.below(94) as u8);
            }
        }
        3 => {
            push(out, dice.below(64));
            push(out, dice.of(&[0, 200, 5_000, 3_600_000]));
        }
        4 | 5 => push(out, dice.below(64)),
        10 | 12 => push(out, dice.below(4)),
        14 => {
            push(out, dice.below(64));
            push(out, dice.of(&[0, 0, 0, 5]));
        }
        _ => {}
    }
}

/// Tracks of about `bytes` bytes together.
fn tracks(
    dice: &mut Dice,
    count: u64,
    bytes: usize,
    record: fn(&mut Dice, &mut Vec<u8>),
) -> Vec<Vec<u8>> {
    let mut all = Vec::new();
    for _ in 0..count {
        let mut track = Vec::new();
        while track.len() + 40 < bytes / count as usize {
            record(dice, &mut track);
        }
        all.push(track);
    }
    all
}

fn bundle(dice: &mut Dice, tracks: &[Vec<u8>]) -> Vec<u8> {
    let mut all = vec![1, 1 + dice.below(2) as u8, 1 + dice.below(2) as u8, 0];
    push(&mut all, tracks.len() as u64);
    for track in tracks {
        push(&mut all, track.len() as u64);
    }
    all.extend(tracks.concat());
    all
}

fn damage(dice: &mut Dice, bytes: &mut Vec<u8>) {
    let at = dice.below(bytes.len() as u64 + 1) as usize;
    match dice.below(6) {
        0 if at < bytes.len() => bytes[at] = dice.below(256) as u8,
        1 if at < bytes.len() => bytes[at] ^= 1 << dice.below(8),
        2 => bytes.truncate(at),
        3 => bytes.insert(at, dice.of(&[0, 128, 255]) as u8),
        4 => {
            bytes.splice(at..at, [255; 6]);
        }
        _ => push_record(dice, bytes),
    }
}

/// A bundle with up to three damages, half of them in its tracks before the header is made.
fn damaged(dice: &mut Dice) -> Vec<u8> {
    let count = 1 + dice.below(8);
    let size = dice.of(&[600, 600, 600, 600, 600, 600, 600, 60_200]) as usize;
    let mut tracks = tracks(dice, count, size, push_record);
    for _ in 0..dice.below(3) {
        let i = dice.below(count) as usize;
        damage(dice, &mut tracks[i]);
    }
    let mut bytes = bundle(dice, &tracks);
    if dice.below(4) == 0 {
        damage(dice, &mut bytes);
    }
    bytes
}

fn best<T>(f: impl Fn() -> T) -> u128 {
    (0..3_000)
        .map(|_| {
            let start = Instant::now();
            black_box(f());
            start.elapsed().as_nanos()
        })
        .min()
        .unwrap_or(0)
}

fn show(what: &str, proved: u128, plain: u128, forced: u128) {
    println!("{what:44} {proved:8} {plain:8} {forced:8}");
}

fn main() {
    let mut dice = Dice(0x9E37_79B9_7F4A_7C15);
    println!(
        "{:44} {:>8} {:>8} {:>8}",
        "best of 3,000, in ns", "proved", "plain", "forced"
    );
    for (what, groups) in [
        ("reading 60,000 bytes: one group", &[1][..]),
        (
            "reading 60,000 bytes: mostly one or two",
            &[1, 1, 1, 1, 2, 2, 3][..],
        ),
        (
            "reading 60,000 bytes: one to six, evenly",
            &[1, 2, 3, 4, 5, 6][..],
        ),
    ] {
        let bytes = numbers(&mut dice, groups);
        assert_eq!(proved_sum(&bytes), plain::sum(&bytes));
        show(
            what,
            best(|| proved_sum(&bytes)),
            best(|| plain::sum(&bytes)),
            best(|| forced::sum(&bytes)),
        );
    }
    let ticks = |_: &mut Dice, out: &mut Vec<u8>| out.extend([5, 8]);
    for (what, parts) in [
        (
            "checking 60,000 bytes: mixed records",
            tracks(&mut dice, 4, 60_000, push_record),
        ),
        (
            "checking 60,000 bytes: ticks",
            tracks(&mut dice, 1, 60_000, ticks),
        ),
    ] {
        let bytes = bundle(&mut dice, &parts);
        assert_eq!(proved_check(&bytes), Ok(()));
        assert_eq!(plain::check(&bytes), Ok(()));
        show(
            what,
            best(|| proved_check(&bytes)),
            best(|| plain::check(&bytes)),
            best(|| forced::check(&bytes)),
        );
    }

    let mut causes = [0u64; 10];
    for _ in 0..100_000 {
        let bytes = damaged(&mut dice);
        let (proved, plain) = (proved_check(&bytes), plain::check(&bytes));
        assert_eq!(proved, plain, "{bytes:02X?}");
        causes[proved.err().map_or(0, |fault| fault[1]) as usize] += 1;
    }
    println!(
        "100,000 damaged bundles, the same answers; without fault {}, by cause {:?}",
        causes[0],
        &causes[1..]
    );
}
