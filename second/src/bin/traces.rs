//! Writes random files of calls that are determined by a seed.

use std::env;
use std::ffi::OsString;
use std::fs::{self, File};
use std::io::{self, BufWriter, Write};
use std::path::{Path, PathBuf};
use std::process::ExitCode;

use second::driver::{Driver, Habits, World};
use second::random::Random;

/// What is printed on wrong use.
const USAGE: &str = "\
usage: traces SEED FILES RECORDS OUTDIR
       traces SEED long RECORDS FILE

The first form writes FILES files (at least 8, one of each kind) with about
RECORDS records in all to OUTDIR, named 0000.calls and so on. The second form
writes one sensible file of RECORDS records. The bytes depend on the numbers
alone.";

/// How many bytes are gathered before they are written.
const BUFFER: usize = 64 * 1024;

/// What to write, as the arguments ask.
enum Request {
    /// Files of all kinds.
    Mixed {
        seed: u64,
        files: usize,
        records: u64,
        folder: PathBuf,
    },
    /// One long file.
    Long {
        seed: u64,
        records: u64,
        file: PathBuf,
    },
}

impl Request {
    /// The request the arguments make, if they make one.
    fn parse(arguments: &[OsString]) -> Option<Request> {
        let [seed, files, records, path] = arguments else {
            return None;
        };
        let seed = number(seed)?;
        let records = number(records)?;
        let path = PathBuf::from(path);
        if files == "long" {
            return Some(Request::Long {
                seed,
                records,
                file: path,
            });
        }
        let files = usize::try_from(number(files)?).ok()?;
        (files >= Kind::ALL.len()).then_some(Request::Mixed {
            seed,
            files,
            records,
            folder: path,
        })
    }

    /// Writes what is asked for.
    fn fulfil(&self) -> io::Result<()> {
        match self {
            Request::Mixed {
                seed,
                files,
                records,
                folder,
            } => write_mixed(*seed, *files, *records, folder),
            Request::Long {
                seed,
                records,
                file,
            } => write_long(*seed, *records, file),
        }
    }
}

/// The number an argument gives.
fn number(argument: &OsString) -> Option<u64> {
    argument.to_str()?.parse().ok()
}

/// A kind of file.
#[derive(Clone, Copy, Debug, PartialEq, Eq)]
enum Kind {
    /// A restless history of mostly sensible calls.
    Sensible,
    /// A history in which many numbers are too large and calls unknown.
    Bad,
    /// A sensible history with one to three bytes of a last record.
    Cut,
    /// Numbers up to one above the largest that is known, in no order.
    Narrow,
    /// Bytes of any value.
    Wild,
    /// No bytes.
    Empty,
    /// One record.
    Single,
    /// One to three bytes.
    Stub,
}

impl Kind {
    /// Each kind once.
    const ALL: [Kind; 8] = [
        Kind::Sensible,
        Kind::Bad,
        Kind::Cut,
        Kind::Narrow,
        Kind::Wild,
        Kind::Empty,
        Kind::Single,
        Kind::Stub,
    ];

    /// Any kind, most often a sensible one.
    fn random(random: &mut Random) -> Kind {
        match random.below(100) {
            0..60 => Kind::Sensible,
            60..75 => Kind::Bad,
            75..85 => Kind::Cut,
            85..90 => Kind::Narrow,
            90..95 => Kind::Wild,
            _ => random.pick(&[Kind::Empty, Kind::Single, Kind::Stub]),
        }
    }

    /// The largest share of all records that one file of this kind draws.
    fn largest_share(self) -> u32 {
        match self {
            Kind::Sensible => 40,
            Kind::Bad | Kind::Cut => 20,
            Kind::Narrow | Kind::Wild => 8,
            Kind::Empty | Kind::Single | Kind::Stub => 0,
        }
    }
}

/// A file to be written: its kind and its share of all records.
struct Plan {
    kind: Kind,
    share: u64,
}

impl Plan {
    /// A plan for the file with this number: the first files have each kind once.
    fn random(random: &mut Random, number: usize) -> Plan {
        let known = Kind::ALL.get(number).copied();
        let kind = known.unwrap_or_else(|| Kind::random(random));
        let share = match kind.largest_share() {
            0 => 0,
            largest => 1 + u64::from(random.below(largest)),
        };
        Plan { kind, share }
    }
}

/// Writes what the arguments ask for, or the usage.
fn main() -> ExitCode {
    let arguments: Vec<OsString> = env::args_os().skip(1).collect();
    let Some(request) = Request::parse(&arguments) else {
        eprintln!("{USAGE}");
        return ExitCode::from(2);
    };
    match request.fulfil() {
        Ok(()) => ExitCode::SUCCESS,
        Err(error) => {
            eprintln!("traces: {error}");
            ExitCode::FAILURE
        }
    }
}

/// Writes files of all kinds that share the records among them.
fn write_mixed(seed: u64, files: usize, records: u64, folder: &Path) -> io::Result<()> {
    fs::create_dir_all(folder)?;
    let mut random = Random::seeded(seed);
    let plans: Vec<Plan> = (0..files)
        .map(|number| Plan::random(&mut random, number))
        .collect();
    let shares: u64 = plans.iter().map(|plan| plan.share).sum();
    for (number, plan) in plans.iter().enumerate() {
        let part = u128::from(records) * u128::from(plan.share) / u128::from(shares);
        let path = folder.join(format!("{number:04}.calls"));
        let own = Random::seeded(random.bits());
        write_kind(plan.kind, part as u64, own, create(&path)?)?;
    }
    Ok(())
}

/// Writes one long history of mostly accepted steps.
fn write_long(seed: u64, records: u64, path: &Path) -> io::Result<()> {
    let mut random = Random::seeded(seed);
    let world = World::random(&mut random, 8, 4, 16);
    let driver = Driver::new(random, world, Habits::STEADY);
    let mut file = create(path)?;
    write_history(driver, records, &mut file)?;
    file.flush()
}

/// Opens a file for writing, anew.
fn create(path: &Path) -> io::Result<BufWriter<File>> {
    Ok(BufWriter::with_capacity(BUFFER, File::create(path)?))
}

/// Writes a file of one kind.
fn write_kind(
    kind: Kind,
    records: u64,
    mut random: Random,
    mut file: impl Write,
) -> io::Result<()> {
    match kind {
        Kind::Sensible => write_restless(records, 0, random, &mut file)?,
        Kind::Bad => write_restless(records, 300, random, &mut file)?,
        Kind::Cut => {
            write_restless(records, 0, Random::seeded(random.bits()), &mut file)?;
            write_stub(&mut random, &mut file)?;
        }
        Kind::Narrow => write_records(records, || narrow_record(&mut random), &mut file)?,
        Kind::Wild => write_records(records, || wild_record(&mut random), &mut file)?,
        Kind::Empty => {}
        Kind::Single => write_records(1, || narrow_record(&mut random), &mut file)?,
        Kind::Stub => write_stub(&mut random, &mut file)?,
    }
    file.flush()
}

/// Writes a restless history with so many bad records in a thousand.
fn write_restless(
    records: u64,
    bad: u32,
    mut random: Random,
    file: &mut impl Write,
) -> io::Result<()> {
    let world = World::crowded(&mut random);
    let habits = Habits {
        bad,
        ..Habits::random(&mut random)
    };
    write_history(Driver::new(random, world, habits), records, file)
}

/// Writes so many records of the driver's history.
fn write_history(mut driver: Driver, records: u64, file: &mut impl Write) -> io::Result<()> {
    write_records(records, || driver.next_record(), file)
}

/// Writes so many records, each made up when it is due.
fn write_records(
    records: u64,
    mut next: impl FnMut() -> [u8; 4],
    file: &mut impl Write,
) -> io::Result<()> {
    for _ in 0..records {
        file.write_all(&next())?;
    }
    Ok(())
}

/// Writes the one to three bytes of a cut record.
fn write_stub(random: &mut Random, file: &mut impl Write) -> io::Result<()> {
    let length = usize::from(random.between(1, 3));
    file.write_all(&narrow_record(random)[..length])
}

/// A record whose numbers go up to one above the largest that is known.
fn narrow_record(random: &mut Random) -> [u8; 4] {
    [12, 8, 16, 64].map(|above| random.between(0, above))
}

/// A record of any four bytes.
fn wild_record(random: &mut Random) -> [u8; 4] {
    [(); 4].map(|()| random.byte())
}

#[cfg(test)]
mod tests {
    use super::*;

    /// The bytes of a file of one kind.
    fn bytes(kind: Kind, records: u64, seed: u64) -> Vec<u8> {
        let mut bytes = Vec::new();
        write_kind(kind, records, Random::seeded(seed), &mut bytes).unwrap();
        bytes
    }

    #[test]
    fn the_same_seed_gives_the_same_bytes() {
        for kind in Kind::ALL {
            assert_eq!(bytes(kind, 500, 9), bytes(kind, 500, 9));
        }
        assert_ne!(
            bytes(Kind::Sensible, 500, 9),
            bytes(Kind::Sensible, 500, 10)
        );
    }

    #[test]
    fn each_kind_has_its_length() {
        for seed in 0..20 {
            for kind in [Kind::Sensible, Kind::Bad, Kind::Narrow, Kind::Wild] {
                assert_eq!(bytes(kind, 10, seed).len(), 40);
            }
            assert!((41..=43).contains(&bytes(Kind::Cut, 10, seed).len()));
            assert!(bytes(Kind::Empty, 10, seed).is_empty());
            assert_eq!(bytes(Kind::Single, 10, seed).len(), 4);
            assert!((1..=3).contains(&bytes(Kind::Stub, 10, seed).len()));
        }
    }

    #[test]
    fn arguments_are_four_and_ask_for_each_kind() {
        let request = |line: &str| {
            let words: Vec<OsString> = line.split(' ').map(OsString::from).collect();
            Request::parse(&words)
        };
        assert!(matches!(
            request("1 8 100 out"),
            Some(Request::Mixed { files: 8, .. })
        ));
        assert!(matches!(
            request("1 long 100 out"),
            Some(Request::Long { records: 100, .. })
        ));
        for wrong in [
            "",
            "1 8 100",
            "1 7 100 out",
            "x 8 100 out",
            "1 8 -1 out",
            "1 8 1 out more",
        ] {
            assert!(request(wrong).is_none());
        }
    }
}
