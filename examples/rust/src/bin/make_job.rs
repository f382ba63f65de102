//! Makes a job file of two records in memory, prints its bytes, reads it back and cuts its records, meets each answer that is
//! no record, and writes what was read again.

use yoktvarim::job::{read, BadTop, Record, RecordRefusal, Version, Writer};
use yoktvarim::{measure, Patch, Settings, Size};

/// Prints a record that was read and how many points and indices its patch has.
fn show(record: &Record) {
    let Record {
        kind,
        settings,
        patterns,
    } = record;
    print!(
        "{kind:?}, top {}, first inner level {:08X}",
        settings.top, patterns[4]
    );
    match measure(&record.patch(), settings) {
        Size::Counts {
            points, indices, ..
        } => println!(": {points} points, {indices} indices"),
        Size::Discarded | Size::BadTop => println!(": discarded"),
    }
}

/// Prints what is in a file, and writes its records again.
fn copy(file: &[u8]) -> Vec<u8> {
    let mut again = Vec::new();
    let records = match read(file) {
        Ok(records) => records,
        Err(refusal) => {
            println!("{refusal}");
            return again;
        }
    };
    let mut writer = Writer::new(records.version(), &mut again);
    for record in records {
        match record {
            Ok(record) => {
                show(&record);
                writer.write(&record).expect("what was read can be written");
            }
            Err(refusal @ RecordRefusal::UnknownSetting { .. }) => println!("{refusal}"),
            Err(refusal @ RecordRefusal::CutRecord) => println!("{refusal}"),
        }
    }
    again
}

fn main() -> Result<(), BadTop> {
    let patch = Patch::Triangles {
        outer: [1.0, 1.0, 1.0],
        inner: 2.0,
    };
    let settings = Settings {
        top: 16,
        ..Settings::default()
    };

    // A file of version 2: a header, then two records, the second with a NaN that keeps its payload.
    let record = Record::new(&patch, &settings);
    let mut with_nan = record;
    with_nan.patterns[4] = 0xFFC1_2345;
    let mut job = Vec::new();
    let mut writer = Writer::new(Version::Two, &mut job);
    writer.write(&record)?;
    writer.write(&with_nan)?;
    println!("{job:02X?}");

    // What was read and written again is the same file.
    println!("the same bytes: {}", copy(&job) == job);

    // Version 1 holds the top 64 only.
    if let Err(refusal) = Writer::new(Version::One, &mut Vec::new()).write(&record) {
        println!("{refusal}");
    }

    // A file with an unknown setting and a record that is cut: reading goes on after the first and ends after the second.
    job[5 + 2] = 7;
    copy(&job[..job.len() - 1]);
    // And bytes that are no job file.
    copy(&job[1..]);
    Ok(())
}
