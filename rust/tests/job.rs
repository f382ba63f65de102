//! Job files written and read: every answer, count and byte agrees with the second program, on seeded random records of both
//! versions, on NaN patterns of every sort, in lists of every length, and on random and damaged files.

#[path = "agrees/records.rs"]
#[allow(dead_code)]
mod records;

#[path = "job/reading.rs"]
mod reading;
#[path = "job/strange.rs"]
mod strange;
#[path = "job/writing.rs"]
mod writing;
