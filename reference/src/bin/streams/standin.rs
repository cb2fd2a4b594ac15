//! Stand-ins for the programs, over the reference: right, or wrong in one way. This program itself plays them.

use std::fs::File;
use std::io::{self, ErrorKind, Read, Write};
use std::mem::ManuallyDrop;
use std::os::fd::FromRawFd;
use std::process::exit;

use crate::program::{Kind, KINDS};

/// Names the program and the fault, when one is to be played.
pub const STAND_IN: &str = "STREAMS_STAND_IN";

#[derive(Clone, Copy, Debug, PartialEq, Eq)]
pub enum Fault {
    None,
    WritesToError,
    WritesNothing,
    TellsOutput,
    BadEntryFails,
    WarnsOfGood,
    TwoReads,
    OtherDescriptor,
    OtherDescriptorToo,
    FailedReadEnds,
    FailedReadToldEnds,
    FailedReadStops,
    FailedReadUntold,
    FailedReadAgain,
    EndFails,
    InterruptedReadEnds,
    InterruptedReadFails,
    InterruptedWriteFails,
    InterruptedWriteLost,
    FewBytesWritten,
    FailedWriteUntold,
    FailedWriteGoesOn,
}

#[rustfmt::skip]
pub const FAULTS: &[(Fault, &str)] = &[
    (Fault::WritesToError, "writes to standard error"),
    (Fault::WritesNothing, "writes nothing"),
    (Fault::TellsOutput, "tells a failure on standard output"),
    (Fault::BadEntryFails, "tells a bad entry as a failure"),
    (Fault::WarnsOfGood, "warns only when all is good"),
    (Fault::TwoReads, "gives up after two reads"),
    (Fault::OtherDescriptor, "reads another descriptor"),
    (Fault::OtherDescriptorToo, "reads another descriptor too"),
    (Fault::FailedReadEnds, "takes a failed read for the end"),
    (Fault::FailedReadToldEnds, "tells a failed read, but takes it for the end"),
    (Fault::FailedReadStops, "takes a failed read for a bad entry"),
    (Fault::FailedReadUntold, "does not tell a failed read"),
    (Fault::FailedReadAgain, "tries a failed read again"),
    (Fault::EndFails, "takes the end for a failure"),
    (Fault::InterruptedReadEnds, "takes an interrupted read for the end"),
    (Fault::InterruptedReadFails, "takes an interrupted read for a failure"),
    (Fault::InterruptedWriteFails, "takes an interrupted write for a failure"),
    (Fault::InterruptedWriteLost, "does not try an interrupted write again"),
    (Fault::FewBytesWritten, "takes a write of few bytes for a whole one"),
    (Fault::FailedWriteUntold, "does not tell a failed write"),
    (Fault::FailedWriteGoesOn, "goes on after a failed write"),
];

/// Plays a stand-in and ends, if this process was started as one.
pub fn act_if_asked() {
    let Ok(asked) = std::env::var(STAND_IN) else { return };
    let (name, fault) = asked.split_once(' ').expect("a program and a fault");
    let kind = KINDS.into_iter().find(|kind| kind.name() == name).expect("a program");
    let faults = FAULTS.iter().map(|fault| fault.0).chain([Fault::None]);
    let fault = faults.into_iter().find(|known| format!("{known:?}") == fault).expect("a fault");
    if let Err(error) = act(kind, fault) {
        let told = format!("{error}\n");
        // What cannot be written here cannot be told.
        let _ = write_all(if fault == Fault::TellsOutput { 1 } else { 2 }, told.as_bytes(), Fault::None);
    }
    exit(0)
}

/// Reads all, then writes all.
fn act(kind: Kind, fault: Fault) -> io::Result<()> {
    let journal = read_all(fault)?;
    let (output, mut error) = kind.expected(&journal).map_err(io::Error::other)?;
    let bad = match kind {
        Kind::BusinessDay => output.starts_with(b"stopped,"),
        _ => reference::journal::replay(&journal[..])?.stopped,
    };
    if fault == Fault::BadEntryFails && bad {
        return Err(io::Error::other("a bad entry"));
    }
    if fault == Fault::WarnsOfGood {
        error = if error.is_empty() { "stopped,13\n".into() } else { String::new() };
    }
    match fault {
        Fault::WritesNothing => {}
        Fault::WritesToError => write_all(2, &output, fault)?,
        _ => write_all(1, &output, fault)?,
    }
    write_all(2, error.as_bytes(), fault)
}

/// The descriptor as a file: each read and write of it is one call to the system, and dropping it closes nothing.
fn descriptor(number: i32) -> ManuallyDrop<File> {
    // SAFETY: it is never closed here; one that is not open answers with an error.
    ManuallyDrop::new(unsafe { File::from_raw_fd(number) })
}

fn read_all(fault: Fault) -> io::Result<Vec<u8>> {
    let mut input = descriptor(if fault == Fault::OtherDescriptor { 3 } else { 0 });
    let (mut journal, mut buffer) = (Vec::new(), vec![0; 1 << 16]);
    let mut reads = 0;
    loop {
        match input.read(&mut buffer) {
            Ok(0) => break,
            Ok(length) => journal.extend_from_slice(&buffer[..length]),
            Err(error) => match (fault, error.kind()) {
                (Fault::InterruptedReadEnds, ErrorKind::Interrupted) => break,
                (Fault::InterruptedReadFails, ErrorKind::Interrupted) => return Err(error),
                (_, ErrorKind::Interrupted) | (Fault::FailedReadAgain, _) => {}
                (Fault::FailedReadEnds, _) => break,
                (Fault::FailedReadToldEnds, _) => {
                    write_all(2, format!("{error}\n").as_bytes(), Fault::None)?;
                    break;
                }
                (Fault::FailedReadStops, _) => {
                    journal.push(0);
                    break;
                }
                (Fault::FailedReadUntold, _) => exit(0),
                _ => return Err(error),
            },
        }
        reads += 1;
        if fault == Fault::TwoReads && reads == 2 {
            break;
        }
    }
    if fault == Fault::OtherDescriptorToo {
        let _ = descriptor(3).read(&mut buffer);
    }
    if fault == Fault::EndFails {
        return Err(ErrorKind::UnexpectedEof.into());
    }
    Ok(journal)
}

fn write_all(number: i32, bytes: &[u8], fault: Fault) -> io::Result<()> {
    let mut output = descriptor(number);
    let mut rest = bytes;
    while !rest.is_empty() {
        // In pieces, as a program that streams would; two of them even for a line.
        let piece = &rest[..rest.len().div_ceil(2).min(1 << 12)];
        let written = match output.write(piece) {
            Ok(_) if fault == Fault::FewBytesWritten => piece.len(),
            Ok(written) => written,
            Err(error) => match (fault, error.kind()) {
                (Fault::InterruptedWriteFails, ErrorKind::Interrupted) => return Err(error),
                (Fault::InterruptedWriteLost, ErrorKind::Interrupted) => piece.len(),
                (_, ErrorKind::Interrupted) => 0,
                (Fault::FailedWriteUntold, _) => return Ok(()),
                (Fault::FailedWriteGoesOn, _) => {
                    write_all(2, format!("{error}\n").as_bytes(), Fault::None)?;
                    piece.len()
                }
                _ => return Err(error),
            },
        };
        rest = &rest[written..];
    }
    Ok(())
}
