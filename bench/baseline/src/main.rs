//! The program `venue` as plain Rust: calls on standard input, answers on standard output.
//!
//!     baseline [TENOR T R F [BID_ROOM OFFER_ROOM END_ROOM]]

mod book;
mod market;
mod privileges;
mod sorted;
mod wire;

use std::io::{self, Read, Write};
use std::process::ExitCode;

use book::{Book, Rooms};
use market::{Refusal, Settings};
use wire::{Call, Frame};

/// Answers one message.
fn answer(book: &mut Book, message: &[u8], out: &mut Vec<u8>) -> Result<(), Refusal> {
    let answer = match wire::read(message)? {
        Call::Draw => {
            let record = book.draw();
            wire::write_record(out, book.time(), record);
            return Ok(());
        }
        Call::Entry(new) => book.entry(new),
        Call::Change(new) => book.change(new).map(|()| 0),
        Call::Cancel { trader, order } => book.cancel(trader, order).map(|()| 0),
        Call::Tick(time) => book.tick(time).map(|()| 0),
    };
    wire::write_reply(out, answer);
    Ok(())
}

/// Answers the whole messages at the start of the input; how many bytes they took.
fn answer_all(book: &mut Book, input: &[u8], out: &mut Vec<u8>) -> Result<usize, Refusal> {
    let mut taken = 0;
    loop {
        match wire::frame(&input[taken..]) {
            Frame::Whole(length) => {
                answer(book, &input[taken..taken + length], out)?;
                taken += length;
            }
            Frame::Part => return Ok(taken),
            Frame::Short => return Err(Refusal::Incomplete),
        }
    }
}

/// Answers messages as they arrive, until the input ends or a message cannot be read. The buffer
/// is longer than any message, so there is always room to read more of one.
fn run(book: &mut Book, mut input: impl Read, mut output: impl Write) -> io::Result<()> {
    let mut buffer = vec![0; 1 << 17];
    let mut held = 0;
    let mut out = Vec::with_capacity(1 << 17);
    loop {
        let more = match input.read(&mut buffer[held..]) {
            Err(error) if error.kind() == io::ErrorKind::Interrupted => continue,
            more => more?,
        };
        held += more;
        let taken = match answer_all(book, &buffer[..held], &mut out) {
            Ok(taken) if more == 0 && taken < held => Err(Refusal::Incomplete),
            taken => taken,
        };
        if let Err(refusal) = taken {
            wire::write_reply(&mut out, Err(refusal));
        }
        output.write_all(&out)?;
        output.flush()?;
        out.clear();
        match taken {
            Ok(taken) if more > 0 => {
                buffer.copy_within(taken..held, 0);
                held -= taken;
            }
            _ => return Ok(()),
        }
    }
}

fn book_of(arguments: &[u64]) -> Option<Book> {
    let (tenor, timed, rolling, fbs) = match *arguments {
        [] => (10, 10_000, 10_000, 8_000),
        [tenor, timed, rolling, fbs, ..] => (tenor, timed, rolling, fbs),
        _ => return None,
    };
    let rooms = match *arguments {
        [] | [_, _, _, _] => Rooms {
            bids: 128,
            offers: 128,
            ends: 128,
        },
        [_, _, _, _, bids, offers, ends] => Rooms {
            bids: bids as usize,
            offers: offers as usize,
            ends: ends as usize,
        },
        _ => return None,
    };
    Some(Book::new(Settings::new(tenor, timed, rolling, fbs)?, rooms))
}

fn main() -> ExitCode {
    let arguments: Option<Vec<u64>> = std::env::args()
        .skip(1)
        .map(|word| word.parse().ok())
        .collect();
    let Some(mut book) = arguments.and_then(|numbers| book_of(&numbers)) else {
        eprintln!("usage: baseline [TENOR T R F [BID_ROOM OFFER_ROOM END_ROOM]]");
        return ExitCode::from(2);
    };
    match run(&mut book, io::stdin().lock(), io::stdout().lock()) {
        Ok(()) => ExitCode::SUCCESS,
        Err(error) => {
            eprintln!("baseline: {error}");
            ExitCode::FAILURE
        }
    }
}
