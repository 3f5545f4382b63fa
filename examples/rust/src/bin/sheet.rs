//! A sheet that comes in pieces: examples/c/sheet.c in Rust, with the same words and the same text.
//!
//!     sheet [FILE [PIECE]]     FILE, or standard input where it is -, in pieces of PIECE bytes (7 where none is named); PIECE 0: the whole sheet at once

#[path = "../lintelbox.rs"]
mod lintelbox;
use lintelbox::*;
use std::io::{self, Read, Write};

fn done(number: u32) -> io::Result<()> {
    if number == 0 { Ok(()) } else { Err(io::Error::other(format!("number {number}"))) }
}

/// One piece. The room is no longer than one line needs, so a piece of many lines may take several calls.
fn feed(k: &mut Sheet, mut piece: &[u8], room: &mut [u8], out: &mut impl Write) -> io::Result<()> {
    let mut answer = [0; ANSWER];
    while !piece.is_empty() {
        done(k.feed(piece, room, &mut answer))?;
        out.write_all(&room[..answer[1] as usize])?;
        piece = &piece[answer[0] as usize..];
    }
    Ok(())
}

fn main() -> io::Result<()> {
    let given: Vec<String> = std::env::args().skip(1).collect();
    let size = given.get(1).map_or(7, |n| n.parse().expect("a number of bytes"));
    let mut sheet = Vec::new();
    match given.first().map(String::as_str) {
        None | Some("-") => io::stdin().read_to_end(&mut sheet)?,
        Some(file) => std::fs::File::open(file)?.read_to_end(&mut sheet)?,
    };
    let mut out = io::stdout().lock();
    let mut answer = [0; ANSWER];
    let mut k = Sheet::new();
    if size == 0 {
        let mut room = vec![0; (1 << 20) + STEP_ROOM];
        done(k.check(&sheet, SITES_ROOM, &mut room, &mut answer))?;
        return out.write_all(&room[..answer[0] as usize]);
    }
    let mut room = vec![0; STEP_ROOM];
    done(k.begin(STATE))?;
    for piece in sheet.chunks(size) {
        feed(&mut k, piece, &mut room, &mut out)?;
    }
    done(k.end(&mut room, &mut answer))?;
    out.write_all(&room[..answer[0] as usize])
}
