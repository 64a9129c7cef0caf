//! Decodes a stream of frames from standard input, and prints a line for each.

use std::io::{self, Read};

#[allow(dead_code)]
mod postmig;

fn main() -> io::Result<()> {
    let mut frames = postmig::Frames::new().expect("no memory");
    let (mut piece, mut fed, mut decoded) = ([0; 4096], 0, 0);
    loop {
        let count = io::stdin().read(&mut piece)?;
        if count == 0 {
            break;
        }
        fed += count;
        frames.feed(&piece[..count]).expect("no memory");
        loop {
            match frames.next() {
                Ok(Some((frame, bytes))) => {
                    decoded += bytes.len();
                    println!("tag {:#04x} epoch {} address {:#x} count {} of {} bytes", frame.tag, frame.epoch, frame.addr, frame.count, bytes.len());
                }
                Ok(None) => break,
                Err(fault) => {
                    println!("fault {} behind byte {decoded}", fault.0);
                    return Ok(());
                }
            }
        }
    }
    // The frames' lengths add up to the stream's, unless it ends inside a frame.
    println!("{}", if fed == decoded { "whole" } else { "truncated" });
    Ok(())
}
