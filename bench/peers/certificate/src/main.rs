//! `webpki-read TIMES < CERTIFICATE` reads a certificate (DER) this many times, and prints how often it was one.

use std::error::Error;
use std::hint::black_box;
use std::io::{self, Read};
use webpki::EndEntityCert;

fn main() -> Result<(), Box<dyn Error>> {
    let times: u32 = std::env::args().nth(1).ok_or("how often?")?.parse()?;
    let mut der = Vec::new();
    io::stdin().read_to_end(&mut der)?;
    let mut read = 0;
    for _ in 0..times {
        black_box(EndEntityCert::try_from(black_box(der.as_slice()))?);
        read += 1;
    }
    println!("{read}");
    Ok(())
}
