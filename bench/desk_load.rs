//! The load of `bench/desk_throughput`: asks a desk over the loopback address, a connection a request, and prints how many answers came in
//! how many nanoseconds.
//!
//!     desk_load PORT CLIENTS REQUESTS face
//!     desk_load PORT 1 REQUESTS ticks FIRST
//!
//! Each answer must begin with status 200; what is behind its head is read to the end and not looked at.
use std::io::{Read, Write};
use std::net::{Ipv4Addr, TcpStream};
use std::process::exit;
use std::thread;
use std::time::Instant;

const ACCEPTED: &[u8] = b"HTTP/1.1 200 OK\r\n";

fn ask(port: u16, request: &[u8], room: &mut [u8]) -> std::io::Result<()> {
    let mut stream = TcpStream::connect((Ipv4Addr::LOCALHOST, port))?;
    stream.write_all(request)?;
    let mut filled = 0;
    loop {
        match stream.read(&mut room[filled..])? {
            0 if room[..filled].starts_with(ACCEPTED) => return Ok(()),
            0 => return Err(std::io::Error::other(String::from_utf8_lossy(&room[..filled]).into_owned())),
            count => filled += count,
        }
    }
}

/// Asks with each of these requests, one after the other.
fn ask_all(port: u16, requests: impl Iterator<Item = Vec<u8>>) {
    let mut room = vec![0; 1 << 20];
    for request in requests {
        if let Err(trouble) = ask(port, &request, &mut room) {
            eprintln!("desk_load: {trouble}");
            exit(1);
        }
    }
}

fn tick(number: u64) -> Vec<u8> {
    let block = format!("tick {number}\n");
    format!("POST /v1/ticks HTTP/1.1\r\nHost: 127.0.0.1\r\nContent-Length: {}\r\n\r\n{block}", block.len()).into_bytes()
}

fn main() {
    let words: Vec<String> = std::env::args().skip(1).collect();
    let number = |at: usize| words.get(at).and_then(|word| word.parse::<u64>().ok()).expect("numbers, as the head of this file says");
    let (port, clients, count) = (number(0) as u16, number(1), number(2));
    let start = Instant::now();
    match words[3].as_str() {
        "ticks" => ask_all(port, (number(4)..number(4) + count).map(tick)),
        _ => {
            let face = b"GET /v1/face/1 HTTP/1.1\r\nHost: 127.0.0.1\r\n\r\n";
            let asking = (0..clients).map(|_| thread::spawn(move || ask_all(port, (0..count / clients).map(|_| face.to_vec()))));
            for thread in asking.collect::<Vec<_>>() {
                thread.join().expect("a client that ends");
            }
        }
    }
    println!("{} {}", count / clients * clients, start.elapsed().as_nanos());
}
