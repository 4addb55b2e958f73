// The client of bench/listen: dials a port of the loopback address so many times, and on each connection sends so many
// requests for the status, each once the response before it was read. Prints the seconds that it took.
use std::io::{Read, Write};
use std::net::TcpStream;
use std::time::Instant;

const REQUEST: &[u8] = b"GET /status HTTP/1.1\r\nHost: h\r\n\r\n";
const END: &[u8] = b"\"ready\":true}}";

fn ask(stream: &mut TcpStream, buffer: &mut [u8]) -> std::io::Result<()> {
    stream.write_all(REQUEST)?;
    let mut filled = 0;
    while !buffer[..filled].ends_with(END) {
        let count = stream.read(&mut buffer[filled..])?;
        assert!(count > 0, "the server hung up");
        filled += count;
    }
    Ok(())
}

fn main() -> std::io::Result<()> {
    let words: Vec<u32> = std::env::args().skip(1).map(|word| word.parse().unwrap()).collect();
    let mut buffer = [0; 4096];
    let started = Instant::now();
    for _ in 0..words[1] {
        let mut stream = TcpStream::connect(("127.0.0.1", words[0] as u16))?;
        stream.set_nodelay(true)?;
        for _ in 0..words[2] {
            ask(&mut stream, &mut buffer)?;
        }
    }
    println!("{}", started.elapsed().as_secs_f64());
    Ok(())
}
