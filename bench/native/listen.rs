// A yardstick for bench/listen: listens at a port of the loopback address, serves so many connections one after another,
// and answers each empty line with the fixed response of GET /status, one write a response. Plain Rust, without crates.
use std::io::{Read, Write};
use std::net::{TcpListener, TcpStream};

const RESPONSE: &[u8] = b"HTTP/1.1 200 OK\r\nContent-Type: application/json; charset=utf-8\r\nCache-Control: no-cache\r\nContent-Length: 42\r\n\r\n{\"value\":{\"message\":\"ready\",\"ready\":true}}";

fn serve(mut stream: TcpStream) -> std::io::Result<()> {
    stream.set_nodelay(true)?;
    let mut buffer = [0; 4096];
    let mut line_is_empty = false;
    loop {
        let count = stream.read(&mut buffer)?;
        if count == 0 {
            return Ok(());
        }
        for byte in &buffer[..count] {
            match byte {
                b'\n' if line_is_empty => {
                    stream.write_all(RESPONSE)?;
                    line_is_empty = false;
                }
                b'\n' => line_is_empty = true,
                b'\r' => {}
                _ => line_is_empty = false,
            }
        }
    }
}

fn main() -> std::io::Result<()> {
    let words: Vec<u32> = std::env::args().skip(1).map(|word| word.parse().unwrap()).collect();
    let listener = TcpListener::bind(("127.0.0.1", words[0] as u16))?;
    println!("listening on port {}", words[0]);
    for _ in 0..words[1] {
        let (stream, _) = listener.accept()?;
        let _ = serve(stream);
    }
    Ok(())
}
