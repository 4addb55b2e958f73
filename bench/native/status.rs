// A yardstick for bench/status: reads standard input, finds each empty line, and writes the fixed response of
// GET /status, one write a response. Plain Rust, without crates.
use std::fs::File;
use std::io::{Read, Write};
use std::os::fd::FromRawFd;

const RESPONSE: &[u8] = b"HTTP/1.1 200 OK\r\nContent-Type: application/json; charset=utf-8\r\nCache-Control: no-cache\r\nContent-Length: 42\r\n\r\n{\"value\":{\"message\":\"ready\",\"ready\":true}}";

fn main() -> std::io::Result<()> {
    // SAFETY: the descriptors 0 and 1 are open, and nothing else uses them.
    let mut input = unsafe { File::from_raw_fd(0) };
    let mut output = unsafe { File::from_raw_fd(1) };
    let mut buffer = [0; 4096];
    let mut line_is_empty = false;
    loop {
        let count = input.read(&mut buffer)?;
        if count == 0 {
            return Ok(());
        }
        for byte in &buffer[..count] {
            match byte {
                b'\n' if line_is_empty => {
                    output.write_all(RESPONSE)?;
                    line_is_empty = false;
                }
                b'\n' => line_is_empty = true,
                b'\r' => {}
                _ => line_is_empty = false,
            }
        }
    }
}
