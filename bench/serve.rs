//! Asks a server of this machine for the attributes of `hello`, by several connections at once, and prints how many calls
//! a second were answered, and how many in a second of the server's processor time.
//!
//!     serve PORT PROCESS CONNECTIONS CALLS DEPTH    CALLS by each connection, of which DEPTH are sent before a reply is
//!                                                   awaited

use std::io::{Read, Write};
use std::net::TcpStream;
use std::sync::Barrier;
use std::time::Instant;
use std::{env, fs, process, thread};

/// GETATTR of `hello`, as a record of one fragment.
const GETATTR: [u32; 19] = [
    0x8000_0048, 7, 0, 2, 100003, 2, 1, 0, 0, 0, 0, 1, 2, 0, 0, 0, 0, 0, 0,
];

/// The bytes of a reply: a mark, and 96 bytes.
const REPLY: usize = 100;

/// Linux counts processor time in hundredths of a second.
const TICK: f64 = 0.01;

/// The processor time of a process and the system for it, in seconds: two fields after the one in round brackets.
fn processor_time(process: u32) -> f64 {
    let line = fs::read_to_string(format!("/proc/{process}/stat")).unwrap();
    let (_, rest) = line.rsplit_once(')').unwrap();
    let fields = rest.split_whitespace().skip(11).take(2);
    TICK * fields.map(|ticks| ticks.parse::<f64>().unwrap()).sum::<f64>()
}

/// Makes the calls of a connection, which is given back open: at its end the server begins to audit.
fn ask(port: u16, calls: u32, depth: u32, start: &Barrier) -> TcpStream {
    let mut stream = TcpStream::connect(("127.0.0.1", port)).unwrap();
    stream.set_nodelay(true).unwrap();
    let call: Vec<u8> = GETATTR.iter().flat_map(|word| word.to_be_bytes()).collect();
    let mut reply = [0; REPLY];
    start.wait();
    for _ in 0..calls / depth {
        stream.write_all(&call.repeat(depth as usize)).unwrap();
        for _ in 0..depth {
            stream.read_exact(&mut reply).unwrap();
            assert_eq!(reply[..8], [0x80, 0, 0, 96, 0, 0, 0, 7]);
        }
    }
    stream
}

fn main() {
    let words: Vec<u32> = env::args().skip(1).map(|word| word.parse().unwrap()).collect();
    let [port, process, connections, calls, depth] = words[..] else {
        eprintln!("usage: serve PORT PROCESS CONNECTIONS CALLS DEPTH");
        process::exit(2);
    };
    let start = Barrier::new(connections as usize + 1);
    let (seconds, of_processor) = thread::scope(|scope| {
        let asking: Vec<_> = (0..connections)
            .map(|_| scope.spawn(|| ask(port as u16, calls, depth, &start)))
            .collect();
        start.wait();
        let (begun, before) = (Instant::now(), processor_time(process));
        let streams: Vec<_> = asking.into_iter().map(|each| each.join().unwrap()).collect();
        let took = (begun.elapsed().as_secs_f64(), processor_time(process) - before);
        drop(streams);
        took
    });
    let made = f64::from(connections * (calls / depth) * depth);
    println!("{:.0} calls a second, {:.0} a second of processor time", made / seconds, made / of_processor);
}
