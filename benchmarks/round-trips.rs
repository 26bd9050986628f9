//! The baseline of `run --sockets`: handwritten round trips of frames between a program and its node programs, with nothing but the
//! bytes. Prints the parcels per second.
//!
//! Usage: round-trips NODES ROUNDS PARCEL REPLY [together] [ahead], where PARCEL and REPLY are bytes of a body. It starts itself for each
//! node, behind a socket in its own folder. A frame is read by three calls, for its length, its kind and its body; with `ahead` it is read
//! through buffers, so by one call.
use std::io::{self, BufReader, Error, Read, Write};
use std::os::unix::net::{UnixListener, UnixStream};
use std::path::Path;
use std::process::{Child, Command, exit};
use std::time::Instant;
use std::{env, fs, process};

const PARCEL: u8 = 2;
const REPLY: u8 = 3;

fn frame(kind: u8, size: usize) -> Vec<u8> {
    let mut bytes = vec![kind; 5 + size];
    bytes[..4].copy_from_slice(&(size as u32).to_be_bytes());
    bytes
}

/// Reads a frame of this kind: its length, its kind, and then its body. Returns false at the end.
fn read(stream: &mut dyn Read, kind: u8, body: &mut Vec<u8>) -> io::Result<bool> {
    let mut head = [0; 4];
    let came = stream.read(&mut head)?;
    if came == 0 {
        return Ok(false);
    }
    stream.read_exact(&mut head[came..])?;
    let mut found = [0; 1];
    stream.read_exact(&mut found)?;
    if found[0] != kind {
        return Err(Error::other("another kind"));
    }
    body.resize(u32::from_be_bytes(head) as usize, 0);
    stream.read_exact(body)?;
    Ok(true)
}

/// Answers each parcel with a reply of this number of bytes.
fn node(socket: &str, reply: usize, is_ahead: bool) -> io::Result<()> {
    let mut stream = Stream::of(UnixStream::connect(socket)?, is_ahead)?;
    let reply = frame(REPLY, reply);
    let mut body = Vec::new();
    while read(&mut stream.reader, PARCEL, &mut body)? {
        stream.writer.write_all(&reply)?;
    }
    Ok(())
}

/// Both ways of a connection.
struct Stream {
    reader: Box<dyn Read>,
    writer: UnixStream,
}

impl Stream {
    fn of(writer: UnixStream, is_ahead: bool) -> io::Result<Stream> {
        let reader = writer.try_clone()?;
        let reader: Box<dyn Read> = if is_ahead { Box::new(BufReader::new(reader)) } else { Box::new(reader) };
        Ok(Stream { reader, writer })
    }
}

struct Nodes {
    streams: Vec<Stream>,
    children: Vec<Child>,
}

fn start(folder: &Path, nodes: usize, reply: usize, is_ahead: bool) -> io::Result<Nodes> {
    let mut started = Nodes { streams: Vec::new(), children: Vec::new() };
    for node in 0..nodes {
        let socket = folder.join(format!("node{node}"));
        let listener = UnixListener::bind(&socket)?;
        let program = env::current_exe()?;
        started.children.push(Command::new(program).arg("node").arg(&socket).arg(reply.to_string()).arg(is_ahead.to_string()).spawn()?);
        started.streams.push(Stream::of(listener.accept()?.0, is_ahead)?);
    }
    Ok(started)
}

/// Makes this number of rounds, and returns the seconds that they took.
fn rounds(streams: &mut [Stream], count: usize, parcel: &[u8], is_together: bool, reply: usize) -> io::Result<f64> {
    let mut body = Vec::new();
    let mut take = |stream: &mut Stream| -> io::Result<()> {
        if !read(&mut stream.reader, REPLY, &mut body)? || body.len() != reply {
            return Err(Error::other("no reply of that size"));
        }
        Ok(())
    };
    let start = Instant::now();
    for _ in 0..count {
        if is_together {
            for stream in streams.iter_mut() {
                stream.writer.write_all(parcel)?;
            }
            for stream in streams.iter_mut() {
                take(stream)?;
            }
        } else {
            for stream in streams.iter_mut() {
                stream.writer.write_all(parcel)?;
                take(stream)?;
            }
        }
    }
    Ok(start.elapsed().as_secs_f64())
}

fn main() -> io::Result<()> {
    let words: Vec<String> = env::args().collect();
    let number = |at: usize| words[at].parse::<usize>().expect("a number");
    if words.len() == 5 && words[1] == "node" {
        return node(&words[2], number(3), words[4] == "true");
    }
    if words.len() < 5 {
        eprintln!("round-trips NODES ROUNDS PARCEL REPLY [together] [ahead]");
        exit(2);
    }
    let (nodes, count, parcel, reply) = (number(1), number(2), number(3), number(4));
    let has = |option: &str| words[5..].iter().any(|word| word == option);
    let (is_together, is_ahead) = (has("together"), has("ahead"));
    let folder = env::temp_dir().join(format!("round-trips-{}", process::id()));
    fs::create_dir(&folder)?;
    let rate = start(&folder, nodes, reply, is_ahead).and_then(|mut started| {
        let parcel = frame(PARCEL, parcel);
        // the first rounds fill the caches and wait until the programs run
        rounds(&mut started.streams, count / 10, &parcel, is_together, reply)?;
        let seconds = rounds(&mut started.streams, count, &parcel, is_together, reply)?;
        drop(started.streams);
        for mut child in started.children {
            child.wait()?;
        }
        Ok((count * nodes) as f64 / seconds)
    });
    fs::remove_dir_all(&folder)?;
    println!("{:.0}", rate?);
    Ok(())
}
