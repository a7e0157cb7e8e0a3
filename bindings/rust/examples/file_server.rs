//! A server of files with a reload. Each file has a slot. A thread that serves holds the text that
//! it sends, so a reload replaces it in the meantime, and the last of its readers drops the old
//! text.
//!
//! It serves itself, on a port of this machine: cargo run --example file_server
use std::io::{BufRead, BufReader, Error, Read, Result, Write};
use std::net::{Shutdown, SocketAddr, TcpListener, TcpStream};
use std::path::{Path, PathBuf};
use yachtbanyan::{Handle, Old, Reader, Table};

const THREADS: usize = 4;

struct Text {
    path: PathBuf,
    bytes: Vec<u8>,
}

fn load(path: PathBuf) -> Result<Text> {
    let bytes = std::fs::read(&path)?;
    Ok(Text { path, bytes })
}

/// Answers requests, each a line with the number of a file, until one is empty.
fn serve(listener: &TcpListener, files: &Reader<Text>) -> Result<()> {
    loop {
        let (mut stream, _) = listener.accept()?;
        let mut line = String::new();
        BufReader::new(&stream).read_line(&mut line)?;
        if line.is_empty() {
            return Ok(());
        }
        match line.trim().parse().map(|slot| files.get_at(slot)) {
            Ok(Ok(text)) => stream.write_all(&text.bytes)?,
            Ok(Err(error)) => write!(stream, "error: {error}")?,
            Err(error) => write!(stream, "error: {error}")?,
        }
    }
}

/// Reads a file again. Returns what became of the old text.
fn reload(files: &Handle<Text>, slot: u32) -> Result<Old<Text>> {
    let path = files.get_at(slot).map_err(Error::other)?.path.clone();
    let replaced = files.replace_at(slot, load(path)?);
    let (_, old) = replaced.map_err(|it| Error::other(it.to_string()))?;
    Ok(old)
}

fn fetch(address: SocketAddr, request: &str) -> Result<String> {
    let mut stream = TcpStream::connect(address)?;
    stream.write_all(request.as_bytes())?;
    stream.shutdown(Shutdown::Write)?;
    let mut answer = String::new();
    stream.read_to_string(&mut answer)?;
    Ok(answer)
}

/// Plays a client.
fn visit(address: SocketAddr, files: &Handle<Text>, folder: &Path) -> Result<()> {
    println!("0: {}", fetch(address, "0\n")?);
    println!("1: {}", fetch(address, "1\n")?);
    std::fs::write(folder.join("one"), "the first text, again")?;
    println!("0: {}", fetch(address, "0\n")?);
    let reader = files.get_at(0).map_err(Error::other)?;
    println!("in use: {}", matches!(reload(files, 0)?, Old::InUse));
    println!("0: {}", fetch(address, "0\n")?);
    println!("a reader still has: {}", String::from_utf8_lossy(&reader.bytes));
    println!("2: {}", fetch(address, "2\n")?);
    Ok(())
}

fn main() -> std::result::Result<(), Box<dyn std::error::Error>> {
    let folder = std::env::temp_dir().join(format!("file_server-{}", std::process::id()));
    std::fs::create_dir_all(&folder)?;
    let table = Table::<Text>::with_slots(8)?;
    let files = table.handle()?;
    let texts = [("one", "the first text"), ("two", "the second text")];
    for (slot, (name, text)) in (0..).zip(texts) {
        std::fs::write(folder.join(name), text)?;
        let replaced = files.replace_at(slot, load(folder.join(name))?);
        replaced.map_err(|it| it.to_string())?;
    }
    let listener = TcpListener::bind("127.0.0.1:0")?;
    let address = listener.local_addr()?;
    let readers =
        (0..THREADS).map(|_| table.reader()).collect::<std::result::Result<Vec<_>, _>>()?;
    std::thread::scope(|scope| {
        for reader in readers {
            let listener = &listener;
            scope.spawn(move || serve(listener, &reader).expect("a connection"));
        }
        let visited = visit(address, &files, &folder);
        (0..THREADS).for_each(|_| drop(fetch(address, "")));
        visited
    })?;
    std::fs::remove_dir_all(folder)?;
    Ok(())
}
