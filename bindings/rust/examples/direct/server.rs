//! The ring's thread: lives of connections and files, and the requests on them.
use crate::life::{Life, Reading, BUFFER, LONGEST};
use crate::ring::{set_backlog, Ring, Sqe};
use crate::work::{self, Job, Workers};
use std::error::Error;
use std::ffi::CString;
use std::net::TcpListener;
use std::os::fd::{AsRawFd, RawFd};
use std::os::unix::net::UnixStream;
use std::path::PathBuf;
use std::sync::atomic::{AtomicU32, AtomicU64};
use std::sync::mpsc::{channel, Receiver, Sender};
use std::sync::Mutex;
use std::thread;
use yachtbanyan::direct::{Event, Key, Lives, PhaseName, Releases, User};
use yachtbanyan::{Handle, Options};

const WORKERS: u32 = 2;
/// The most accepts in flight.
const ACCEPTS: u32 = 4;
/// The server ends the connection of each such line, as if it had reasons.
const ENDS: u32 = 50;

/// The kinds of requests with a key, and the user data of those without one.
const RECEIVE: u8 = 0;
const SEND: u8 = 1;
const READ: u8 = 2;
const WAKE: u64 = 1;
const INPUT: u64 = 2;

const NO_SUCH_FILE: i32 = -2;
const NO_FILE: &[u8] = b"no such file\n";

/// What the server counts.
#[derive(Default)]
pub struct Counts {
    pub opened: u32,
    pub closed: u32,
    pub ended: u32,
    pub late: u32,
    pub stale: u32,
    /// How often no slot was free for an accept.
    pub waits: u32,
    lines: u32,
}

struct Server {
    lives: Lives<Life, Ring>,
    handle: Handle<User>,
    releases: Releases,
    asked: Sender<Job>,
    answered: Receiver<Job>,
    /// The other end of the bell.
    heard: UnixStream,
    folder: PathBuf,
    /// The slots that are left for files.
    kept: u32,
    counts: Counts,
}

/// Serves the files of a folder until the standard input ends, and then until each connection has
/// ended.
pub fn serve(ring: Ring, slots: u32, folder: PathBuf) -> Result<Counts, Box<dyn Error>> {
    let listener = TcpListener::bind(("127.0.0.1", 0))?;
    set_backlog(&listener, 512)?;
    println!("{}", listener.local_addr()?.port());
    let table = Options::new(slots).handles(1).readers(WORKERS).guards(0).open()?;
    let (asked, questions) = channel();
    let (answers, answered) = channel();
    let (bell, heard) = UnixStream::pair()?;
    bell.set_nonblocking(true)?;
    let (mut lives, kept) = (Lives::new(ring, slots)?, slots.div_ceil(8));
    lives.accept(listener.as_raw_fd(), ACCEPTS, kept);
    let at_drop = bell.try_clone()?;
    let releases = lives.slots().releases(move || work::ring(&at_drop));
    let workers = Workers { asked: Mutex::new(questions), answers, bell, stale: AtomicU32::new(0) };
    let counts = thread::scope(|scope| {
        for _ in 0..WORKERS {
            let (reader, workers) = (table.reader()?, &workers);
            scope.spawn(move || workers.work(&reader));
        }
        let (handle, counts) = (table.handle()?, Counts::default());
        Server { lives, handle, releases, asked, answered, heard, folder, kept, counts }.serve()
    })?;
    Ok(Counts { stale: workers.stale.into_inner(), ..counts })
}

impl Server {
    fn serve(mut self) -> Result<Counts, Box<dyn Error>> {
        self.listen_for(0, INPUT);
        self.listen_for(self.heard.as_raw_fd(), WAKE);
        while let Some(event) = self.lives.next()? {
            match event {
                Event::Opened(key, result) => self.opened(key, result),
                Event::Completed { key, kind: READ, result, .. } => self.read(key, result),
                Event::Completed { key, kind, result, .. } => self.completed(key, kind, result),
                Event::Over(_, Life { file: Some(Reading { opened: ..0, .. }), .. }) => {}
                Event::Over(..) => self.counts.closed += 1,
                Event::Stopped(error) => return Err(format!("accept: {error}").into()),
                Event::Other(it) if it.user_data == INPUT => self.stop(),
                Event::Other(_) => self.woken(),
            }
        }
        assert_eq!(self.lives.slots().in_flight(), 0);
        Ok(self.counts)
    }

    fn listen_for(&mut self, fd: RawFd, data: u64) {
        static UNREAD: AtomicU64 = AtomicU64::new(0); // nobody looks at what comes
        self.lives.push_other(Sqe::read(fd, UNREAD.as_ptr().cast(), 8), data);
    }

    fn life(&mut self, key: Key) -> &mut Life {
        self.lives.get_mut(key).expect("it is not over")
    }

    fn opened(&mut self, key: Key, result: i32) {
        self.counts.opened += u32::from(result >= 0);
        if let Some(file) = &mut self.life(key).file {
            file.opened = result;
            return;
        }
        let slots = self.lives.slots();
        self.counts.waits += u32::from(slots.len() + self.kept >= slots.slots());
        // it is refused if the server was stopped before this event
        if let Ok(user) = self.lives.hold_by(key, &self.releases) {
            self.life(key).name = Some(self.handle.insert(user).expect("it has room"));
        }
        self.go_on(key);
    }

    // Sends an answer, unless its connection has ended meanwhile: then it goes to nobody.
    fn answer(&mut self, key: Key, line: Vec<u8>) {
        let Some(it) = self.lives.live(key) else {
            self.counts.late += 1;
            return;
        };
        it.output = line;
        let send = Sqe::send(&it.output);
        self.lives.start(key, SEND, send).expect("it is live");
    }

    // Ends a connection. Workers find it no more; what is in flight completes by the shutdown.
    fn end(&mut self, key: Key) {
        if let Some(name) = self.life(key).name.take() {
            self.lives.end(key);
            drop(self.handle.remove(name).expect("it was inserted"));
        }
    }

    // Opens, reads and closes a file by one submission.
    fn read_file(&mut self, reader: Key, name: &[u8]) {
        let path = [self.folder.as_os_str().as_encoded_bytes(), b"/", name].concat();
        let path = CString::new(path).expect("an argument, and a number");
        let mut it = Reading { reader, path, opened: 0, bytes: vec![0; LONGEST - 1] };
        let open = Sqe::open(&it.path);
        let requests = vec![(READ, Sqe::read(-1, it.bytes.as_mut_ptr(), it.bytes.len()))];
        let life = Life { file: Some(it), ..Life::default() };
        if self.lives.chain(life, open, requests, true).is_err() {
            self.answer(reader, b"busy\n".to_vec());
        }
    }

    // Answers with the first line of a file, the connection that asked for it.
    fn read(&mut self, key: Key, result: i32) {
        let it = self.life(key).file.as_ref().expect("it is a file");
        let mut lines = it.bytes[..result.max(0) as usize].split(|it| *it == b'\n');
        let line = [lines.next().unwrap_or_default(), b"\n"].concat();
        let (reader, opened) = (it.reader, it.opened);
        self.answer(reader, if opened == NO_SUCH_FILE { NO_FILE.to_vec() } else { line });
    }

    // Takes the completion of a receive or a send.
    fn completed(&mut self, key: Key, kind: u8, result: i32) {
        let (it, count) = (self.life(key), result.max(0) as usize);
        if kind == RECEIVE {
            it.is_receiving = false;
            it.input.extend(&it.buffer[..count]);
        } else {
            let rest = it.output.split_off(count);
            if count > 0 && !rest.is_empty() && it.name.is_some() {
                return self.answer(key, rest);
            }
            it.is_answering = false;
        }
        if count == 0 {
            self.end(key);
        }
        self.go_on(key);
    }

    // Receives, if there is room, and takes the next line, unless one is being answered.
    fn go_on(&mut self, key: Key) {
        let it = self.life(key);
        let Some(name) = it.name else { return };
        if !it.is_receiving && it.input.len() < BUFFER {
            it.is_receiving = true;
            it.buffer.resize(BUFFER, 0);
            let receive = Sqe::receive(it.buffer.as_mut_ptr(), BUFFER);
            self.lives.start(key, RECEIVE, receive).expect("it is live");
        }
        let it = self.life(key);
        if it.is_answering {
            return;
        }
        let newline = it.input.iter().position(|it| *it == b'\n');
        // too long, also before its newline has come
        if newline.unwrap_or(it.input.len()) >= LONGEST {
            return self.end(key);
        }
        let Some(newline) = newline else { return };
        it.is_answering = true;
        let line = it.input.drain(..=newline).collect();
        self.take(Job { key, name, line });
        self.counts.lines += 1;
        if self.counts.lines % ENDS == 0 {
            self.counts.ended += 1;
            self.end(key);
        }
    }

    // Begins the answer to a line.
    fn take(&mut self, job: Job) {
        match job.line.strip_prefix(b"get ").map(<[u8]>::trim_ascii_end) {
            // a path of several names would lead out of the folder
            Some(file) if file.is_empty() || !file.iter().all(u8::is_ascii_digit) => {
                self.answer(job.key, NO_FILE.to_vec())
            }
            Some(file) => self.read_file(job.key, file),
            None => self.asked.send(job).expect("workers wait for it"),
        }
    }

    // Takes what other threads left: users that are gone, and answers.
    fn woken(&mut self) {
        self.listen_for(self.heard.as_raw_fd(), WAKE);
        for key in self.lives.slots().collect(&self.releases).expect("its own queue") {
            self.lives.release(key).expect("the life of a user is not over");
        }
        while let Ok(job) = self.answered.try_recv() {
            self.answer(job.key, job.line);
        }
    }

    // Begins the orderly end: each connection is ended, and no accept is left.
    fn stop(&mut self) {
        for key in self.lives.slots().keys(PhaseName::Live).collect::<Vec<_>>() {
            self.end(key);
        }
        self.lives.stop();
    }
}
