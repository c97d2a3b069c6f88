//! Runs the original from a script on standard input, in the folder given as the one argument. README.md has the commands.
use marble::{Config, Marble};
use std::io::{BufRead, Result, Write};
use std::panic::{catch_unwind, AssertUnwindSafe};
use std::path::{Path, PathBuf};
use std::sync::Mutex;

static PANIC: Mutex<String> = Mutex::new(String::new());

fn hex(bytes: &[u8]) -> String {
    let digit = |n: u8| char::from(b"0123456789abcdef"[usize::from(n)]);
    if bytes.is_empty() { "-".into() } else { bytes.iter().flat_map(|b| [digit(b >> 4), digit(b & 15)]).collect() }
}

fn unhex(word: &str) -> Vec<u8> {
    let pair = |k: usize| u8::from_str_radix(&word[k..k + 2], 16).expect("hex");
    if word == "-" { vec![] } else { (0..word.len()).step_by(2).map(pair).collect() }
}

fn number(word: &str) -> u64 {
    word.parse().expect("number")
}

/// the answer of a call: its own words, `err KIND`, or `panic FILE:LINE`
fn guarded(call: impl FnOnce() -> Result<String>) -> String {
    match catch_unwind(AssertUnwindSafe(call)) {
        Ok(Ok(words)) => words,
        Ok(Err(e)) => format!("err {:?}", e.kind()),
        Err(_) => format!("panic {}", PANIC.lock().unwrap()),
    }
}

/// (name, bytes) of each storage file, by name; the original's legend is no storage file
fn files(heap: &Path) -> Vec<(String, Vec<u8>)> {
    let mut all = vec![];
    for entry in std::fs::read_dir(heap).into_iter().flatten().flatten() {
        let name = entry.file_name().into_string().unwrap();
        if !name.contains("lsn") && !name.ends_with("tmp") {
            all.push((name, std::fs::read(entry.path()).unwrap()));
        }
    }
    all.sort();
    all
}

struct Driver {
    config: Config,
    store: Option<Marble>,
}

impl Driver {
    fn heap(&self) -> PathBuf {
        self.config.path.join("heap")
    }
    fn set(&mut self, name: &str, value: u64) -> String {
        let c = &mut self.config;
        match name {
            "file_compaction_percent" => c.file_compaction_percent = value as u8,
            "min_compaction_files" => c.min_compaction_files = value as usize,
            "target_file_size" => c.target_file_size = value as usize,
            "small_file_cleanup_threshold" => c.small_file_cleanup_threshold = value as usize,
            "max_object_size" => c.max_object_size = value as usize,
            "partition_function" => {
                c.partition_function = if value == 0 { Config::default().partition_function } else { marble::default_partition_function }
            }
            _ => return format!("unknown setting {name}"),
        }
        "ok".into()
    }
    fn close(&mut self) -> String {
        let store = self.store.take();
        guarded(|| { drop(store); Ok("ok".into()) })
    }
    fn open(&mut self) -> String {
        let (config, mut opened) = (self.config.clone(), None);
        let answer = guarded(|| {
            let store = config.open()?;
            let next = store.next_position();
            opened = Some(store);
            Ok(format!("ok {next}"))
        });
        self.store = opened;
        answer
    }
    /// as after a power cut: a close would unlink the files with no live object, and a reopening must see them
    fn reopen(&mut self) -> String {
        let saved = files(&self.heap());
        self.close();
        for (name, bytes) in saved {
            std::fs::write(self.heap().join(name), bytes).unwrap();
        }
        self.open()
    }
    fn wipe(&mut self) -> String {
        self.close();
        let _ = std::fs::remove_dir_all(&self.config.path);
        std::fs::create_dir_all(self.heap()).unwrap();
        "ok".into()
    }
    fn raw(&mut self, name: &str, bytes: &str) -> String {
        std::fs::write(self.heap().join(name), unhex(bytes)).unwrap();
        "ok".into()
    }

    fn line(&mut self, words: &[&str]) -> String {
        match words {
            ["set", name, value] => self.set(name, number(value)),
            ["open"] => self.open(),
            ["reopen"] => self.reopen(),
            ["close"] => self.close(),
            ["wipe"] => self.wipe(),
            ["raw", name, bytes] => self.raw(name, bytes),
            ["files"] => {
                let lines = files(&self.heap()).into_iter().map(|(n, b)| format!("file {n} {}\n", hex(&b)));
                lines.collect::<String>() + "end"
            }
            ["absolute", p, d] => guarded(|| Ok(format!("ok {}", Marble::absolute(number(p), *d == "1")))),
            ["relative", p, d, lsn] => guarded(|| {
                let (raw, sum) = Marble::relative(number(p), *d == "1", number(lsn));
                Ok(format!("ok {raw} {sum}"))
            }),
            _ => match &self.store {
                Some(store) => call(store, words),
                None => "closed".into(),
            },
        }
    }
}

fn found(location: Option<u64>) -> String {
    location.map_or("nothing".into(), |raw| format!("ok {raw}"))
}

fn read(store: &Marble, id: &str) -> String {
    guarded(|| Ok(store.read(number(id))?.map_or("nothing".into(), |body| format!("ok {}", hex(&body)))))
}

/// ID=HEX a put, ID=- an empty one, ID a delete
fn operation(word: &&str) -> (u64, Option<Vec<u8>>) {
    match word.split_once('=') {
        Some((id, body)) => (number(id), Some(unhex(body))),
        None => (number(word), None),
    }
}

fn call(store: &Marble, words: &[&str]) -> String {
    let next = || store.next_position();
    match words {
        ["write", operations @ ..] => guarded(|| {
            store.write_batch(operations.iter().map(operation).collect::<Vec<_>>())?;
            Ok(format!("ok {}", next()))
        }),
        ["maintain"] => guarded(|| Ok(format!("ok {} {}", store.maintenance()?, next()))),
        ["sync"] => guarded(|| Ok(format!("ok {}", u8::from(store.sync()?)))),
        ["prune"] => guarded(|| store.prune().map(|()| "ok".into())),
        // one line, the answers apart by commas
        ["read", ids @ ..] => ids.iter().map(|id| read(store, id)).collect::<Vec<_>>().join(","),
        ["loads", ids @ ..] => ids.iter().map(|id| found(store.load(number(id)))).collect::<Vec<_>>().join(","),
        ["load", id] => guarded(|| Ok(found(store.load(number(id))))),
        ["store", id, raw] => guarded(|| { store.store(number(id), number(raw)); Ok("ok".into()) }),
        ["cas", id, old, new] => guarded(|| {
            let done = store.cas(number(id), number(old), number(new));
            Ok(done.map_or_else(|current| format!("differs {current}"), |()| "ok".into()))
        }),
        ["max", id, raw] => guarded(|| {
            let held = store.fetch_max(number(id), number(raw));
            Ok(held.map_or("ok nothing".into(), |raw| format!("ok {raw}")))
        }),
        ["counts"] => {
            let s = store.stats();
            format!("ok {} {} {} {}", s.files, s.total_file_size, s.stored_objects, s.live_objects)
        }
        ["records"] => {
            let lines = store.records().into_iter().map(|r| {
                let (synced, claimed) = (u8::from(r.synced), u8::from(r.claimed));
                format!("record {} {} {} {} {} {} {synced} {claimed}\n", r.lsn, r.trailer_offset, r.file_size, r.present, r.generation, r.live)
            });
            lines.collect::<String>() + "end"
        }
        ["claim", lsn] | ["release", lsn] => {
            let done = store.set_claim(number(lsn), words[0] == "claim");
            if done { "ok".into() } else { "not so".into() }
        }
        _ => "bad line".into(),
    }
}

fn main() {
    std::panic::set_hook(Box::new(|info| {
        let place = info.location().map(|l| format!("{}:{}", l.file().rsplit('/').next().unwrap(), l.line()));
        *PANIC.lock().unwrap() = place.unwrap_or_default();
    }));
    let path = std::env::args().nth(1).expect("a folder");
    let mut driver = Driver { config: Config { path: path.into(), ..Config::default() }, store: None };
    let mut out = std::io::stdout().lock();
    for line in std::io::stdin().lock().lines() {
        let line = line.unwrap();
        let words: Vec<&str> = line.split_whitespace().collect();
        writeln!(out, "{}", driver.line(&words)).unwrap();
        out.flush().unwrap();
    }
    driver.close();
    let _ = std::fs::remove_dir_all(&driver.config.path);
}
