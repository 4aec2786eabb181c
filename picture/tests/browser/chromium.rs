//! A real Chromium without a window, driven over its DevTools protocol: JSON with a zero byte after
//! each message, over two pipes that the browser finds as files 3 and 4.

use std::env;
use std::fs::{self, File};
use std::io::{BufRead, BufReader, Write};
use std::path::{Path, PathBuf};
use std::process::{id, Child, Command, Stdio};
use std::sync::atomic::{AtomicU32, Ordering};
use std::sync::mpsc::{channel, Receiver, RecvTimeoutError};
use std::thread;
use std::time::{Duration, Instant};

use super::json::{quoted, Json};

/// The longest wait for an answer, or for an event; pages of 4,096 steps take seconds.
const LIMIT: Duration = Duration::from_secs(60);

/// How wide and high pages are.
const SIZE: &str = "--window-size=1280,900";

/// A folder of its own, which goes with it.
pub struct Folder(pub PathBuf);

impl Folder {
    fn new() -> Folder {
        static NEXT: AtomicU32 = AtomicU32::new(0);
        let nth = NEXT.fetch_add(1, Ordering::Relaxed);
        let path = env::temp_dir().join(format!("picture-browser-{}-{nth}", id()));
        fs::create_dir_all(&path).unwrap_or_else(|why| panic!("{}: {why}", path.display()));
        Folder(path)
    }
}

impl Drop for Folder {
    fn drop(&mut self) {
        // The browser's last processes may still write.
        for _ in 0..50 {
            if fs::remove_dir_all(&self.0).is_ok() || !self.0.exists() {
                return;
            }
            thread::sleep(Duration::from_millis(100));
        }
        eprintln!("{} is left behind", self.0.display());
    }
}

pub struct Chromium {
    child: Child,
    to: File,
    from: Receiver<String>,
    /// The page that is driven; none before it is opened.
    session: Option<String>,
    sent: u32,
    /// What the browser said without being asked, in order.
    pub events: Vec<Json>,
    // After the child: the folder goes when the browser is gone.
    pub folder: Folder,
}

fn pipe(folder: &Path, name: &str) -> PathBuf {
    let path = folder.join(name);
    let made = Command::new("mkfifo").arg(&path).status();
    assert!(
        made.as_ref().is_ok_and(|status| status.success()),
        "mkfifo {}: {made:?}",
        path.display()
    );
    path
}

impl Chromium {
    /// Starts `$CHROMIUM`, or else `chromium`, with one empty page.
    pub fn start() -> Chromium {
        let folder = Folder::new();
        let (to, from) = (pipe(&folder.0, "to"), pipe(&folder.0, "from"));
        let command = env::var_os("CHROMIUM").unwrap_or("chromium".into());
        let said = File::create(folder.0.join("said")).expect("a file for what the browser says");
        let child = Command::new("sh")
            .args(["-c", "exec 3<\"$1\" 4>\"$2\"; shift 2; exec \"$@\"", "sh"])
            .args([&to, &from])
            .arg(command)
            .args(["--headless", "--no-sandbox", "--disable-gpu", SIZE])
            .args(["--no-first-run", "--disable-dev-shm-usage"])
            .arg(format!("--user-data-dir={}", folder.0.display()))
            .arg("--remote-debugging-pipe")
            // What it keeps in its user's folder, it keeps in this one.
            .env("HOME", &folder.0)
            .stdin(Stdio::null())
            .stdout(Stdio::null())
            .stderr(said)
            .spawn()
            .unwrap_or_else(|why| panic!("sh: {why}"));
        // Open for both, a pipe opens without its other side.
        let to = File::options().read(true).write(true).open(to);
        let mut browser = Chromium {
            child,
            to: to.expect("the pipe to the browser"),
            from: heard(from),
            session: None,
            sent: 0,
            events: Vec::new(),
            folder,
        };
        let target = browser.call("Target.createTarget", "\"url\": \"about:blank\"");
        let target = quoted(&target.get("targetId").text());
        let attach = format!("\"targetId\": {target}, \"flatten\": true");
        let session = browser.call("Target.attachToTarget", &attach);
        browser.session = Some(session.get("sessionId").text());
        for part in ["Page", "Runtime", "Log", "Network"] {
            browser.call(&format!("{part}.enable"), "");
        }
        browser
    }

    /// Calls a method with parameters, the inside of an object, and gives its result.
    pub fn call(&mut self, method: &str, parameters: &str) -> Json {
        match self.try_call(method, parameters) {
            Ok(result) => result,
            Err(why) => panic!("{method}: {why}{}", self.last_words()),
        }
    }

    fn try_call(&mut self, method: &str, parameters: &str) -> Result<Json, String> {
        let number = self.send(method, parameters)?;
        let end = Instant::now() + LIMIT;
        loop {
            let message = self.hear(end)?;
            if message.get("id").text() != number.to_string() {
                self.events.push(message);
                continue;
            }
            return match message.get("error.message") {
                Json::Nothing => match message {
                    Json::Object(fields) => {
                        let result = fields.into_iter().find(|(name, _)| name == "result");
                        Ok(result.map_or(Json::Nothing, |(_, result)| result))
                    }
                    _ => Ok(Json::Nothing),
                },
                error => Err(error.text()),
            };
        }
    }

    fn send(&mut self, method: &str, parameters: &str) -> Result<u32, String> {
        self.sent += 1;
        let session = match &self.session {
            Some(session) => format!(", \"sessionId\": {}", quoted(session)),
            None => String::new(),
        };
        let message = format!(
            "{{\"id\": {}, \"method\": {}, \"params\": {{{parameters}}}{session}}}\0",
            self.sent,
            quoted(method)
        );
        let sent = self.to.write_all(message.as_bytes());
        sent.map_err(|why| format!("cannot be sent: {why}"))?;
        Ok(self.sent)
    }

    /// Waits until the browser says this; events that are there already do not count.
    pub fn wait_for(&mut self, event: &str) {
        let end = Instant::now() + LIMIT;
        loop {
            match self.hear(end) {
                Ok(message) => {
                    let is = message.get("method").text() == event;
                    self.events.push(message);
                    if is {
                        return;
                    }
                }
                Err(why) => panic!("{event}: {why}{}", self.last_words()),
            }
        }
    }

    /// The next message, before the end of a wait.
    fn hear(&mut self, end: Instant) -> Result<Json, String> {
        loop {
            match self.from.recv_timeout(Duration::from_millis(200)) {
                Ok(text) => return Json::read(&text).map_err(|why| format!("{why} in {text}")),
                Err(RecvTimeoutError::Disconnected) => return Err("the browser is gone".into()),
                Err(RecvTimeoutError::Timeout) => {}
            }
            if let Ok(Some(status)) = self.child.try_wait() {
                return Err(format!("the browser ended with {status}"));
            }
            if Instant::now() > end {
                return Err(format!("nothing for {} seconds", LIMIT.as_secs()));
            }
        }
    }

    /// The end of what the browser wrote on standard error.
    fn last_words(&self) -> String {
        let said = fs::read(self.folder.0.join("said")).unwrap_or_default();
        let said = String::from_utf8_lossy(&said);
        let lines: Vec<&str> = said.lines().collect();
        let last = lines[lines.len().saturating_sub(8)..].join("\n");
        format!("\nthe browser said last:\n{last}")
    }
}

/// What comes out of a pipe, message by message; a thread waits for it.
fn heard(pipe: PathBuf) -> Receiver<String> {
    let (sender, receiver) = channel();
    thread::spawn(move || {
        let Ok(file) = File::open(pipe) else { return };
        for message in BufReader::new(file).split(0) {
            let Ok(message) = message else { return };
            let text = String::from_utf8_lossy(&message).into_owned();
            if sender.send(text).is_err() {
                return;
            }
        }
    });
    receiver
}

impl Drop for Chromium {
    fn drop(&mut self) {
        self.session = None;
        if self.send("Browser.close", "").is_ok() {
            let end = Instant::now() + Duration::from_secs(5);
            while Instant::now() < end && matches!(self.child.try_wait(), Ok(None)) {
                thread::sleep(Duration::from_millis(20));
            }
        }
        // Neither fails but for a browser that is gone.
        let _ = self.child.kill();
        let _ = self.child.wait();
    }
}
