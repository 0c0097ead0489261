//! A real browser, driven over a pair of pipes: messages of its DevTools protocol, each with a zero byte behind it.

use std::fs;
use std::io::{BufRead, BufReader, Write};
use std::path::Path;
use std::process::{Child, ChildStdin, Command, Stdio};
use std::sync::mpsc::{channel, Receiver};
use std::time::Duration;

/// The browser reads what it is asked as its file 3, and answers as its file 4.
const START: &str = "exec \"$@\" 3<&0 4>&1 </dev/null >/dev/null";
const OPTIONS: [&str; 7] = [
    "--headless",
    "--no-sandbox",
    "--disable-gpu",
    "--disable-dev-shm-usage",
    "--hide-scrollbars",
    "--no-first-run",
    "--remote-debugging-pipe",
];
const LONGEST_WAIT: Duration = Duration::from_secs(120);

pub struct Chromium {
    process: Child,
    input: ChildStdin,
    messages: Receiver<String>,
    asked: u64,
    /// The page that is looked at; none before there is one.
    session: String,
    /// What was fetched since the last page was opened.
    fetched: Vec<String>,
}

impl Chromium {
    /// Starts it with a profile in a folder of the test's own, and an empty page.
    pub fn start(program: &Path, folder: &Path) -> Chromium {
        let log = fs::File::create(folder.join("chromium.log")).expect("a log");
        let mut command = Command::new("sh");
        command.args(["-c", START, "sh"]).arg(program).args(OPTIONS);
        command.arg(format!("--user-data-dir={}", folder.join("profile").display())).arg("about:blank");
        let piped = command.stdin(Stdio::piped()).stdout(Stdio::piped()).stderr(log);
        let mut process = piped.spawn().expect("the browser starts");
        let (input, output) = (process.stdin.take().expect("piped"), process.stdout.take().expect("piped"));
        let (sender, messages) = channel();
        std::thread::spawn(move || {
            let messages = BufReader::new(output).split(0).map_while(Result::ok);
            messages
                .into_iter()
                .try_for_each(|bytes| sender.send(String::from_utf8_lossy(&bytes).into_owned()))
        });
        let (session, fetched) = (String::new(), Vec::new());
        let mut browser = Chromium { process, input, messages, asked: 0, session, fetched };
        let target = browser.ask("Target.createTarget", r#"{"url":"about:blank"}"#);
        let attach = format!(r#"{{"targetId":"{}","flatten":true}}"#, value(&target, "targetId"));
        let attached = browser.ask("Target.attachToTarget", &attach);
        browser.session = String::from(value(&attached, "sessionId"));
        browser.ask("Page.enable", "{}");
        browser.ask("Network.enable", "{}");
        browser
    }

    /// What it answers to a message of this name and these values.
    fn ask(&mut self, method: &str, values: &str) -> String {
        self.asked += 1;
        let session = match self.session.as_str() {
            "" => String::new(),
            session => format!(r#","sessionId":"{session}""#),
        };
        let id = self.asked;
        let message = format!(r#"{{"id":{id},"method":"{method}","params":{values}{session}}}"#);
        self.input.write_all(message.as_bytes()).expect("the browser listens");
        self.input.write_all(&[0]).expect("the browser listens");
        let answer = self.wait_for(&format!(r#"{{"id":{id},"#));
        assert!(!answer.starts_with(&format!(r#"{{"id":{id},"error""#)), "{method}: {answer}");
        answer
    }

    /// The next message that begins so. Of the others, those that tell what is fetched are kept.
    fn wait_for(&mut self, beginning: &str) -> String {
        loop {
            let message = self.messages.recv_timeout(LONGEST_WAIT);
            let message = message.unwrap_or_else(|error| panic!("the browser does not answer: {error}"));
            if message.starts_with(r#"{"method":"Network.requestWillBeSent","#) {
                let request = message.split_once(r#""request":{"#).expect("a request").1;
                self.fetched.push(String::from(value(request, "url")));
            }
            if message.starts_with(beginning) {
                return message;
            }
        }
    }

    /// Opens a page as wide as this, on screen or in print, light or dark; answers what was fetched for it.
    pub fn open(&mut self, page: &Path, width: u32, medium: &str, scheme: &str) -> Vec<String> {
        let screen = format!(r#"{{"width":{width},"height":900,"deviceScaleFactor":1,"mobile":false}}"#);
        self.ask("Emulation.setDeviceMetricsOverride", &screen);
        let scheme = format!(r#"{{"name":"prefers-color-scheme","value":"{scheme}"}}"#);
        self.ask("Emulation.setEmulatedMedia", &format!(r#"{{"media":"{medium}","features":[{scheme}]}}"#));
        self.fetched.clear();
        self.ask("Page.navigate", &format!(r#"{{"url":"file://{}"}}"#, page.display()));
        self.wait_for(r#"{"method":"Page.loadEventFired","#);
        // What is fetched later than that would be told before this is answered.
        self.run("document.fonts.ready.then(() => 'ready')");
        std::mem::take(&mut self.fetched)
    }

    /// What a script says, which is words without quotes and such.
    pub fn run(&mut self, script: &str) -> String {
        let quoted: String = script.chars().map(quoted).collect();
        let values = format!(r#"{{"expression":"{quoted}","returnByValue":true,"awaitPromise":true}}"#);
        let answer = self.ask("Runtime.evaluate", &values);
        assert!(!answer.contains("\"exceptionDetails\""), "{answer}");
        String::from(value(&answer, "value"))
    }

    /// The page as a picture, PNG, but no more of it than a few screens.
    pub fn picture(&mut self) -> Vec<u8> {
        let size = "[innerWidth, Math.min(document.documentElement.scrollHeight, 3000)].join(' ')";
        let size = self.run(size);
        let (width, height) = size.split_once(' ').expect("two numbers");
        let clip = format!(r#"{{"x":0,"y":0,"width":{width},"height":{height},"scale":1}}"#);
        let values = format!(r#"{{"format":"png","captureBeyondViewport":true,"clip":{clip}}}"#);
        let answer = self.ask("Page.captureScreenshot", &values);
        decoded(value(&answer, "data"))
    }
}

impl Drop for Chromium {
    fn drop(&mut self) {
        let _ = self.input.write_all(b"{\"id\":0,\"method\":\"Browser.close\"}\0");
        let _ = self.process.wait(); // it closes, or has ended before
    }
}

/// The text that has this name in a message.
fn value<'a>(message: &'a str, name: &str) -> &'a str {
    let behind =
        message.split_once(&format!("\"{name}\":\"")).unwrap_or_else(|| panic!("{name}: {message}")).1;
    behind.split_once('"').expect("the end of a text").0
}

fn quoted(c: char) -> String {
    match c {
        '"' | '\\' => format!("\\{c}"),
        '\n' => String::from("\\n"),
        c => String::from(c),
    }
}

/// Bytes from base 64.
fn decoded(text: &str) -> Vec<u8> {
    let digit = |byte: u8| match byte {
        b'A'..=b'Z' => byte - b'A',
        b'a'..=b'z' => byte - b'a' + 26,
        b'0'..=b'9' => byte - b'0' + 52,
        b'+' => 62,
        b'/' => 63,
        _ => panic!("{byte} is no digit of base 64"),
    };
    let text = text.trim_end_matches('=').as_bytes();
    let mut bytes = Vec::with_capacity(text.len() / 4 * 3);
    for chunk in text.chunks(4) {
        let bits = chunk.iter().fold(0, |bits, byte| bits << 6 | u32::from(digit(*byte)));
        let bits = bits << (6 * (4 - chunk.len()));
        bytes.extend(&bits.to_be_bytes()[1..chunk.len()]);
    }
    bytes
}

#[test]
fn base_64_is_decoded() {
    for (text, bytes) in
        [("", &b""[..]), ("Zg==", b"f"), ("Zm8=", b"fo"), ("Zm9v", b"foo"), ("Zm9vYg==", b"foob")]
    {
        assert_eq!(decoded(text), bytes);
    }
}
