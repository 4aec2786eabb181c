//! A page of the tool in the browser: opened, asked, and used with the mouse and the keys as a person
//! uses it.

use std::env;
use std::fs;
use std::path::{Path, PathBuf};
use std::process::Command;
use std::time::{Duration, Instant};

use super::chromium::Chromium;
use super::json::{base64, quoted, Json};

/// What the tests ask of a page, in its own language.
const ASK: &str = r#"
window.ask = {
  all: function (selector) { return Array.from(document.querySelectorAll(selector)); },
  // A mark by what it stands for.
  name: function (mark) {
    var data = mark.dataset, is = function (kind) { return mark.classList.contains(kind); };
    if (is('step')) return mark.id;
    if (is('value')) return 'value ' + [data.place, data.card, data.register].join('/');
    if (is('message')) return data.kind + ' of ' + data.op;
    return mark.outerHTML;
  },
  names: function (selector) { return ask.all(selector).map(ask.name).join(', '); },
  mark: function (x, y) {
    var found = document.elementFromPoint(x, y);
    return found ? found.closest('.step, .value, .message') : null;
  },
  // Where the mouse hits an element: on a line somewhere along it, on anything else in the middle.
  point: function (selector) {
    var element = document.querySelector(selector), mark = element.closest('.step, .value, .message');
    if (!mark) {
      var box = element.getBoundingClientRect();
      return box.x + box.width / 2 + ' ' + (box.y + box.height / 2);
    }
    var drawn = element.matches('.step') ? element.querySelector('rect, path') : element;
    var points = [];
    if (drawn.matches('.message path')) {
      var matrix = drawn.getScreenCTM(), long = drawn.getTotalLength();
      for (var at = 0.5; at < 200; at++) points.push(drawn.getPointAtLength(long * at / 200).matrixTransform(matrix));
    } else {
      var rect = drawn.getBoundingClientRect();
      points.push({ x: rect.x + rect.width / 2, y: rect.y + rect.height / 2 });
    }
    var hit = points.find(function (point) { return ask.mark(point.x, point.y) === mark; });
    if (!hit) throw new Error('the mouse cannot hit ' + selector);
    return hit.x + ' ' + hit.y;
  },
  // Where the diagram has no mark.
  blank: function () {
    var box = document.getElementById('frame').getBoundingClientRect();
    for (var y = box.bottom - 20; y > box.top; y -= 7) for (var x = box.right - 30; x > box.left + 140; x -= 11) {
      var found = document.elementFromPoint(x, y);
      if (found && found.closest('#world') && !ask.mark(x, y)) return x + ' ' + y;
    }
    throw new Error('no blank space');
  },
  // Whether an element is seen in the frame: not past its edges, nor behind the names or the numbers.
  inFrame: function (selector) {
    var box = document.querySelector(selector).getBoundingClientRect();
    var frame = document.getElementById('frame').getBoundingClientRect();
    var names = document.getElementById('names').getBoundingClientRect();
    return box.left >= names.right && box.right <= frame.right && box.top >= frame.top && box.bottom <= frame.bottom;
  },
  // Pairs of texts that lie on each other, by more than a pixel each way.
  overlaps: function (selector) {
    var boxes = ask.all(selector).map(function (text) { return [text.getBoundingClientRect(), text]; });
    var found = [];
    boxes = boxes.filter(function (box) { return box[0].width > 0; });
    boxes.sort(function (a, b) { return a[0].left - b[0].left; });
    boxes.forEach(function (a, first) {
      for (var next = first + 1; next < boxes.length; next++) {
        var b = boxes[next];
        if (b[0].left > a[0].right - 1) break;
        var over = Math.min(a[0].bottom, b[0].bottom) - Math.max(a[0].top, b[0].top);
        if (over > 1) found.push(ask.words(a[1]) + ' and ' + ask.words(b[1]));
      }
    });
    return found.join('; ');
  },
  words: function (text) {
    var mark = text.closest('.step, .value, .message'), last = text.lastChild;
    return '"' + (last ? last.textContent : '') + '" (' + (mark ? ask.name(mark) : text.tagName) + ')';
  },
  outside: function (selector) {
    var world = document.getElementById('world').getBoundingClientRect();
    return ask.all(selector).filter(function (mark) {
      var box = mark.getBoundingClientRect();
      return box.left < world.left || box.right > world.right || box.top < world.top || box.bottom > world.bottom;
    }).map(ask.name).join(', ');
  }
};
'ready'
"#;

pub struct Page {
    browser: Chromium,
    pub url: String,
    /// From asking for the page until it was all there.
    pub loaded: Duration,
}

impl Page {
    /// The diagram of a run file of the repository.
    pub fn of(file: &str) -> Page {
        let file = Path::new(env!("CARGO_MANIFEST_DIR")).join("..").join(file);
        let browser = Chromium::start();
        let page = drawn(&file);
        Page::open(browser, &page)
    }

    /// The diagram of a run file that is made here.
    pub fn of_bytes(file: &[u8]) -> Page {
        let browser = Chromium::start();
        let path = browser.folder.0.join("made.run");
        fs::write(&path, file).unwrap_or_else(|why| panic!("{}: {why}", path.display()));
        let page = drawn(&path);
        Page::open(browser, &page)
    }

    /// A page of no run, to see whether the tests would see its faults.
    pub fn of_html(html: &str) -> Page {
        Page::open(Chromium::start(), html.as_bytes())
    }

    fn open(mut browser: Chromium, html: &[u8]) -> Page {
        let file = browser.folder.0.join("page.html");
        fs::write(&file, html).unwrap_or_else(|why| panic!("{}: {why}", file.display()));
        let url = format!("file://{}", file.display());
        let start = Instant::now();
        browser.call("Page.navigate", &format!("\"url\": {}", quoted(&url)));
        let there = |event: &Json| event.get("method").text() == "Page.loadEventFired";
        if !browser.events.iter().any(there) {
            browser.wait_for("Page.loadEventFired");
        }
        let loaded = start.elapsed();
        let mut page = Page {
            browser,
            url,
            loaded,
        };
        assert_eq!(page.ask(ASK), "ready");
        page.settle();
        page
    }

    /// The value of an expression, as text.
    pub fn ask(&mut self, expression: &str) -> String {
        let expression = quoted(expression);
        let asked = format!(
            "\"expression\": {expression}, \"returnByValue\": true, \"awaitPromise\": true"
        );
        let answer = self.browser.call("Runtime.evaluate", &asked);
        let thrown = answer.get("exceptionDetails.exception.description");
        assert!(thrown.is_nothing(), "{}: {expression}", thrown.text());
        answer.get("result.value").text()
    }

    pub fn number(&mut self, expression: &str) -> f64 {
        let text = self.ask(expression);
        let number = text.parse();
        number.unwrap_or_else(|_| panic!("{expression} is `{text}`, no number"))
    }

    pub fn holds(&mut self, expression: &str) -> bool {
        self.ask(expression) == "true"
    }

    /// Waits until what was done is drawn.
    pub fn settle(&mut self) {
        self.ask("new Promise(function (done) { requestAnimationFrame(function () { requestAnimationFrame(done); }); })");
    }

    /// All marks that are lit, as they come in the page.
    pub fn lit(&mut self) -> String {
        let lit = self.ask("ask.names('.lit')");
        let pointed = self.holds("document.querySelector('#world').classList.contains('pointed')");
        assert_eq!(pointed, !lit.is_empty(), "the others are pale: {lit}");
        lit
    }

    /// The present step; there is never more than one.
    pub fn now(&mut self) -> String {
        self.ask("ask.names('.now')")
    }

    /// What the panel says, line by line.
    pub fn said(&mut self) -> String {
        self.ask("document.querySelector('#said').textContent")
    }

    fn mouse(&mut self, kind: &str, at: &str, more: &str) {
        let (x, y) = at.split_once(' ').expect("two numbers");
        let event = format!("\"type\": \"{kind}\", \"x\": {x}, \"y\": {y}{more}");
        self.browser.call("Input.dispatchMouseEvent", &event);
    }

    /// Moves the mouse onto the first element that a selector finds.
    pub fn hover(&mut self, selector: &str) -> String {
        let at = self.ask(&format!("ask.point({})", quoted(selector)));
        self.mouse("mouseMoved", &at, "");
        at
    }

    /// Moves the mouse to where the diagram has nothing.
    pub fn hover_nothing(&mut self) -> String {
        let at = self.ask("ask.blank()");
        self.mouse("mouseMoved", &at, "");
        at
    }

    fn press(&mut self, at: &str) {
        let left = ", \"button\": \"left\", \"clickCount\": 1";
        self.mouse("mousePressed", at, left);
        self.mouse("mouseReleased", at, left);
    }

    pub fn click(&mut self, selector: &str) {
        let at = self.hover(selector);
        self.press(&at);
    }

    pub fn click_nothing(&mut self) {
        let at = self.hover_nothing();
        self.press(&at);
    }

    /// A key by its name, or a letter, digit or sign.
    pub fn key(&mut self, name: &str) {
        let (code, number, text) = match name {
            "Tab" => ("Tab".into(), 9, ""),
            "Enter" => ("Enter".into(), 13, "\r"),
            "Escape" => ("Escape".into(), 27, ""),
            "PageUp" => ("PageUp".into(), 33, ""),
            "PageDown" => ("PageDown".into(), 34, ""),
            "End" => ("End".into(), 35, ""),
            "Home" => ("Home".into(), 36, ""),
            "ArrowLeft" => ("ArrowLeft".into(), 37, ""),
            "ArrowUp" => ("ArrowUp".into(), 38, ""),
            "ArrowRight" => ("ArrowRight".into(), 39, ""),
            "ArrowDown" => ("ArrowDown".into(), 40, ""),
            "+" => ("Equal".into(), 187, name),
            "-" => ("Minus".into(), 189, name),
            digit if digit.chars().all(|c| c.is_ascii_digit()) => {
                (format!("Digit{digit}"), digit.as_bytes()[0], name)
            }
            letter => {
                let upper = letter.to_ascii_uppercase();
                let number = upper.as_bytes()[0];
                (format!("Key{upper}"), number, name)
            }
        };
        let (key, text) = (quoted(name), quoted(text));
        let both =
            format!("\"key\": {key}, \"code\": \"{code}\", \"windowsVirtualKeyCode\": {number}");
        for kind in [
            format!("\"type\": \"keyDown\", \"text\": {text}, {both}"),
            format!("\"type\": \"keyUp\", {both}"),
        ] {
            self.browser.call("Input.dispatchKeyEvent", &kind);
        }
    }

    pub fn keys(&mut self, names: &str) {
        for name in names.split(' ') {
            self.key(name);
        }
    }

    /// What has the focus: its id.
    pub fn focus(&mut self) -> String {
        self.ask("document.activeElement.id || document.activeElement.tagName")
    }

    /// Everything that was asked for since the page was.
    pub fn requests(&mut self) -> Vec<String> {
        self.settle();
        let events = self.browser.events.iter();
        let asked =
            events.filter(|event| event.get("method").text() == "Network.requestWillBeSent");
        asked
            .map(|event| event.get("params.request.url").text())
            .collect()
    }

    /// Errors and warnings of the page and its requests, each in a line.
    pub fn faults(&mut self) -> Vec<String> {
        self.settle();
        let mut faults = Vec::new();
        for event in &self.browser.events {
            let method = event.get("method").text();
            let (kind, words) = match method.as_str() {
                "Runtime.exceptionThrown" => {
                    let text = event.get("params.exceptionDetails.exception.description");
                    ("error".into(), text.text())
                }
                "Runtime.consoleAPICalled" => {
                    (event.get("params.type").text(), format!("{event:?}"))
                }
                "Log.entryAdded" => {
                    let entry = event.get("params.entry");
                    (entry.get("level").text(), entry.get("text").text())
                }
                "Network.loadingFailed" => ("error".into(), event.get("params.errorText").text()),
                "Inspector.targetCrashed" => ("error".into(), "the page crashed".into()),
                _ => continue,
            };
            if ["error", "warning", "assert"].contains(&kind.as_str()) {
                faults.push(format!("{method}: {words}"));
            }
        }
        faults
    }

    /// The end of every test: nothing was wrong, and nothing was fetched but the page.
    pub fn quiet(&mut self) {
        assert_eq!(self.faults(), [""; 0]);
        assert_eq!(self.requests(), [self.url.as_str()]);
    }

    /// Writes what is seen into the folder `$PICTURE_SHOTS`, or one that goes with the test.
    pub fn shot(&mut self, name: &str) {
        self.settle();
        let shot = self
            .browser
            .call("Page.captureScreenshot", "\"format\": \"png\"");
        let bytes = base64(&shot.get("data").text()).unwrap_or_else(|why| panic!("{name}: {why}"));
        assert!(bytes.starts_with(b"\x89PNG\r\n\x1a\n"), "{name} is no PNG");
        let folder = env::var_os("PICTURE_SHOTS").map(PathBuf::from);
        let folder = folder.unwrap_or_else(|| self.browser.folder.0.clone());
        let file = folder.join(format!("{name}.png"));
        let written = fs::create_dir_all(&folder).and_then(|()| fs::write(&file, bytes));
        written.unwrap_or_else(|why| panic!("{}: {why}", file.display()));
    }
}

/// What the tool makes of a run file.
fn drawn(file: &Path) -> Vec<u8> {
    let tool = Command::new(env!("CARGO_BIN_EXE_picture"))
        .arg("diagram")
        .arg(file)
        .output()
        .unwrap_or_else(|why| panic!("the tool: {why}"));
    let why = String::from_utf8_lossy(&tool.stderr);
    assert!(tool.status.success(), "{}: {why}", file.display());
    tool.stdout
}
