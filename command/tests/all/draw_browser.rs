//! The page in a real browser, where Chromium is installed: it is read as it was written, laid out without texts over one another, and not blank.

use crate::draw::{drawn, example, far_above, far_below, largest_day};
use crate::draw_page::unescaped;
use crate::{k10_accredited, k10_each_excess, k10_pulled};
use reference::generate::valid_day;
use std::fs;
use std::io::Write;
use std::path::{Path, PathBuf};
use std::process::Command;

/// Width and height of the window: the page of the winter day fits.
const SIZE: (u32, u32) = (1400, 1340);

/// The browser, and a folder for it that goes when this does.
struct Browser {
    program: PathBuf,
    folder: PathBuf,
}

impl Browser {
    fn find(test: &str) -> Option<Browser> {
        let path = std::env::var_os("PATH")?;
        let names = ["chromium", "chromium-browser", "google-chrome"];
        let mut places =
            std::env::split_paths(&path).flat_map(|folder| names.map(|name| folder.join(name)));
        let Some(program) = places.find(|place| place.is_file()) else {
            // Written past the test's captured output, so that it is seen.
            let _ = writeln!(
                std::io::stderr(),
                "{test}: skipped, no Chromium is installed"
            );
            return None;
        };
        let folder = std::env::temp_dir().join(format!("mewikofu-{test}-{}", std::process::id()));
        fs::create_dir_all(&folder).unwrap();
        Some(Browser { program, folder })
    }

    /// Opens a page and answers what is written on standard output. The page writes nothing on the console.
    fn open(&self, page: &str, arguments: &[&str]) -> String {
        let file = self.folder.join("page.html");
        fs::write(&file, page).unwrap();
        let output = Command::new("timeout")
            .arg("120")
            .arg(&self.program)
            .args([
                "--headless",
                "--no-sandbox",
                "--disable-gpu",
                "--hide-scrollbars",
            ])
            .arg("--enable-logging=stderr")
            .arg(format!("--window-size={},{}", SIZE.0, SIZE.1))
            .arg(format!(
                "--user-data-dir={}",
                self.folder.join("profile").display()
            ))
            .args(arguments)
            .arg(format!("file://{}", file.display()))
            .output()
            .unwrap();
        let messages = String::from_utf8_lossy(&output.stderr).into_owned();
        assert!(output.status.success(), "{messages}");
        assert!(!messages.contains("CONSOLE"), "{messages}");
        String::from_utf8(output.stdout).unwrap()
    }

    fn screenshot(&self, page: &str) -> Vec<u8> {
        let file = self.folder.join("page.png");
        let _ = fs::remove_file(&file);
        self.open(page, &[&format!("--screenshot={}", file.display())]);
        fs::read(&file).unwrap()
    }
}

impl Drop for Browser {
    fn drop(&mut self) {
        let _ = fs::remove_dir_all(&self.folder);
    }
}

/// Names of the elements opened and closed, but for those without content, and the texts between them.
fn parts(page: &str) -> Vec<String> {
    let mut found = Vec::new();
    for part in page.split('<').skip(1) {
        let (tag, text) = part.split_once('>').unwrap();
        let name = tag.split([' ', '/']).next().unwrap();
        if !name.is_empty() {
            found.push(name.to_string());
        }
        let text = unescaped(text);
        if !text.trim().is_empty() {
            found.push(text.trim().to_string());
        }
    }
    found
}

/// The browser has the same elements and texts in the same order, so it had nothing to repair.
#[test]
fn reads_what_was_written() {
    let Some(browser) = Browser::find("reads_what_was_written") else {
        return;
    };
    for page in [drawn(&example("winter"), 3), drawn(&largest_day(), 0)] {
        let document = browser.open(&page, &["--dump-dom"]);
        let (written, read) = (parts(&page), parts(&document));
        assert!(written.len() > 500);
        let differs = written
            .iter()
            .zip(&read)
            .position(|(one, other)| one != other);
        assert_eq!(differs.map(|k| (&written[k], &read[k])), None);
        assert_eq!(written.len(), read.len());
    }
}

/// A script of this test, not the page's: which lines are shown, how many texts were measured, and texts that lie over one another or leave their cell.
const MEASURE: &str = r#"<script>
const seen = element => element.getClientRects().length > 0;
const lines = [...document.querySelectorAll('.line')].filter(seen).map(line => line.id);
const texts = [...document.querySelectorAll('.line svg.prices text')].filter(seen).map(text => [text.textContent, text.getBoundingClientRect()]);
const cells = [...document.querySelectorAll('th, td')].filter(seen).filter(cell => cell.textContent.trim());
for (const cell of cells) {
  const range = document.createRange();
  range.selectNodeContents(cell);
  const words = [...cell.childNodes].filter(node => node.nodeType == 3);
  for (const word of words) { range.selectNode(word); texts.push([cell.textContent, range.getBoundingClientRect(), cell.getBoundingClientRect(), cell.querySelector('svg')]); }
}
const faults = [];
const over = (a, b) => a.left < b.right - 1 && b.left < a.right - 1 && a.top < b.bottom - 2 && b.top < a.bottom - 2;
texts.forEach(([name, box, cell, bar], k) => {
  if (cell && (box.left < cell.left || box.right > cell.right + 0.5)) faults.push(name + ' leaves its cell');
  if (bar && over(box, bar.getBoundingClientRect())) faults.push(name + ' lies over its bar');
  if (!cell) for (const [other, its, inCell] of texts.slice(0, k)) if (!inCell && over(box, its)) faults.push(name + ' lies over ' + other);
});
document.body.innerHTML = '<p>measured ' + JSON.stringify({lines, texts: texts.length, faults}) + '</p>';
</script>"#;

#[test]
fn lays_it_out() {
    let Some(browser) = Browser::find("lays_it_out") else {
        return;
    };
    let days = [
        (example("winter"), 3),
        (example("rules"), 0),
        (example("both-sides"), 2),
        (far_above(), 3),
        (far_below(), 0),
        (k10_accredited(53), 0),
        (k10_pulled(&[2, 4, 5]), 0),
        (k10_each_excess(), 0),
        (example("excess"), 0),
        (valid_day(53), 0),
        (largest_day(), 63),
    ];
    for (day, line) in days {
        let page = drawn(&day, line).replace("</body>", &format!("{MEASURE}</body>"));
        let document = browser.open(&page, &["--dump-dom"]);
        let measured = document.split_once("measured ").expect("the script ran").1;
        let measured = measured.split_once("</p>").unwrap().0;
        let measured: serde_json::Value = serde_json::from_str(measured).unwrap();
        assert_eq!(
            measured["lines"],
            serde_json::json!([format!("line-{line}")])
        );
        assert_eq!(measured["faults"], serde_json::json!([]));
        assert!(measured["texts"].as_u64().unwrap() > 50, "{measured}");
    }
}

/// Width and height of a PNG.
fn measures(picture: &[u8]) -> (u32, u32) {
    assert_eq!(&picture[..8], b"\x89PNG\r\n\x1a\n");
    let number = |at: usize| u32::from_be_bytes(std::array::from_fn(|k| picture[at + k]));
    (number(16), number(20))
}

/// Not blank, and another line is another picture.
#[test]
fn shows_it() {
    let Some(browser) = Browser::find("shows_it") else {
        return;
    };
    let blank = browser.screenshot("<!DOCTYPE html><title>blank</title>");
    let one = browser.screenshot(&drawn(&example("winter"), 3));
    let other = browser.screenshot(&drawn(&example("winter"), 1));
    for picture in [&one, &other] {
        assert_eq!(measures(picture), measures(&blank));
        assert!(
            picture.len() > 10 * blank.len(),
            "{} {}",
            picture.len(),
            blank.len()
        );
    }
    assert!(one != other);
}

/// The picture kept in docs has the size that README shows.
#[test]
fn kept_picture() {
    let picture = fs::read(Path::new(env!("CARGO_MANIFEST_DIR")).join("../docs/day.png")).unwrap();
    assert_eq!(measures(&picture), SIZE);
}
