//! The page of `trace --html`: that it needs nothing else, and what it does in a browser.
//!
//! The browser is Chromium, or the program that `LANES_BROWSER` names; where there is none, the
//! tests that need one say so and end.

mod common;

use common::{file, lanes};
use std::path::PathBuf;
use std::process::{Command, Stdio};
use std::time::{Duration, Instant};

/// How long a browser may take.
const PATIENCE: Duration = Duration::from_secs(120);

/// Programs that show pages without a window.
const BROWSERS: [&str; 3] = ["chromium", "chromium-browser", "google-chrome"];

/// The page of document 01's routine, or of another with these arguments.
fn page(name: &str, arguments: &[&str]) -> String {
    let path = file(name, b"");
    let output = lanes(&[&["trace"], arguments, &["--html", &path]].concat());
    assert_eq!(output.status.code(), Some(0), "{arguments:?}");
    std::fs::read_to_string(&path).expect("the page can be read")
}

/// Document 01's routine over its memory.
const ROUTINE: [&str; 2] = ["routine.txt", "memory.bin"];

/// The browser, if there is one; says so where there is none.
fn browser() -> Option<PathBuf> {
    if let Some(named) = std::env::var_os("LANES_BROWSER") {
        return Some(named.into());
    }
    let path = std::env::var_os("PATH").unwrap_or_default();
    let folders: Vec<PathBuf> = std::env::split_paths(&path).collect();
    let programs = BROWSERS.iter().flat_map(|name| {
        let folders = folders.iter();
        folders.map(move |folder| folder.join(name))
    });
    let found = programs.into_iter().find(|program| program.is_file());
    if found.is_none() {
        eprintln!("skipped: there is no browser");
    }
    found
}

/// What a page's report says once it has been shown; the script writes it.
fn report(name: &str, page: &str, script: &str) -> Option<String> {
    let browser = browser()?;
    let path = file(
        &format!("{name}.html"),
        with_script(page, script).as_bytes(),
    );
    let shown = shown(browser, name, &path);
    if !shown.contains("<html") {
        eprintln!("skipped: the browser shows nothing");
        return None;
    }
    let (_, rest) = shown
        .split_once("<pre id=\"report\">")
        .expect("the page has a report");
    let (report, _) = rest.split_once("</pre>").expect("the report ends");
    let report = report.replace("&lt;", "<").replace("&gt;", ">");
    Some(report.replace("&amp;", "&"))
}

/// A page as the browser has it after its scripts ran.
fn shown(browser: PathBuf, name: &str, path: &str) -> String {
    let folder = PathBuf::from(env!("CARGO_TARGET_TMPDIR"));
    let profile = folder.join(format!("{name}.profile"));
    let out = folder.join(format!("{name}.dom"));
    let written = std::fs::File::create(&out).expect("the file can be written");
    let mut command = Command::new(browser);
    command
        .args(["--headless", "--no-sandbox", "--disable-gpu", "--dump-dom"])
        .arg("--window-size=1280,800")
        .arg(format!("--user-data-dir={}", profile.display()))
        .arg(format!("file://{path}"));
    command
        .stdin(Stdio::null())
        .stdout(written)
        .stderr(Stdio::null());
    let mut program = command.spawn().expect("the browser starts");
    let start = Instant::now();
    while program
        .try_wait()
        .expect("the browser can be waited for")
        .is_none()
    {
        if start.elapsed() > PATIENCE {
            let _ = program.kill();
            panic!("the browser takes longer than {PATIENCE:?}");
        }
        std::thread::sleep(Duration::from_millis(50));
    }
    std::fs::read_to_string(&out).expect("the browser's output is UTF-8")
}

/// The page with a script at its end that writes lines into a report.
fn with_script(page: &str, script: &str) -> String {
    let before = "<pre id=\"report\"></pre><script>function say(line) { \
        document.getElementById('report').textContent += line + '\\n'; }";
    let script = format!("{before}\n{script}</script></body>");
    page.replace("</body>", &script)
}

/// Shows one moment of the page: the line of the step, the statement that is marked, the table.
const TELL: &str = "
function tell() {
  var marked = document.querySelectorAll('#routine .on');
  say(document.getElementById('now').textContent);
  say('marked: ' + Array.from(marked).map(function (m) { return m.textContent; }).join('|'));
  document.querySelectorAll('#lanes tbody tr').forEach(function (row) {
    var cells = Array.from(row.querySelectorAll('td')).map(function (cell) {
      return cell.textContent + (cell.className ? ' (' + cell.className + ')' : '');
    });
    say(row.querySelector('th').firstChild.textContent.trim() + ': ' + cells.join(', '));
  });
}
function slide(to) {
  var slider = document.getElementById('slider');
  slider.value = to;
  slider.dispatchEvent(new Event('input'));
}
";

#[test]
fn the_page_needs_nothing_else() {
    let page = page("alone.html", &ROUTINE);
    for word in ["http:", "https:", "src=", "href=", "@import", "url(", "{%"] {
        assert!(!page.contains(word), "{word}");
    }
    assert!(page.starts_with("<!DOCTYPE html>"));
    assert_eq!(page.matches("<script").count(), 2);
}

#[test]
fn the_slider_shows_the_steps() {
    let script = format!(
        "{TELL} tell(); slide(5); tell(); slide(7); tell(); \
         document.getElementById('on').click(); tell(); \
         say('back ' + document.getElementById('back').disabled); \
         say('on ' + document.getElementById('on').disabled);"
    );
    let report = match report("slider", &page("slider.page", &ROUTINE), &script) {
        Some(report) => report,
        None => return,
    };
    let expected = "\
before the first step
marked: 
mask: , , , 
ok: 1, 0, 1, 0
s: 4, 7, 25, 90
t: -1431655766, -1431655766, -1431655766, -1431655766
step 5 at 1:66
marked: if (s < t)
condition: yes,  (off), no,  (off)
ok: 1, 0 (off), 1, 0 (off)
s: 4, 7 (off), 25, 90 (off)
t: 10, 10 (off), 10, 10 (off)
step 7 at 1:93
marked: s = s - t;
mask:  (off),  (off), on,  (off)
ok: 1 (off), 0 (off), 1, 0 (off)
s: 14 (off), 7 (off), 15 (written changed), 90 (off)
t: 10 (off), 10 (off), 10, 10 (off)
step 8 at 1:111
marked: ;
mask:  (off), on,  (off), on
ok: 1 (off), 0, 1 (off), 0
s: 14 (off), 7, 15 (off), 90
t: 10 (off), 10, 10 (off), 10
back false
on true
";
    assert_eq!(report, expected);
}

/// Floats are texts of the page, so that it shows them as the tables do.
#[test]
fn floats_are_shown_as_in_the_tables() {
    let samples = ["--csv", "levels.csv", "--set", "offset=0.75"];
    let page = page("levels.page", &[&["levels.txt"], &samples[..]].concat());
    let data = "\"kind\":\"float\",\"values\":[\"0.1\",\"NaN\",\"-inf\",\"1e-45\"]";
    assert!(page.contains(data), "{page}");
    let script = format!("{TELL} slide(6); tell();");
    let report = match report("levels", &page, &script) {
        Some(report) => report,
        None => return,
    };
    let expected = "\
step 6 at 4:3
marked: level = (level - offset) * 2.0;
mask: on, on, on,  (off)
ok: 1, 1, 1, 0 (off)
level: -1.3 (written changed), NaN (written), -inf (written), 1e-45 (off)
offset: 0.75, , , 
top: 100.0, 100.0, 100.0, 100.0 (off)
";
    assert_eq!(report, expected);
}

/// A card's 64 samples, of which those from lane 48 on arrived.
fn card(name: &str) -> String {
    let ok = [&["0"; 48][..], &["1"; 16]].concat().join(",");
    let samples: Vec<String> = (0..64).map(|lane| (lane - 50).to_string()).collect();
    let (ok, samples) = (format!("ok={ok}"), format!("s={}", samples.join(",")));
    page(name, &["card.txt", "--set", &ok, "--set", &samples])
}

#[test]
fn sixty_four_lanes_stand_in_bands_of_sixteen() {
    let script = format!(
        "{TELL} slide(7); tell();
        var heads = Array.from(document.querySelectorAll('#lanes thead tr'));
        heads.forEach(function (head) {{ say(head.textContent); }});
        var tables = Array.from(document.querySelectorAll('#lanes table'));
        var widths = tables.map(function (table) {{ return table.offsetWidth; }});
        say(widths.every(function (width) {{ return width === widths[0]; }}));"
    );
    let report = match report("bands", &card("bands.page"), &script) {
        Some(report) => report,
        None => return,
    };
    let lines: Vec<&str> = report.lines().collect();
    assert_eq!(lines[..2], ["step 7 at 4:10", "marked: s = s - 10;"]);
    let off = |text: &str| format!("{text} (off)");
    let masked = vec![off(""); 16].join(", ");
    assert_eq!(lines[2], format!("mask: {masked}"));
    assert_eq!(lines[3], format!("ok: {}", vec![off("0"); 16].join(", ")));
    let names = lines[2..15].iter().map(|line| line.split(':').next());
    let names: Vec<&str> = names.map(Option::unwrap_or_default).collect();
    let bands = ["mask", "ok", "s"].repeat(3);
    assert_eq!(names, [&["mask", "ok", "s", "late"][..], &bands].concat());
    // Lanes 48 to 59 were below ten and have taken the first branch.
    let last = "mask: , , , , , , , , , , , , on, on, on, on";
    assert_eq!(lines[12].replace(" (off)", ""), last);
    let samples = (48..64).map(|lane| match lane - 50 {
        sample if sample < 10 => off(&(sample + 10).to_string()),
        sample => format!("{} (written changed)", sample - 10),
    });
    let samples: Vec<String> = samples.collect();
    assert_eq!(lines[14], format!("s: {}", samples.join(", ")));
    let heads = [0, 16, 32, 48].map(|first| {
        let numbers: String = (first..first + 16)
            .map(|lane: u32| lane.to_string())
            .collect();
        format!("lane{numbers}")
    });
    assert_eq!(lines[15..19], heads);
    assert_eq!(lines[19], "true", "the bands are equally wide");
}

#[test]
fn a_lane_that_is_written_with_its_own_value_is_marked() {
    let text = file("same.txt", b"int block[2] a; a = 7;");
    let page = page("same.page", &[&text, "--set", "a=7,8"]);
    let script = format!("{TELL} slide(2); tell();");
    if let Some(report) = report("same", &page, &script) {
        let expected = "a: 7 (written), 7 (written changed)\n";
        assert!(report.ends_with(expected), "{report}");
    }
}

#[test]
fn the_marked_statement_and_the_lanes_stay_in_view() {
    let text = "int block[4] s;\n".to_string() + &"s = s + 1;\n".repeat(150);
    let page = page("long.page", &[&file("long-routine.txt", text.as_bytes())]);
    let script = format!(
        "{TELL} slide(90);
        var box = document.getElementById('routine').getBoundingClientRect();
        var marked = document.querySelector('#routine .on').getBoundingClientRect();
        var lanes = document.getElementById('lanes').getBoundingClientRect();
        say(marked.top >= box.top && marked.bottom <= box.bottom);
        say(lanes.top >= 0 && lanes.bottom <= window.innerHeight);"
    );
    if let Some(report) = report("long", &page, &script) {
        assert_eq!(report, "true\ntrue\n");
    }
}

#[test]
fn a_routine_is_text_and_never_a_script() {
    let text =
        b"int x; // </script><script>document.title = 'gone'</script> &amp; {%data%}\nx = 1;";
    let page = page("text.page", &[&file("text.txt", text)]);
    let script = "say(document.title); say(document.getElementById('routine').textContent);";
    if let Some(report) = report("text", &page, script) {
        let text = String::from_utf8_lossy(text);
        assert!(report.ends_with(&format!("{text}\n")), "{report}");
        assert!(report.contains(": trace\n"), "{report}");
    }
}

#[test]
fn the_page_fits_narrow_and_wide_windows() {
    let wide = page("window.page", &["wide.txt", "--set", "v=1000000007"]);
    fits_windows("window", &wide);
    fits_windows("window-64", &card("window-64.page"));
}

/// The page is never wider than its window.
fn fits_windows(name: &str, page: &str) {
    // The page in frames of its own, as wide as a telephone, a tablet and a screen; they hold
    // the page without this script, so they make no frames themselves.
    let frames = "
var page = document.documentElement.outerHTML.split('<pre id=\"report\">')[0];
[320, 768, 1400].forEach(function (width) {
  var frame = document.createElement('iframe');
  frame.style.width = width + 'px';
  frame.style.height = '600px';
  frame.srcdoc = page;
  frame.onload = function () {
    var root = frame.contentDocument.documentElement;
    say(width + ' ' + (root.scrollWidth <= root.clientWidth ? 'fits' : root.scrollWidth));
  };
  document.body.appendChild(frame);
});";
    if let Some(report) = report(name, page, frames) {
        let mut lines: Vec<&str> = report.lines().collect();
        lines.sort_unstable();
        assert_eq!(lines, ["1400 fits", "320 fits", "768 fits"]);
    }
}
