"""Tries a page of lotdraw in a browser: the keys, the slider, the buttons and a tap, by a script that is
added to a copy of it; and takes pictures of it on a phone, on a screen and on paper, to be looked at.

    python3 tools/page.py PROGRAM SCHEDULE FOLDER

PROGRAM is a built lotdraw. It needs chromium, and pdftoppm for paper. It prints a line for each trial, and
ends in status 1 where one fails.
"""

import json
import re
import shutil
import subprocess
import sys
from pathlib import Path

# Each trial is a name, what is done, and the line that is shown then, where N is the last.
TRIALS = [
    ("at first", "", "1"),
    ("a right arrow", "key('ArrowRight')", "2"),
    ("three more", "for (let i = 0; i < 3; i += 1) key('ArrowRight')", "5"),
    ("a left arrow", "key('ArrowLeft')", "4"),
    ("End", "key('End')", "N"),
    ("a right arrow at the end", "key('ArrowRight')", "N"),
    ("Home", "key('Home')", "1"),
    ("a left arrow at the start", "key('ArrowLeft')", "1"),
    ("the button on", "document.getElementById('on').click()", "2"),
    ("the button back", "document.getElementById('back').click()", "1"),
    ("the slider", "slide(6)", "7"),
    ("a tap on a column", "tap('column-3')", "3"),
    ("a key with control", "key('ArrowRight', true)", "3"),
]

SCRIPT = """
<script>
const key = (name, held) => document.dispatchEvent(
  new KeyboardEvent('keydown', { key: name, ctrlKey: !!held, bubbles: true }));
const slide = (at) => {
  const slider = document.getElementById('slider');
  slider.value = at;
  slider.dispatchEvent(new Event('input'));
};
const tap = (name) => document.getElementById(name).dispatchEvent(new Event('click'));
const seen = () => ({
  lines: [...document.querySelectorAll('section')].filter(s => !s.hidden).map(s => s.dataset.line),
  columns: [...document.querySelectorAll('.column.now')].map(c => c.id),
  slider: document.getElementById('slider').value,
});
const all = [];
for (const act of [ACTS]) { act(); all.push(seen()); }
document.title = JSON.stringify(all);
</script>
</body>"""


def chromium(*arguments):
    """Runs the browser without a window, and returns what it prints."""
    command = ["chromium", "--headless", "--no-sandbox", "--disable-gpu", "--hide-scrollbars", *arguments]
    return subprocess.run(command, capture_output=True, text=True, timeout=120).stdout


def trials(page, folder):
    """Does each trial, and returns how many fail."""
    text = page.read_text()
    last = re.findall(r'<section data-line="(\d+)"', text)[-1]
    acts = ", ".join(f"() => {{ {act} }}" for _, act, _ in TRIALS)
    copy = folder / "tried.html"
    copy.write_text(text.replace("</body>", SCRIPT.replace("[ACTS]", f"[{acts}]")))
    dom = chromium("--dump-dom", copy.as_uri())
    title = re.search(r"<title>(\[.*?\])</title>", dom)
    if title is None:
        print("the script of the trials did not end")
        return 1
    failed = 0
    for (name, _, wanted), seen in zip(TRIALS, json.loads(title.group(1))):
        line = last if wanted == "N" else wanted
        ok = seen["lines"] == [line] and seen["columns"] == [f"column-{line}"]
        print(f"{name}: line {', '.join(seen['lines'])}{'' if ok else f', not {line} alone'}")
        failed += not ok
    return failed


def pictures(page, folder):
    """Takes pictures of the page at two sizes, at three lines, and of the first sheet of paper."""
    for name, size in [("phone", "390,844"), ("screen", "1280,900")]:
        for line in [1, 7, 16]:
            file = folder / f"{name}-{line}.png"
            chromium(f"--window-size={size}", f"--screenshot={file}", f"{page.as_uri()}#{line}")
    paper = folder / "paper.pdf"
    chromium("--no-pdf-header-footer", f"--print-to-pdf={paper}", f"{page.as_uri()}#7")
    if shutil.which("pdftoppm"):
        command = ["pdftoppm", "-r", "80", "-png", "-f", "1", "-l", "1", paper, folder / "paper"]
        subprocess.run(command, check=True)


def main():
    if len(sys.argv) != 4:
        sys.exit(__doc__)
    program, schedule, folder = sys.argv[1:]
    folder = Path(folder).resolve()
    folder.mkdir(parents=True, exist_ok=True)
    page = folder / "page.html"
    with open(schedule, "rb") as lines, open(page, "wb") as out:
        subprocess.run([Path(program).resolve(), "--html"], stdin=lines, stdout=out, check=True)
    failed = trials(page, folder)
    pictures(page, folder)
    sys.exit(failed != 0)


if __name__ == "__main__":
    main()
