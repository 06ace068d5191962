#!/usr/bin/env python3
"""Opens the pages of the two example hotels in a browser, and compares what they show with the report.

    bench/page.py [PICTURE]

It wants the program, which `./bidprice` builds, and Chromium (Debian: chromium). Each page is made by
examples/page/page.py; a copy of it clicks each night, then each stay, then searches the journal for a word, and writes
down what stands there. The prices and rooms of each night, whether each stay is open, and the number of entries that are
found have to be those of `bidprice report` and of the journal. Ends with status 1 where one is not. A PICTURE in PNG
of the first hotel's page is taken where its name is given.
"""
import html
import json
import os
import re
import shutil
import subprocess
import sys
import tempfile

from lines import EXAMPLES, HOTEL
from program import TOP, program

CLICKS = """<script>
const seen = { nights: [], stays: [] };
for (const cell of document.querySelectorAll("#calendar button")) {
  cell.click();
  seen.nights.push(document.getElementById("night-title").textContent);
}
for (const button of document.querySelectorAll("#stays button")) {
  button.click();
  seen.stays.push(document.getElementById("stay-title").textContent + " / " + document.getElementById("stay").textContent);
}
const search = document.getElementById("search");
search.value = "cancel";
search.dispatchEvent(new Event("input"));
seen.found = document.getElementById("found").textContent;
const note = document.createElement("pre");
note.id = "seen";
note.textContent = JSON.stringify(seen);
document.body.append(note);
</script>"""


def browser(*words):
    name = shutil.which("chromium") or sys.exit("Chromium is not there (Debian: chromium)")
    line = [name, "--headless", "--no-sandbox", "--disable-gpu", *words]
    return subprocess.run(line, capture_output=True, text=True, check=True, timeout=120).stdout


def shown(page):
    """What the page shows, clicked through."""
    with open(page, encoding="utf-8") as file:
        text = file.read()
    copy = page + ".clicked.html"
    with open(copy, "w", encoding="utf-8") as file:
        file.write(text.replace("</body>", CLICKS + "</body>") if "</body>" in text else text + CLICKS)
    return json.loads(html.unescape(re.search(r'<pre id="seen">(.*?)</pre>', browser("--dump-dom", f"file://{copy}"), re.S)[1]))


def reported(files, journal):
    """The nights and the stays of the report, as the page should say them, and how often a word is in the journal."""
    text = subprocess.run([program(), "report", *files, journal], capture_output=True, text=True, check=True).stdout.splitlines()
    middle = next(at for at, line in enumerate(text) if line.startswith("stay "))
    nights = []
    for line in text[1:middle]:
        _, date, rooms, sold, left, price = line.split()
        nights.append(f"Night of {date}: {price}, {left} of {rooms} rooms left, {sold} sold")
    stays = [(row[0], row[1], row[2]) for row in (line.split() for line in text[middle + 1 : -1])]
    with open(journal) as file:
        entries = [line for line in file if line[0].isdigit()]
    return nights, stays, f"{sum('cancel' in line for line in entries)} of {len(entries)} entries"


def main():
    wrong = 0
    with tempfile.TemporaryDirectory() as folder:
        for hotel in ("lindenhof", "season"):
            files = [os.path.join(EXAMPLES, hotel, name) for name in HOTEL]
            journal = os.path.join(EXAMPLES, hotel, "journal.txt")
            page = os.path.join(folder, hotel + ".html")
            subprocess.run([sys.executable, os.path.join(TOP, "examples", "page", "page.py"), *files, journal, page], check=True)
            seen, (nights, stays, found) = shown(page), reported(files, journal)
            missing = [night for night, wanted in zip(seen["nights"], nights) if night != wanted]
            for text, (code, asked, accepted) in zip(seen["stays"], stays):
                if not (text.startswith(f"{code}: ") and text.endswith(f"asked for {asked} times, accepted {accepted} times.")):
                    missing.append(text)
            if (len(seen["nights"]), len(seen["stays"])) != (len(nights), len(stays)):
                missing.append(f"{len(seen['nights'])} nights and {len(seen['stays'])} stays")
            if seen["found"] != found:
                missing.append(f"{seen['found']}, where the journal has {found}")
            wrong += len(missing)
            print(f"{hotel}: {len(nights)} nights, {len(stays)} stays, {found} with a cancel; not as reported: {missing or 'nothing'}")
            if hotel == "lindenhof" and len(sys.argv) > 1:
                browser("--window-size=1000,1100", f"--screenshot={os.path.abspath(sys.argv[1])}", f"file://{page}")
    sys.exit(wrong > 0)


if __name__ == "__main__":
    main()
