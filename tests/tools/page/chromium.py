"""Opens a page in Chromium, waits until a condition holds, and prints the page as it is then, in HTML.

chromium.py PROFILE PAGE CONDITION   the condition is an expression of JavaScript. Fails if it does not hold within five minutes,
                                     or if the page reports an error.

Chromium's own `--dump-dom` does not wait for what the page does after it was loaded: on a busy machine it prints an empty page.
"""

import json
import os
import subprocess
import sys
import time
from pathlib import Path

FLAGS = ["--headless", "--no-sandbox", "--disable-gpu", "--disable-dev-shm-usage", "--remote-debugging-pipe"]
MOST_SECONDS = 300
REPORTS = ["Runtime.exceptionThrown", "Runtime.consoleAPICalled", "Log.entryAdded"]


class Browser:
    """A Chromium, which is asked over a pair of pipes by the DevTools protocol: JSON, with a zero byte after each message."""

    def __init__(self, profile):
        (theirs, to_browser), (from_browser, answers) = os.pipe(), os.pipe()
        command = ["chromium", *FLAGS, f"--user-data-dir={profile}"]
        # Chromium reads descriptor 3 and writes descriptor 4.
        shell = ["sh", "-c", f'exec "$@" 3<&{theirs} 4>&{answers}', "sh", *command]
        self.process = subprocess.Popen(shell, pass_fds=[theirs, answers], stderr=subprocess.DEVNULL)
        os.close(theirs)
        os.close(answers)
        self.requests, self.answers = os.fdopen(to_browser, "wb"), os.fdopen(from_browser, "rb")
        self.session, self.count, self.rest, self.reports = {}, 0, b"", []

    def next_message(self):
        while b"\0" not in self.rest:
            read = self.answers.read1(1 << 16)
            if not read:
                sys.exit("Chromium has ended")
            self.rest += read
        message, self.rest = self.rest.split(b"\0", 1)
        return json.loads(message)

    def ask(self, method, **params):
        """The answer to a request, empty if there is none, as while a page is left. What the page reports before that is kept."""
        self.count += 1
        self.requests.write(json.dumps({"id": self.count, "method": method, "params": params, **self.session}).encode() + b"\0")
        self.requests.flush()
        while True:
            message = self.next_message()
            if message.get("method") in REPORTS:
                self.reports.append(message)
            if message.get("id") == self.count:
                return message.get("result", {})

    def open(self, page):
        target = self.ask("Target.createTarget", url="about:blank")["targetId"]
        self.session = {"sessionId": self.ask("Target.attachToTarget", targetId=target, flatten=True)["sessionId"]}
        for method in ["Runtime.enable", "Log.enable", "Page.enable"]:
            self.ask(method)
        self.ask("Page.navigate", url=page)

    def value_of(self, expression):
        return self.ask("Runtime.evaluate", expression=expression, returnByValue=True).get("result", {}).get("value")


def main(profile, page, condition):
    browser = Browser(profile)
    end = time.monotonic() + MOST_SECONDS
    try:
        browser.open(f"file://{Path(page).resolve()}#example")
        while not browser.value_of(f"Boolean({condition})"):
            if time.monotonic() > end:
                sys.exit(f"not within {MOST_SECONDS} seconds: {condition}")
            time.sleep(0.05)
        print(browser.value_of("document.documentElement.outerHTML"))
        if browser.reports:
            sys.exit(json.dumps(browser.reports))
    finally:
        browser.process.kill()
        browser.process.wait()


main(*sys.argv[1:])
