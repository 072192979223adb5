"""Headless browsers that draw pages of grids: each shows, for every grid, its lists of tracks and the boxes of its items."""
import html
import http.server
import json
import os
import queue
import re
import shutil
import subprocess
import tempfile
import threading

import build
from build import CannotCompare

PAGE_PARTS = os.path.join(build.COMPARE, "page")
# A page that takes longer than this many seconds is given up.
LONGEST = 180
# Nothing but the page: no first run, no updates, no questions.
FIREFOX_PREFERENCES = {
    "browser.shell.checkDefaultBrowser": False, "browser.startup.homepage_override.mstone": "ignore",
    "datareporting.policy.dataSubmissionEnabled": False, "toolkit.telemetry.enabled": False, "app.update.enabled": False,
    "app.normandy.enabled": False, "network.captive-portal-service.enabled": False, "network.connectivity-service.enabled": False,
    "browser.aboutwelcome.enabled": False, "dom.max_script_run_time": 0, "network.http.response.timeout": 0,
}


def part(name):
    return build.read_bytes(os.path.join(PAGE_PARTS, name)).decode()


def page(drawings):
    """One page for the drawings, each a grid as text."""
    head = ["<!doctype html>", '<meta charset="utf-8">', '<link rel="icon" href="data:,">', f"<style>{part('page.css')}</style>"]
    return "\n".join([*head, "<body>", "<template>", *drawings, "</template>", f"<script>{part('measure.js')}</script>"])


class Browser:
    """A browser as a program; `show` gives what it shows for each drawing."""

    def __init__(self, path):
        self.path = path
        self.folder = tempfile.TemporaryDirectory(prefix="palgwern-browser-", ignore_cleanup_errors=True)
        said = self.run("--version", timeout=LONGEST).stdout.decode("utf-8", "replace")
        self.version = re.search(r"[0-9]+(\.[0-9]+)*\w*", said + " 0")[0]

    def run(self, *words, timeout):
        try:
            return subprocess.run([self.path, *words], stdout=subprocess.PIPE, stderr=subprocess.DEVNULL, timeout=timeout)
        except (OSError, subprocess.TimeoutExpired) as fault:
            raise CannotCompare(f"no comparison: {self.path} gives no answer") from fault

    def show(self, drawings):
        shown = json.loads(self.answer(page(drawings)))
        if len(shown) != len(drawings):
            raise CannotCompare(f"no comparison: {self.name} shows {len(shown)} of {len(drawings)} drawings")
        return shown

    def close(self):
        self.folder.cleanup()


class Chromium(Browser):
    """Started for each page; the page puts what it shows in its own place, and the browser prints that."""
    name = "Chromium"
    programs = ("CHROMIUM", "chromium", "chromium-browser", "google-chrome")
    # Its sandbox can't be had by the superuser.
    words = ["--headless", "--disable-gpu", "--hide-scrollbars", "--dump-dom"] + (["--no-sandbox"] if os.geteuid() == 0 else [])

    def answer(self, text):
        path = os.path.join(self.folder.name, "page.html")
        with open(path, "w", encoding="utf-8") as file:
            file.write(text)
        profile = "--user-data-dir=" + os.path.join(self.folder.name, "profile")
        printed = self.run(*self.words, profile, "file://" + path, timeout=LONGEST).stdout.decode("utf-8", "replace")
        found = re.search(r"<body>(.*)</body>", printed, re.DOTALL)
        if found is None:
            raise CannotCompare(f"no comparison: {self.path} printed no page")
        return html.unescape(found[1])


class Pages(http.server.BaseHTTPRequestHandler):
    """Hands the next page to a browser on this machine, and takes what it shows."""

    def do_GET(self):
        if self.path != "/page":
            return self.reply(404, b"")
        return self.reply(200, self.server.pages.get().encode())

    def do_POST(self):
        shown = self.rfile.read(int(self.headers["Content-Length"])).decode()
        self.reply(200, b"")
        self.server.shown.put(shown)

    def reply(self, status, body):
        self.send_response(status)
        self.send_header("Content-Type", "text/html; charset=utf-8")
        self.send_header("Content-Length", str(len(body)))
        self.send_header("Cache-Control", "no-store")
        self.end_headers()
        self.wfile.write(body)

    def log_message(self, *words):
        pass


class Firefox(Browser):
    """Started once; each page posts what it shows to a server on the loopback address and asks for the next one."""
    name = "Firefox"
    programs = ("FIREFOX", "firefox-esr", "firefox")

    def __init__(self, path):
        super().__init__(path)
        with open(os.path.join(self.folder.name, "user.js"), "w", encoding="utf-8") as file:
            file.writelines(f'user_pref("{name}", {json.dumps(value)});\n' for name, value in FIREFOX_PREFERENCES.items())
        self.server = http.server.ThreadingHTTPServer(("127.0.0.1", 0), Pages)
        self.server.daemon_threads = True
        self.server.pages, self.server.shown = queue.Queue(), queue.Queue()
        threading.Thread(target=self.server.serve_forever, daemon=True).start()
        address = f"http://127.0.0.1:{self.server.server_port}/page"
        self.process = subprocess.Popen([path, "--headless", "--no-remote", "--profile", self.folder.name, address],
                                        stdout=subprocess.DEVNULL, stderr=subprocess.DEVNULL)

    def answer(self, text):
        self.server.pages.put(text)
        try:
            return self.server.shown.get(timeout=LONGEST)
        except queue.Empty as fault:
            raise CannotCompare(f"no comparison: {self.path} gives no answer") from fault

    def close(self):
        self.process.terminate()
        self.process.wait()
        self.server.shutdown()
        super().close()


def program(kind, given):
    """The program that is given, or named by the environment, or found; else None."""
    variable, *names = kind.programs
    named = given or os.environ.get(variable)
    found = [shutil.which(name) for name in ([named] if named else names)]
    return next(filter(None, found), None)


def at_hand(chromium=None, firefox=None):
    """The browsers that are there; a line is printed for one that is not."""
    browsers = []
    for kind, given in ((Chromium, chromium), (Firefox, firefox)):
        path = program(kind, given)
        if path:
            browsers.append(kind(path))
        else:
            print(f"without {kind.name}: it is not at hand", flush=True)
    if not browsers:
        raise CannotCompare("no comparison: neither Chromium nor Firefox is at hand")
    return browsers
