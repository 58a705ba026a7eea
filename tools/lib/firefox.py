"""A headless Firefox, driven by its own Marionette protocol over a socket of this machine, with the standard library alone."""
import base64
import json
import os
import shutil
import socket
import subprocess
import tempfile
import time

from browser import first_at_hand

NAMES = ["firefox-esr", "firefox"]
# No first pages, no updates, no reports: what a profile asks for before it is used.
PREFERENCES = {
    "marionette.port": 0,
    "app.update.enabled": False,
    "browser.shell.checkDefaultBrowser": False,
    "datareporting.policy.dataSubmissionEnabled": False,
    "toolkit.telemetry.enabled": False,
    "browser.startup.page": 0,
    "browser.aboutwelcome.enabled": False,
    "network.captive-portal-service.enabled": False,
    "network.connectivity-service.enabled": False,
    "extensions.systemAddon.update.enabled": False,
    "app.normandy.enabled": False,
    "services.settings.server": "",
    "browser.safebrowsing.malware.enabled": False,
    "browser.safebrowsing.phishing.enabled": False,
}
MILLISECONDS = 120000


def firefox_at_hand():
    """The path of a Firefox, or None."""
    return first_at_hand(NAMES)


class Firefox:
    """A running Firefox with one page. `with Firefox(path) as browser:` ends it. A fault is an OSError."""

    PATIENCE = 90

    def __init__(self, path):
        self.folder = tempfile.mkdtemp(prefix="workbench-firefox-")
        with open(os.path.join(self.folder, "user.js"), "w", encoding="utf-8") as file:
            file.writelines(
                f"user_pref({json.dumps(name)}, {json.dumps(value)});\n" for name, value in PREFERENCES.items()
            )
        words = [path, "--headless", "--marionette", "--no-remote", "--profile", self.folder]
        self.child = subprocess.Popen(
            words,
            env={**os.environ, "HOME": self.folder, "MOZ_CRASHREPORTER_DISABLE": "1"},
            stdin=subprocess.DEVNULL,
            stdout=subprocess.DEVNULL,
            stderr=subprocess.DEVNULL,
        )
        self.number, self.rest, self.socket = 0, b"", None

    def __enter__(self):
        try:
            self.socket = socket.create_connection(("127.0.0.1", self.port()), self.PATIENCE)
            self.message()
            self.call("WebDriver:NewSession")
            self.call("WebDriver:SetTimeouts", script=MILLISECONDS, pageLoad=MILLISECONDS)
        except OSError:
            self.__exit__()
            raise
        return self

    def __exit__(self, *_):
        try:
            if self.socket:
                self.call("Marionette:Quit", flags=["eForceQuit"])
                self.socket.close()
        except OSError:
            pass
        try:
            self.child.wait(10)
        except subprocess.TimeoutExpired:
            self.child.kill()
            self.child.wait()
        shutil.rmtree(self.folder, ignore_errors=True)

    def port(self):
        """The port on which it listens, which it writes into its profile."""
        path, until = os.path.join(self.folder, "MarionetteActivePort"), time.monotonic() + self.PATIENCE
        while time.monotonic() < until and self.child.poll() is None:
            if os.path.exists(path):
                with open(path, encoding="utf-8") as file:
                    text = file.read().strip()
                if text:
                    return int(text)
            time.sleep(0.1)
        raise OSError("Firefox doesn't begin")

    def message(self):
        """The next message: its length, a colon, and so many bytes of JSON."""
        while True:
            head, colon, body = self.rest.partition(b":")
            if colon and len(body) >= int(head):
                self.rest = body[int(head) :]
                return json.loads(body[: int(head)])
            piece = self.socket.recv(1 << 20)
            if not piece:
                raise OSError("Firefox doesn't answer")
            self.rest += piece

    def call(self, name, **parameters):
        """The result of one command."""
        self.number += 1
        data = json.dumps([0, self.number, name, parameters]).encode()
        self.socket.settimeout(MILLISECONDS / 1000 + 10)
        self.socket.sendall(str(len(data)).encode() + b":" + data)
        while True:
            kind, number, fault, result = self.message()
            if kind == 1 and number == self.number:
                if fault:
                    raise OSError(f"{name}: {fault.get('message')}")
                return result

    def wait(self, expression):
        """The value of an expression in the page; a promise is waited for."""
        script = f"const done = arguments[arguments.length - 1]; Promise.resolve({expression}).then(it => done([true, it ?? null]), it => done([false, String(it)]));"
        is_good, value = self.call("WebDriver:ExecuteAsyncScript", script=script, args=[], newSandbox=False)["value"]
        if not is_good:
            raise OSError(value)
        return value

    def ask(self, expression):
        """The value of an expression in the page."""
        return self.call("WebDriver:ExecuteScript", script=f"return {expression}", args=[], newSandbox=False)["value"]

    def go(self, address):
        self.call("WebDriver:Navigate", url=address)

    def resize(self, width, height):
        self.call("WebDriver:SetWindowRect", x=0, y=0, width=width, height=height)

    def version(self):
        return self.ask("navigator.userAgent").rpartition("/")[2]

    def screenshot(self, path):
        """Writes a PNG of the window."""
        data = base64.b64decode(self.call("WebDriver:TakeScreenshot", full=False)["value"])
        with open(path, "wb") as file:
            file.write(data)
