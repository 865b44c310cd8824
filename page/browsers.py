"""Two browsers with one set of calls: Chromium by Selenium, Firefox by its own protocol, so that no geckodriver is needed."""
import base64
import json
import os
import shutil
import socket
import subprocess
import tempfile
import time

WAIT = 300  # seconds for a script, so that a busy machine is no failure
PACKAGES = {"chromium": "chromium", "chromedriver": "chromium-driver", "firefox-esr": "firefox-esr"}


def missing(name):
    """The Debian packages that a browser needs and that are not there."""
    commands = ["chromium", "chromedriver"] if name == "chromium" else ["firefox-esr"]
    lacks = [PACKAGES[command] for command in commands if not shutil.which(command)]
    if name == "chromium":
        try:
            import selenium  # noqa: F401
        except ImportError:
            lacks.append("python3-selenium")
    return lacks


class Chromium:
    name = "chromium"
    widths = (1440, 390)

    def __init__(self):
        from selenium import webdriver
        from selenium.webdriver.chrome.service import Service

        options = webdriver.ChromeOptions()
        options.binary_location = shutil.which("chromium")
        for word in ("--headless=new", "--no-sandbox", "--disable-gpu", "--disable-dev-shm-usage", "--window-size=1440,1000"):
            options.add_argument(word)
        options.set_capability("goog:loggingPrefs", {"browser": "ALL", "performance": "ALL"})
        self.driver = webdriver.Chrome(service=Service(shutil.which("chromedriver")), options=options)
        self.driver.set_script_timeout(WAIT)

    def go(self, address):
        self.driver.get(address)

    def ask(self, script, *words):
        """What a script gives to its last argument, a function."""
        return self.driver.execute_async_script(script, *words)

    def picture(self, path, width, dark=False):
        emulated = {"width": width, "height": 1000, "deviceScaleFactor": 1, "mobile": width < 600}
        self.driver.execute_cdp_cmd("Emulation.setDeviceMetricsOverride", emulated)
        colour = {"name": "prefers-color-scheme", "value": "dark" if dark else "light"}
        self.driver.execute_cdp_cmd("Emulation.setEmulatedMedia", {"features": [colour]})
        self.ask("const done = arguments[0]; requestAnimationFrame(() => requestAnimationFrame(() => setTimeout(done, 100, null)));")
        taken = self.driver.execute_cdp_cmd("Page.captureScreenshot", {"format": "png", "captureBeyondViewport": True})
        write(path, base64.b64decode(taken["data"]))

    def complaints(self):
        """Words on the console, and requests for anything that is not in the page."""
        said = ["console: " + entry["message"] for entry in self.driver.get_log("browser")]
        for entry in self.driver.get_log("performance"):
            message = json.loads(entry["message"])["message"]
            if message["method"] == "Network.requestWillBeSent":
                address = message["params"]["request"]["url"]
                if address.split(":")[0] not in ("file", "data", "blob"):
                    said.append("request: " + address)
        return said

    def end(self):
        self.driver.quit()


class Firefox:
    name = "firefox"
    widths = (1440, 500)  # its windows are no narrower

    def __init__(self):
        self.profile = tempfile.mkdtemp()
        port = free_port()
        write(os.path.join(self.profile, "user.js"), b'user_pref("marionette.port", %d);\n' % port)
        words = ["firefox-esr", "--headless", "--marionette", "--remote-allow-system-access", "--no-remote", "--profile", self.profile]
        self.program = subprocess.Popen(words, stdout=subprocess.DEVNULL, stderr=subprocess.DEVNULL)
        self.line = connected(port)
        self.number = 0
        self.heard()
        self.say("WebDriver:NewSession", {})
        self.say("WebDriver:SetTimeouts", {"script": WAIT * 1000, "pageLoad": WAIT * 1000})
        self.say("WebDriver:SetWindowRect", {"width": 1440, "height": 1000})

    def heard(self):
        """A message: its length, a colon, and so many bytes."""
        length = b""
        while not length.endswith(b":"):
            length += self.line.recv(1)
        data = b""
        while len(data) < int(length[:-1]):
            data += self.line.recv(int(length[:-1]) - len(data))
        return json.loads(data)

    def say(self, command, words):
        self.number += 1
        data = json.dumps([0, self.number, command, words]).encode()
        self.line.sendall(b"%d:%s" % (len(data), data))
        _, _, error, result = self.heard()
        if error:
            raise RuntimeError("%s: %s" % (command, error.get("message")))
        return result

    def go(self, address):
        self.say("WebDriver:Navigate", {"url": address})

    def ask(self, script, *words):
        return self.say("WebDriver:ExecuteAsyncScript", {"script": script, "args": list(words)})["value"]

    def picture(self, path, width, dark=False):
        self.say("WebDriver:SetWindowRect", {"width": width, "height": 1000})
        taken = self.say("WebDriver:TakeScreenshot", {"full": True, "hash": False})
        write(path, base64.b64decode(taken["value"]))

    def complaints(self):
        """Messages of the page on the browser's console, and what it fetched."""
        self.say("Marionette:SetContext", {"value": "chrome"})
        script = "return Services.console.getMessageArray().map(String).filter((text) => text.includes('bracetwill.html'))"
        said = ["console: " + text for text in self.say("WebDriver:ExecuteScript", {"script": script, "args": []})["value"]]
        self.say("Marionette:SetContext", {"value": "content"})
        fetched = self.ask("arguments[0](performance.getEntriesByType('resource').map((entry) => entry.name))")
        return said + ["request: " + name for name in fetched if name.split(":")[0] not in ("data", "blob")]

    def end(self):
        try:
            self.say("Marionette:Quit", {"flags": ["eForceQuit"]})
        except (OSError, RuntimeError):
            self.program.terminate()
        self.program.wait(60)
        shutil.rmtree(self.profile, ignore_errors=True)


def free_port():
    with socket.socket() as room:
        room.bind(("127.0.0.1", 0))
        return room.getsockname()[1]


def connected(port):
    for _ in range(WAIT):
        try:
            return socket.create_connection(("127.0.0.1", port), timeout=2 * WAIT)
        except OSError:
            time.sleep(1)
    raise RuntimeError("firefox does not answer")


def write(path, data):
    with open(path, "wb") as f:
        f.write(data)
