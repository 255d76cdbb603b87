"""A headless Chromium that is spoken to over a pipe, a tab at a time."""
import base64
import json
import os
import subprocess
import time


class Browser:
    def __init__(self, program, home):
        to_read, self.out = os.pipe()
        self.answers, to_write = os.pipe()
        # The browser reads commands from descriptor 3 and writes answers to 4.
        script = f'exec 3<&{to_read} 4>&{to_write}; exec "$@"'
        self.child = subprocess.Popen(
            ["bash", "-c", script, "browser", program, "--headless=new", "--no-sandbox", "--disable-gpu", f"--user-data-dir={home}", "--remote-debugging-pipe", "about:blank"],
            pass_fds=(to_read, to_write), stdout=subprocess.DEVNULL, stderr=subprocess.DEVNULL)
        os.close(to_read)
        os.close(to_write)
        self.rest, self.number, self.session = b"", 0, None
        targets = self.ask(None, "Target.getTargets")["targetInfos"]
        self.first = next(one["targetId"] for one in targets if one["type"] == "page")
        self.turn_to(self.first)

    def turn_to(self, tab):
        """Brings a tab to the front, which is spoken to from now on."""
        self.ask(None, "Target.activateTarget", targetId=tab)
        self.session = self.ask(None, "Target.attachToTarget", targetId=tab, flatten=True)["sessionId"]
        self.call("Page.enable")

    def open(self, address):
        """Opens a tab in front of the others, and turns to it."""
        tab = self.ask(None, "Target.createTarget", url=address)["targetId"]
        self.turn_to(tab)
        return tab

    def shut(self, tab):
        self.ask(None, "Target.closeTarget", targetId=tab)

    def call(self, method, **words):
        return self.ask(self.session, method, **words)

    def ask(self, session, method, **words):
        """A call of the tab with this session, or of the browser itself where there is none."""
        self.number += 1
        command = {"id": self.number, "method": method, "params": words}
        if session:
            command["sessionId"] = session
        os.write(self.out, json.dumps(command).encode() + b"\0")
        while True:
            while b"\0" not in self.rest:
                more = os.read(self.answers, 1 << 16)
                if not more:
                    raise RuntimeError("the browser has ended")
                self.rest += more
            message, self.rest = self.rest.split(b"\0", 1)
            message = json.loads(message)
            if message.get("id") == self.number:
                if "error" in message:
                    raise RuntimeError(message["error"]["message"])
                return message["result"]

    def value(self, script):
        return self.call("Runtime.evaluate", expression=script, returnByValue=True)["result"].get("value")

    def look(self, width, height, dark=False):
        self.call("Emulation.setDeviceMetricsOverride", width=width, height=height, deviceScaleFactor=1, mobile=False)
        self.call("Emulation.setEmulatedMedia", features=[{"name": "prefers-color-scheme", "value": "dark" if dark else "light"}])

    def shot(self, name):
        time.sleep(0.3)
        with open(name, "wb") as file:
            file.write(base64.b64decode(self.call("Page.captureScreenshot")["data"]))

    def stop(self):
        self.child.terminate()
        self.child.wait()
