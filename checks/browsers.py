"""Browsers without a window, as the checks drive them: each loads a page, runs scripts in it and takes pictures."""
import base64
import fcntl
import json
import os
import socket
import subprocess
import time


class Chromium:
    """Chromium, by its debugging protocol over two pipes."""

    def __init__(self, program, room):
        # The browser reads commands from descriptor 3 and writes answers to 4.
        pipes = [fcntl.fcntl(end, fcntl.F_DUPFD_CLOEXEC, 10) for end in os.pipe() + os.pipe()]
        command = [program, "--headless=new", "--no-sandbox", "--disable-gpu", "--no-first-run", "--hide-scrollbars",
                   "--user-data-dir=" + room, "--remote-debugging-pipe", "about:blank"]
        self.process = subprocess.Popen(
            command, env=dict(os.environ, HOME=room), stdout=subprocess.DEVNULL, stderr=subprocess.DEVNULL,
            close_fds=False, preexec_fn=lambda: (os.dup2(pipes[0], 3), os.dup2(pipes[3], 4)))
        os.close(pipes[0])
        os.close(pipes[3])
        self.to, self.back = os.fdopen(pipes[1], "wb", 0), os.fdopen(pipes[2], "rb")
        self.number, self.session, self.rest = 0, None, b""
        pages = [t for t in self.call("Target.getTargets")["targetInfos"] if t["type"] == "page"]
        self.session = self.call("Target.attachToTarget", targetId=pages[0]["targetId"], flatten=True)["sessionId"]

    def call(self, method, **params):
        self.number += 1
        message = {"id": self.number, "method": method, "params": params}
        if self.session:
            message["sessionId"] = self.session
        self.to.write(json.dumps(message).encode() + b"\0")
        while True:
            while b"\0" not in self.rest:
                piece = self.back.read1(1 << 20)
                if not piece:
                    raise RuntimeError("chromium ended")
                self.rest += piece
            answer, self.rest = self.rest.split(b"\0", 1)
            answer = json.loads(answer)
            if answer.get("id") == self.number:
                if "error" in answer:
                    raise RuntimeError(answer["error"]["message"])
                return answer["result"]

    def load(self, path):
        self.call("Page.navigate", url="file://" + path)
        while self.run("return document.readyState") != "complete" or not self.run("return !!document.ondrop"):
            time.sleep(0.05)

    def run(self, script):
        result = self.call("Runtime.evaluate", expression="(() => { %s })()" % script, returnByValue=True)
        if "exceptionDetails" in result:
            raise RuntimeError(result["exceptionDetails"]["exception"].get("description"))
        return result["result"].get("value")

    def choose(self, path):
        root = self.call("DOM.getDocument")["root"]["nodeId"]
        node = self.call("DOM.querySelector", nodeId=root, selector="#file")["nodeId"]
        self.call("DOM.setFileInputFiles", files=[path], nodeId=node)

    def size(self, width, height):
        self.call("Emulation.setDeviceMetricsOverride", width=width, height=height, deviceScaleFactor=1, mobile=False)

    def scheme(self, name):
        self.call("Emulation.setEmulatedMedia", features=[{"name": "prefers-color-scheme", "value": name}])

    def picture(self):
        return base64.b64decode(self.call("Page.captureScreenshot", format="png")["data"])


class Firefox:
    """Firefox, by Marionette over a socket."""

    def __init__(self, program, room):
        with socket.socket() as free:
            free.bind(("127.0.0.1", 0))
            port = free.getsockname()[1]
        with open(os.path.join(room, "user.js"), "w") as prefs:
            prefs.write('user_pref("marionette.port", %d);\n' % port)
        self.process = subprocess.Popen(
            [program, "--headless", "--marionette", "--remote-allow-system-access", "--no-remote", "--profile", room],
            env=dict(os.environ, HOME=room), stdout=subprocess.DEVNULL, stderr=subprocess.DEVNULL)
        until = time.time() + 120
        while True:
            try:
                self.line = socket.create_connection(("127.0.0.1", port))
                break
            except OSError:
                if time.time() > until or self.process.poll() is not None:
                    raise RuntimeError("firefox doesn't answer")
                time.sleep(0.2)
        self.rest, self.number = b"", 0
        self.receive()
        self.call("WebDriver:NewSession")

    def receive(self):
        while b":" not in self.rest:
            self.fill()
        size, self.rest = self.rest.split(b":", 1)
        while len(self.rest) < int(size):
            self.fill()
        message, self.rest = self.rest[:int(size)], self.rest[int(size):]
        return json.loads(message)

    def fill(self):
        piece = self.line.recv(1 << 20)
        if not piece:
            raise RuntimeError("firefox ended")
        self.rest += piece

    def call(self, method, **params):
        self.number += 1
        message = json.dumps([0, self.number, method, params]).encode()
        self.line.sendall(b"%d:%s" % (len(message), message))
        _, _, error, result = self.receive()
        if error:
            raise RuntimeError(error["message"])
        return result

    def load(self, path):
        # On a machine under load the answer comes while the page before is still there.
        self.run("window.isBefore = true")
        self.call("WebDriver:Navigate", url="file://" + path)
        until = time.time() + 120
        while self.run("return window.isBefore || !document.ondrop"):
            if time.time() > until:
                raise RuntimeError("firefox doesn't load " + path)
            time.sleep(0.05)

    def run(self, script):
        return self.call("WebDriver:ExecuteScript", script=script, args=[])["value"]

    def choose(self, path):
        found = self.call("WebDriver:FindElement", using="css selector", value="#file")["value"]
        self.call("WebDriver:ElementSendKeys", id=list(found.values())[0], text=path)

    def size(self, width, height):
        self.call("WebDriver:SetWindowRect", width=width, height=height)

    def scheme(self, name):
        self.call("Marionette:SetContext", value="chrome")
        preference = "layout.css.prefers-color-scheme.content-override"
        self.run("Services.prefs.setIntPref('%s', %d)" % (preference, name == "light"))
        self.call("Marionette:SetContext", value="content")

    def picture(self):
        return base64.b64decode(self.call("WebDriver:TakeScreenshot", full=False)["value"])
