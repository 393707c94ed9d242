"""User agents that log in: one that speaks HTTP by the standard library, and headless Chromium."""
import base64
import fcntl
import html.parser
import http.client
import json
import os
import signal
import ssl
import subprocess
import time
import urllib.parse

LIMIT = 20


class Page:
    """What came of a request, after its redirections."""

    def __init__(self, url, status, headers, body):
        self.url, self.status, self.headers, self.body = url, status, headers, body

    def form(self):
        """The action and the hidden fields of the page's first form."""
        found = {"action": None, "fields": {}}

        class Parser(html.parser.HTMLParser):
            def handle_starttag(self, tag, attributes):
                have = dict(attributes)
                if tag == "form" and found["action"] is None:
                    found["action"] = have.get("action", "")
                if tag == "input" and have.get("type") == "hidden":
                    found["fields"][have["name"]] = have["value"]

        Parser().feed(self.body)
        return found["action"], found["fields"]


class Agent:
    """Keeps cookies by host and follows redirections, as a browser does, but runs no script."""

    def __init__(self):
        self.cookies = {}

    def once(self, method, url, form=None):
        to = urllib.parse.urlsplit(url)
        if to.scheme == "https":
            any_certificate = ssl._create_unverified_context()
            connection = http.client.HTTPSConnection(to.hostname, to.port, timeout=LIMIT, context=any_certificate)
        else:
            connection = http.client.HTTPConnection(to.hostname, to.port, timeout=LIMIT)
        headers = {"Host": to.netloc, "Accept": "text/html, */*"}
        jar = self.cookies.setdefault(to.hostname, {})
        if jar:
            headers["Cookie"] = "; ".join(f"{name}={value}" for name, value in jar.items())
        body = None
        if form is not None:
            body = urllib.parse.urlencode(form)
            headers["Content-Type"] = "application/x-www-form-urlencoded"
        try:
            connection.request(method, (to.path or "/") + (f"?{to.query}" if to.query else ""), body, headers)
            reply = connection.getresponse()
            text = reply.read().decode()
        finally:
            connection.close()
        for cookie in reply.headers.get_all("Set-Cookie", []):
            name, _, value = cookie.split(";")[0].partition("=")
            jar[name] = value
            if not value:
                del jar[name]
        return Page(url, reply.status, reply.headers, text)

    def get(self, url, form=None):
        """A GET, or a POST of the form, and then each redirection. A fragment is kept, as by a browser."""
        page = self.once("GET" if form is None else "POST", url, form)
        for _ in range(10):
            if page.status not in (301, 302, 303):
                return page
            url = urllib.parse.urljoin(url, page.headers["Location"])
            page = self.once("GET", url)
        raise AssertionError(f"too many redirections, last to {url}")

    def send(self, page, **fields):
        """Posts the page's form with these fields too. Where the page was redirected to with a fragment and has a form
        without an action, it is the party's page, whose script posts the fragment."""
        action, hidden = page.form()
        fragment = urllib.parse.urlsplit(page.url).fragment
        if not action and fragment:
            fields = dict(urllib.parse.parse_qsl(fragment, keep_blank_values=True))
        return self.get(urllib.parse.urljoin(urllib.parse.urldefrag(page.url)[0], action), {**hidden, **fields})


class Chromium:
    """Headless Chromium, driven over a pair of pipes by the DevTools protocol."""

    def __init__(self, program, folder, *more):
        # Chromium reads at descriptor 3 and writes at 4. These ends are moved away from there first.
        (read, to), (back, write) = os.pipe(), os.pipe()
        ends = [fcntl.fcntl(end, fcntl.F_DUPFD_CLOEXEC, 10) for end in (read, to, back, write)]
        for end in (read, to, back, write):
            os.close(end)
        read, self.to, self.back, write = ends
        words = [program, "--headless=new", "--remote-debugging-pipe", f"--user-data-dir={folder}"]
        words += ["--no-first-run", "--disable-gpu", "--ignore-certificate-errors", *more]
        if os.geteuid() == 0:
            words.append("--no-sandbox")

        def place():
            os.dup2(read, 3)
            os.dup2(write, 4)

        how = {"stdin": subprocess.DEVNULL, "stdout": subprocess.DEVNULL, "stderr": subprocess.DEVNULL}
        self.process = subprocess.Popen(words, preexec_fn=place, close_fds=False, start_new_session=True, **how)
        os.close(read)
        os.close(write)
        self.number, self.buffer, self.session = 0, b"", None
        target = self.call("Target.createTarget", url="about:blank")["targetId"]
        self.session = self.call("Target.attachToTarget", targetId=target, flatten=True)["sessionId"]

    def call(self, method, **parameters):
        self.number += 1
        message = {"id": self.number, "method": method, "params": parameters}
        if self.session:
            message["sessionId"] = self.session
        os.write(self.to, json.dumps(message).encode() + b"\0")
        while True:
            text, found, rest = self.buffer.partition(b"\0")
            if not found:
                more = os.read(self.back, 1 << 16)
                if not more:
                    raise AssertionError("Chromium ended")
                self.buffer += more
                continue
            self.buffer = rest
            reply = json.loads(text)
            if reply.get("id") == self.number:
                if "error" in reply:
                    raise AssertionError(f"{method}: {reply['error']['message']}")
                return reply["result"]

    def run(self, script):
        return self.call("Runtime.evaluate", expression=script, returnByValue=True)["result"].get("value")

    def get(self, url):
        self.call("Page.navigate", url=url)

    # ---- elements as a person finds them: by what they are and by their names

    def find(self, role, name):
        """The one element with this role and this name in the accessibility tree, or nothing."""
        root = self.call("DOM.getDocument")["root"]["nodeId"]
        found = self.call("Accessibility.queryAXTree", nodeId=root, role=role, accessibleName=name)["nodes"]
        there = [it["backendDOMNodeId"] for it in found if not it["ignored"]]
        if len(there) > 1:
            raise AssertionError(f"{len(there)} of {role} {name!r}")
        return there[0] if there else None

    def expect(self, role, name):
        """The same, as soon as it is there."""
        end = time.monotonic() + LIMIT
        while time.monotonic() < end:
            try:
                found = self.find(role, name)
                if found and self.run("document.readyState === 'complete'"):
                    return found
            except AssertionError as error:
                if "Chromium ended" in str(error) or " of " in str(error):
                    raise
            time.sleep(0.02)
        text = self.run("document.body ? document.body.innerText : ''")
        raise AssertionError(f"no {role} {name!r} in {text!r}")

    def type(self, name, text):
        self.call("DOM.focus", backendNodeId=self.expect("textbox", name))
        self.run("document.activeElement.select()")
        self.call("Input.insertText", text=text)

    def press(self, role, name):
        """Clicks in the middle of it."""
        element = self.expect(role, name)
        self.call("DOM.scrollIntoViewIfNeeded", backendNodeId=element)
        x1, y1, _, _, x2, y2, _, _ = self.call("DOM.getBoxModel", backendNodeId=element)["model"]["content"]
        for kind in ("mousePressed", "mouseReleased"):
            self.call("Input.dispatchMouseEvent", type=kind, x=(x1 + x2) / 2, y=(y1 + y2) / 2, button="left", clickCount=1)

    def picture(self, width, height, scheme):
        """The page in a window of this size, `light` or `dark`, as PNG."""
        self.call("Emulation.setDeviceMetricsOverride", width=width, height=height, deviceScaleFactor=1, mobile=False)
        self.call("Emulation.setEmulatedMedia", features=[{"name": "prefers-color-scheme", "value": scheme}])
        fits = self.run("document.documentElement.scrollWidth <= innerWidth")
        if not fits:
            raise AssertionError(f"the page is wider than {width} pixels")
        picture = base64.b64decode(self.call("Page.captureScreenshot", format="png")["data"])
        self.call("Emulation.clearDeviceMetricsOverride")
        return picture

    def wait(self, condition):
        """Waits until this holds in the page."""
        end = time.monotonic() + LIMIT
        while time.monotonic() < end:
            try:
                if self.run(f"document.readyState === 'complete' && !!({condition})"):
                    return
            except AssertionError as error:
                if "Chromium ended" in str(error):
                    raise
            time.sleep(0.02)
        where, text = self.run("location.href"), self.run("document.body ? document.body.innerText : ''")
        raise AssertionError(f"{condition} did not come, but {where} with {text!r}")

    def stop(self):
        # Without its pipe Chromium ends by itself.
        os.close(self.to)
        try:
            self.process.wait(5)
        except subprocess.TimeoutExpired:
            os.killpg(self.process.pid, signal.SIGKILL)
            self.process.wait()
        os.close(self.back)
