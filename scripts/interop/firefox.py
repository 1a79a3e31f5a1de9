"""firefox.py PORT AUTHORITY PROFILE PATH..: pages of a server, in Firefox without a window (Debian's firefox-esr), over HTTP/3 alone.

PORT is the server's, whose certificate the AUTHORITY (PEM) vouches for; PROFILE is a folder that is made (certutil of libnss3-tools puts the authority
into it). Firefox is driven by Marionette: messages of JSON over TCP. Prints what the pages say in the element `seen`, which is "nothing yet" at first."""
import json
import os
import socket
import subprocess
import sys
import time

PATIENCE = 200  # seconds, of which Firefox may take many to start on a busy machine


def free_port():
    with socket.socket() as it:
        it.bind(("127.0.0.1", 0))
        return it.getsockname()[1]


class Marionette:
    """a connection to Firefox: messages `LENGTH:JSON`, of which each command has a number"""

    def __init__(self, port, until):
        while True:
            try:
                self.sock = socket.create_connection(("127.0.0.1", port), timeout=PATIENCE)
                break
            except OSError:
                if time.monotonic() > until:
                    raise
                time.sleep(0.2)
        self.rest, self.number = b"", 0
        self.read()

    def read(self):
        while b":" not in self.rest:
            self.rest += self.more()
        count, _, self.rest = self.rest.partition(b":")
        while len(self.rest) < int(count):
            self.rest += self.more()
        message, self.rest = self.rest[: int(count)], self.rest[int(count) :]
        return json.loads(message)

    def more(self):
        found = self.sock.recv(65536)
        if not found:
            raise RuntimeError("Firefox has gone")
        return found

    def call(self, name, **words):
        self.number += 1
        text = json.dumps([0, self.number, name, words]).encode()
        self.sock.sendall(str(len(text)).encode() + b":" + text)
        _, _, error, result = self.read()
        if error:
            raise RuntimeError(f"{name}: {error.get('error')}: {error.get('message')}")
        return result


def make_profile(profile, port, marionette, authority):
    os.makedirs(profile)
    settings = {
        "marionette.port": marionette,
        "network.http.http3.enable": True,
        "network.http.http3.alt-svc-mapping-for-testing": f"localhost;h3=:{port}",
        "network.http.http3.force-use-alt-svc-mapping-for-testing": True,
        "network.http.http3.disable_when_third_party_roots_found": False,
        "network.dns.disableIPv6": True,
        "network.trr.mode": 5,
        "app.update.enabled": False,
        "browser.safebrowsing.malware.enabled": False,
        "browser.safebrowsing.phishing.enabled": False,
        "datareporting.policy.dataSubmissionEnabled": False,
        "toolkit.telemetry.enabled": False,
    }
    with open(f"{profile}/user.js", "w", encoding="utf-8") as file:
        file.writelines(f"user_pref({json.dumps(name)}, {json.dumps(value)});\n" for name, value in settings.items())
    subprocess.run(["certutil", "-N", "-d", f"sql:{profile}", "--empty-password"], check=True)
    subprocess.run(["certutil", "-A", "-d", f"sql:{profile}", "-n", "interop", "-t", "CT,,", "-i", authority], check=True)


def browse(port, marionette, paths):
    """what the pages say, one behind the other"""
    until = time.monotonic() + PATIENCE
    firefox = Marionette(marionette, until)
    firefox.call("WebDriver:NewSession", capabilities={"alwaysMatch": {}})
    said = []
    for path in paths:
        firefox.call("WebDriver:Navigate", url=f"https://localhost:{port}{path}")
        seen = "nothing yet"
        while seen == "nothing yet" and time.monotonic() < until:
            seen = firefox.call("WebDriver:ExecuteScript", script="return document.getElementById('seen').textContent", args=[])["value"]
            time.sleep(0.2)
        said.append(seen)
    try:
        firefox.call("Marionette:Quit", flags=["eForceQuit"])
    except (RuntimeError, OSError):
        pass
    return "\n".join(said)


def main():
    port, authority, profile, *paths = sys.argv[1:]
    marionette = free_port()
    make_profile(profile, port, marionette, authority)
    environment = dict(os.environ, HOME=profile, MOZ_HEADLESS="1", MOZ_CRASHREPORTER_DISABLE="1")
    command = ["firefox-esr", "--headless", "--marionette", "--no-remote", "--profile", profile]
    firefox = subprocess.Popen(command, env=environment, stdout=subprocess.DEVNULL, stderr=subprocess.DEVNULL)
    try:
        print(browse(port, marionette, paths))
    finally:
        firefox.kill()
        firefox.wait()


main()
