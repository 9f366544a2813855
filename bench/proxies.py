"""nginx and HAProxy before a server, by the files of dist/ at other ports and paths, for the benchmarks."""

import os
import re
import socket
import subprocess
import sys
import time
from pathlib import Path

DIST = Path(__file__).resolve().parent.parent / "dist"
# The name in the proxies' certificates.
HOST = "wgr.example.net"


def free_port():
    with socket.socket() as probe:
        probe.bind(("127.0.0.1", 0))
        return probe.getsockname()[1]


class Proxy:
    """A proxy from the beginning of a block to its end, before a server at the port `behind`."""

    def __init__(self, folder, behind):
        self.folder, self.port = folder, free_port()
        made = ["-keyout", folder / "wgr.key", "-out", folder / "wgr.crt"]
        names = ["-subj", f"/CN={HOST}", "-addext", f"subjectAltName=DNS:{HOST}"]
        words = ["openssl", "req", "-x509", "-newkey", "rsa:2048", "-nodes", "-days", "1", *names, *made]
        subprocess.run(words, check=True, capture_output=True)
        self.write(behind)

    def __enter__(self):
        self.process = self.start()
        for _ in range(200):
            try:
                socket.create_connection(("127.0.0.1", self.port)).close()
                return self
            except OSError:
                time.sleep(0.02)
        sys.exit(f"{type(self).__name__} doesn't start: {(self.folder / 'error').read_text()}")

    def __exit__(self, *_):
        self.process.terminate()
        self.process.wait()


class Nginx(Proxy):
    # Lines of the site that are left out.
    without = r"listen \[::\]"

    def write(self, behind):
        text = re.sub(rf"(?m)^\s*({self.without}).*\n", "", (DIST / "nginx.conf").read_text())
        text = re.sub(r"listen 443", f"listen 127.0.0.1:{self.port}", text)
        text = re.sub(r"127\.0\.0\.1:8080|unix:/run/wgr-http\.sock:?", f"127.0.0.1:{behind}", text)
        (self.folder / "site").write_text(text.replace("/etc/nginx/", f"{self.folder}/").replace("/var/log/nginx/", f"{self.folder}/"))
        paths = "".join(f"{name}_temp_path {self.folder}/{name};" for name in ["client_body", "proxy", "fastcgi", "uwsgi", "scgi"])
        (self.folder / "nginx.conf").write_text(
            f"daemon off; worker_processes 1; pid {self.folder}/pid; error_log {self.folder}/error;"
            f"events {{}} http {{ access_log off; {paths} include {self.folder}/site; }}"
        )

    def start(self):
        return subprocess.Popen(["nginx", "-p", self.folder, "-c", self.folder / "nginx.conf"], stderr=subprocess.DEVNULL)


class Unlimited(Nginx):
    """nginx without its limits of requests."""

    without = r"limit_\w+|listen \[::\]"


class HAProxy(Proxy):
    def write(self, behind):
        (self.folder / "haproxy.cfg").write_text((DIST / "haproxy.cfg").read_text().replace("127.0.0.1:8080", f"127.0.0.1:{behind}"))
        (self.folder / "certificate").write_text(f"{(self.folder / 'wgr.crt').read_text()}{(self.folder / 'wgr.key').read_text()}")

    def start(self):
        """It is given its socket as systemd gives it."""
        with socket.create_server(("127.0.0.1", self.port)) as listener, (self.folder / "error").open("w") as error:
            words = ["bash", "-c", 'exec 3<&"$0"; exec haproxy -db -f "$1"', str(listener.fileno()), str(self.folder / "haproxy.cfg")]
            known = {**os.environ, "CREDENTIALS_DIRECTORY": str(self.folder)}
            return subprocess.Popen(words, stdout=subprocess.DEVNULL, stderr=error, env=known, pass_fds=[listener.fileno()])
