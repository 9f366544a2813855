"""nginx and HAProxy before a service, by the files of dist/ with their ports and paths replaced."""

import http.client
import os
import shutil
import socket
import ssl
import subprocess
import tempfile
import threading
import time
import unittest
from contextlib import suppress
from pathlib import Path

import program
from serving import TOKEN, Server, done, free_port, make_register

DIST = Path(__file__).resolve().parent.parent / "dist"
# Seconds in which a whole request is answered, however busy the machine; what is unfinished takes ten, or twenty.
SOON = 9
# Where Debian keeps what the page needs of others.
QRCODE = Path("/usr/share/javascript/qrcode-generator/qrcode.js")


def make_certificate(folder):
    """wgr.key and wgr.crt in this folder."""
    words = ["openssl", "req", "-x509", "-newkey", "ec", "-pkeyopt", "ec_paramgen_curve:prime256v1", "-nodes", "-days", "1", "-subj", "/CN=wgr.example.net"]
    subprocess.run([*words, "-keyout", f"{folder}/wgr.key", "-out", f"{folder}/wgr.crt"], check=True, capture_output=True)


class Front(unittest.TestCase):
    """A proxy before a real `wgr serve`. A class below this starts the proxy."""

    make_register = staticmethod(make_register)

    def setUp(self):
        self.folder = Path(self.enterContext(tempfile.TemporaryDirectory()))
        # nginx's workers run as another user.
        self.folder.chmod(0o711)
        self.serving = self.enterContext(Server(self.make_register(self.folder)))
        make_certificate(self.folder)
        shutil.copytree(DIST / "page", self.folder / "page")
        self.port = free_port()
        self.start(self.serving.port)
        self.assertTrue(program.in_time(self.is_up), self.log())

    def is_up(self):
        try:
            self.link().close()
        except OSError:
            return False
        return True

    def run_on(self, words, **more):
        """Starts a program that ends with the test."""
        process = subprocess.Popen(words, stderr=subprocess.DEVNULL, **more)
        self.addCleanup(process.wait)
        self.addCleanup(process.terminate)

    def link(self, context=None, source="127.0.0.1"):
        """A connection from an address of this host."""
        context = context or ssl._create_unverified_context()
        link = http.client.HTTPSConnection("127.0.0.1", self.port, timeout=program.LIMIT, context=context, source_address=(source, 0))
        link.connect()
        return link

    def ask(self, method, path, body=None, token=TOKEN, link=None):
        """The status, the body and the fields of the reply."""
        own = link or self.link()
        own.request(method, path, body, {"Authorization": f"Bearer {token}"} if token else {})
        reply = own.getresponse()
        given = reply.status, reply.read(), reply.headers
        if link is None:
            own.close()
        return given

    def answer_to(self, message):
        """What is answered until the connection is closed, or the whole head is there, and the time that this takes."""
        reply = b""
        with self.link().sock as link, suppress(ConnectionError):
            began = time.monotonic()
            link.settimeout(SOON)
            link.sendall(message)
            while b"\r\n\r\n" not in reply and (part := link.recv(65_536)):
                reply += part
        return reply, time.monotonic() - began

    def passed(self, message):
        """The head that a service in place of the real one gets, and what the client is answered. Without the first, the proxy answers."""
        heads = []

        def serve():
            with suppress(OSError), service.accept()[0] as link:
                heads.append(link.recv(65_536).decode("latin-1"))
                link.sendall(done({}))

        with socket.create_server(("127.0.0.1", self.serving.port)) as service:
            serving = threading.Thread(target=serve, daemon=True)
            serving.start()
            reply, _ = self.answer_to(message)
            service.shutdown(socket.SHUT_RDWR)
            serving.join()
        return "".join(heads), reply


class Nginx(Front):
    def start(self, behind):
        site = (DIST / "nginx.conf").read_text()
        site = site.replace("listen 443", f"listen 127.0.0.1:{self.port}").replace("listen [::]:443", f"listen [::1]:{self.port}")
        site = site.replace("unix:/run/wgr-http.sock", f"127.0.0.1:{behind}")
        for place in ["/etc/nginx/", "/var/log/nginx/", "/usr/share/wgr/"]:
            site = site.replace(place, f"{self.folder}/")
        (self.folder / "site").write_text(site)
        paths = "".join(f"{name}_temp_path {self.folder}/{name};" for name in ["client_body", "proxy", "fastcgi", "uwsgi", "scgi"])
        (self.folder / "nginx.conf").write_text(
            f"daemon off; worker_processes 1; pid {self.folder}/pid; error_log {self.folder}/error warn;"
            f"events {{}} http {{ access_log off; {paths} include {self.folder}/site; }}"
        )
        self.run_on(["nginx", "-p", str(self.folder), "-c", str(self.folder / "nginx.conf")])

    def log(self):
        return "".join((self.folder / name).read_text() for name in ["error", "wgr.log"] if (self.folder / name).exists())


class HAProxy(Front):
    # What the unit may say of the page.
    page = {}

    def start(self, behind):
        # Where there is no service it gives up after two seconds, and not after two minutes.
        text = (DIST / "haproxy.cfg").read_text().replace("127.0.0.1:8080", f"127.0.0.1:{behind}").replace("retries 240", "retries 2")
        (self.folder / "haproxy.cfg").write_text(text)
        (self.folder / "certificate").write_text(f"{(self.folder / 'wgr.crt').read_text()}{(self.folder / 'wgr.key').read_text()}")
        listener = socket.create_server(("127.0.0.1", self.port))
        with listener, (self.folder / "log").open("w") as log:
            # HAProxy is given the socket as systemd gives it.
            words = ["bash", "-c", 'exec 3<&"$0"; exec haproxy -W -f "$1"', str(listener.fileno()), str(self.folder / "haproxy.cfg")]
            known = {**os.environ, "CREDENTIALS_DIRECTORY": str(self.folder), **self.page}
            self.run_on(words, stdout=log, env=known, pass_fds=[listener.fileno()])

    def log(self):
        return (self.folder / "log").read_text()
