"""A real tunnel by the page alone: the file and the QR code of a new device, and the server's file."""

from paging import PagedNginx, needs_browser, needs_code
from serving import TOKEN, order
from test_tunnel import Hosts, needs_tunnels
from tools import needs


@needs_browser
@needs_tunnels
@needs("nginx")
class ByPage(Hosts, PagedNginx):
    def make_register(self, folder):
        """A network whose server is one of the two hosts."""
        self.make_hosts()
        database = str(folder / "reg.db")
        order("init", database)
        order("tenant-add", database, "acme")
        order("token-grant", database, "acme", token=TOKEN)
        words = ["--pool", "10.8.0.0/24", "--host", "192.0.2.1", "--port", "51820", "--key", self.server.public, "--capacity", "16"]
        order("network-add", database, "acme", "office", *words)
        return database

    def add_device(self):
        """Adds a device, and gives its file."""
        self.sign_in()
        self.browser.click("Add the first device")
        self.browser.fill("Label", "laptop")
        self.browser.click("Add a device", "dialog button[type=submit]")
        self.browser.click("Download laptop.conf")
        return self.browser.downloaded("laptop.conf").decode()

    def connect(self, file):
        """Brings both ends up by the page's files, and the tunnel between them."""
        self.browser.run("location.hash = '#/office/server'")
        self.browser.click("Download for wg-quick")
        server = self.server.with_private_key(self.browser.downloaded("office-quick.conf").decode())
        self.server.run(f"wg-quick up {self.write(f'{self.server.tunnel}.conf', server)}")
        self.client.run(f"wg-quick up {self.write(f'{self.client.tunnel}.conf', file)}")
        self.assertTrue(self.client.reaches("10.8.0.1"))
        self.assertTrue(self.server.reaches("10.8.0.2"))

    def test_a_file(self):
        file = self.add_device()
        self.browser.click("Done")
        self.connect(file)

    @needs_code
    def test_a_code(self):
        file = self.add_device()
        scanned = self.code().decode().removesuffix("\n")
        self.assertEqual(scanned, file)
        self.browser.click("I have scanned it")
        self.connect(scanned)
