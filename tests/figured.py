"""A register of two tenants, a copy of it, and the figures that are due."""

import json
import shutil
from pathlib import Path

from serving import PEERS, key, request
from shipped import Shipped
from test_batch import batch

# The moment of the copy, and its name.
MOMENT, NAME = 1_767_225_600, "20260101T000000.000Z"
DUMP = f"(none)\t{key(9)}\t51820\toff\n{key(1)}\t(none)\t(none)\t10.8.0.2/32\t{MOMENT - 60}\t5\t6\toff\n"
# What is asked of the network, and the moment.
ASKED = [
    (1, request("POST", PEERS, {"key": key(1)})),
    (1, request("POST", PEERS, {"key": key(2), "end": MOMENT + 1})),
    (1, request("POST", PEERS, {"key": key(3), "end": MOMENT})),
    (1, request("POST", PEERS, {"key": key(4)})),
    (1, request("POST", f"{PEERS}/1/routes", {"prefix": "192.168.4.0/24"})),
    (1, request("DELETE", f"{PEERS}/4")),
    (1, request("POST", "/networks/office/dump", DUMP.encode())),
]
# By the rules of docs/SPECIFICATION.md: a /24 gives 253 addresses, a /64 all but two.
FIGURES = {
    "wgr_copy_timestamp_seconds": MOMENT,
    "wgr_copy_pause_seconds": 0.012,
    "wgr_figures_timestamp_seconds": MOMENT,
    "wgr_tenants": 2,
    "wgr_tokens": 1,
    "wgr_networks": 2,
    'wgr_network_capacity_peers{tenant="acme",network="office"}': 4096,
    'wgr_network_capacity_peers{tenant="bolt",network="lab"}': 9,
    'wgr_network_pool_addresses{tenant="acme",network="office"}': 253,
    'wgr_network_pool_addresses{tenant="bolt",network="lab"}': 18446744073709551614,
    'wgr_network_numbers_given{tenant="acme",network="office"}': 4,
    'wgr_network_numbers_given{tenant="bolt",network="lab"}': 0,
    'wgr_network_peers{tenant="acme",network="office"}': 2,
    'wgr_network_peers{tenant="bolt",network="lab"}': 0,
    'wgr_network_expired_peers{tenant="acme",network="office"}': 1,
    'wgr_network_expired_peers{tenant="bolt",network="lab"}': 0,
    'wgr_network_routes{tenant="acme",network="office"}': 1,
    'wgr_network_routes{tenant="bolt",network="lab"}': 0,
    'wgr_network_last_handshake_timestamp_seconds{tenant="acme",network="office"}': MOMENT - 60,
    'wgr_network_last_handshake_timestamp_seconds{tenant="bolt",network="lab"}': 0,
}
# Of the service, after two requests and an order; it holds the register from which the copy was made.
SERVICE = {
    **{f'wgr_service_requests_total{{status="{status}"}}': 0 for status in [200, 400, 401, 403, 404, 405, 409, 411, 413, 503]},
    'wgr_service_requests_total{status="200"}': 1,
    'wgr_service_requests_total{status="401"}': 1,
    **{f'wgr_service_orders_total{{status="{status}"}}': 0 for status in [0, 1]},
    'wgr_service_orders_total{status="2"}': 1,
    "wgr_service_failed_connections_total": 0,
    "wgr_service_late_connections_total": 0,
    "wgr_service_tenants": 2,
    "wgr_service_tokens": 1,
    "wgr_service_networks": 2,
    "wgr_service_peers": 3,
    "wgr_service_routes": 1,
    "wgr_service_networks_in_memory": 1,
    "wgr_service_files_in_memory": 0,
}


def figures_of(path):
    """The figures of a text file, by name and labels."""
    pairs = [line.rsplit(" ", 1) for line in Path(path).read_text().splitlines() if not line.startswith("#")]
    return {name: json.loads(value) for name, value in pairs}


class Figured(Shipped):
    """The register, with a copy in the folder `copies`, made at MOMENT."""

    def setUp(self):
        super().setUp()
        self.run_script("wgr", "tenant-add", self.database, "bolt")
        words = ["--pool", "fd00:8::/64", "--host", "h", "--port", "1", "--key", key(8), "--capacity", "9"]
        self.run_script("wgr", "network-add", self.database, "bolt", "lab", *words)
        for now, message in ASKED:
            self.assertIn(b" 200 OK", batch(self.database, now, [message]).out)
        (self.folder / "copies").mkdir()
        shutil.copy(self.database, self.folder / f"copies/{NAME}.db")
        (self.folder / "copies/pauses").write_text(f"20250101T000000.000Z 99\n{NAME} 12\n")
