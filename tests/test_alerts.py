"""dist/prometheus-alerts.yml: each alert fires where it should, and none else."""

import importlib.util
import json
import re
import shutil
import subprocess
import tempfile
import unittest
from pathlib import Path

from shipped import DIST
from tools import needs

# What makes each alert fire, at the second 0 of a test; by name the figures, and the alerts that fire.
WELL = {
    "wgr_probe_success": 1, "wgr_probe_timestamp_seconds": 0, "wgr_register_disk_free_bytes": 2e9,
    "wgr_copy_timestamp_seconds": 0, "wgr_figures_timestamp_seconds": 0,
}
OFFICE = '{tenant="acme",network="office"}'
SUCCESS, FAILED, WG0 = "wgr_sync_last_success_timestamp_seconds", "wgr_sync_failed_rounds", '{network="wg0"}'
ALERTS = [
    ("well", {}, []),
    ("ill", {"wgr_probe_success": 0}, ["WgrIll"]),
    ("a 503", {'wgr_service_requests_total{status="503"}': "0+1"}, ["WgrUnavailable"]),
    ("no more of them", {'wgr_service_requests_total{status="503"}': 7}, []),
    ("restarts", {"wgr_service_start_time_seconds": "0+60"}, ["WgrRestarts"]),
    ("a restart", {"wgr_service_start_time_seconds": "0 60"}, []),
    ("refusals", {'wgr_service_requests_total{status="409"}': "0+600", 'wgr_service_requests_total{status="200"}': "0+500"}, ["WgrRefusals"]),
    ("fewer than are served", {'wgr_service_requests_total{status="409"}': "0+600", 'wgr_service_requests_total{status="200"}': "0+700"}, []),
    ("only the probe's", {'wgr_service_requests_total{status="401"}': "0+1"}, []),
    ("not asked", {"wgr_probe_timestamp_seconds": -301}, ["WgrNotProbed"]),
    ("a full disk", {"wgr_register_disk_free_bytes": 9e8}, ["WgrDiskFull"]),
    ("an old copy", {"wgr_copy_timestamp_seconds": -93_601}, ["WgrNoCopy"]),
    ("old figures", {"wgr_figures_timestamp_seconds": -3_421}, ["WgrFiguresOld"]),
    ("a long pause", {"wgr_copy_pause_seconds": 2.5}, ["WgrCopyPause"]),
    ("a full network", {f"wgr_network_peers{OFFICE}": 91, f"wgr_network_capacity_peers{OFFICE}": 100}, ["WgrNetworkFull"]),
    ("a network with room", {f"wgr_network_peers{OFFICE}": 90, f"wgr_network_capacity_peers{OFFICE}": 100}, []),
    ("a full pool", {f"wgr_network_peers{OFFICE}": 5, f"wgr_network_pool_addresses{OFFICE}": 5}, ["WgrNetworkFull"]),
    ("numbers", {f"wgr_network_numbers_given{OFFICE}": 900_001}, ["WgrNumbersSpent"]),
    ("a full register", {"wgr_tokens": 60_001}, ["WgrRegisterFull"]),
    (
        "no handshakes",
        {"wgr_figures_timestamp_seconds": 100_000, f"wgr_network_peers{OFFICE}": 1, f"wgr_network_last_handshake_timestamp_seconds{OFFICE}": 13_599},
        ["WgrNoHandshakes"],
    ),
    (
        "a handshake within a day, and a copy of much later",
        {
            "wgr_copy_timestamp_seconds": 200_000, "wgr_figures_timestamp_seconds": 100_000,
            f"wgr_network_peers{OFFICE}": 1, f"wgr_network_last_handshake_timestamp_seconds{OFFICE}": 13_601,
        },
        [],
    ),
    ("a network that is followed", {f"{SUCCESS}{WG0}": -119, f"{FAILED}{WG0}": 9}, []),
    ("one that isn't", {f"{SUCCESS}{WG0}": -121}, ["WgrNotFollowed"]),
    ("one that never was", {f"{FAILED}{WG0}": 10}, ["WgrNotFollowed"]),
    ("one of both", {f"{SUCCESS}{WG0}": -121, f"{FAILED}{WG0}": 10, f'{SUCCESS}{{network="wg1"}}': 0}, ["WgrNotFollowed"]),
]


class Alerts(unittest.TestCase):
    def test_the_file(self):
        if shutil.which("promtool"):
            told = subprocess.run(["promtool", "check", "rules", DIST / "prometheus-alerts.yml"], capture_output=True, text=True)
            self.assertEqual((told.returncode, told.stderr), (0, ""), told.stdout)
        elif importlib.util.find_spec("yaml"):
            import yaml

            (group,) = yaml.safe_load((DIST / "prometheus-alerts.yml").read_text())["groups"]
            self.assertTrue(all({"alert", "expr", "labels", "annotations"} <= rule.keys() for rule in group["rules"]))
        else:
            self.skipTest("without promtool and yaml")

    def test_each_figure_is_one_that_is_written(self):
        text = (DIST / "prometheus-alerts.yml").read_text()
        written = "".join((DIST / name).read_text() for name in ["wgr-figures", "wgr-probe", "wgr-sync"])
        # Where the script has only a part of the name.
        written += f"wgr_tenants wgr_tokens wgr_networks {SUCCESS} {FAILED}"
        names = set(re.findall(r"\bwgr_\w+", text))
        self.assertEqual({name for name in names if not re.search(rf"\b{name}\b", written)}, set())

    def test_each_alert_is_in_the_page(self):
        """docs/OPERATIONS.md says what to do at it."""
        table = (DIST.parent / "docs/OPERATIONS.md").read_text().partition("\n## What is wrong, and what to do\n")[2]
        names = re.findall(r"alert: (\w+)", (DIST / "prometheus-alerts.yml").read_text())
        self.assertEqual([name for name in names if f"`{name}`" not in table], [])

    @needs("promtool")
    def test_each_alert_fires(self):
        names = set(re.findall(r"alert: (\w+)", (DIST / "prometheus-alerts.yml").read_text()))
        self.assertEqual({name for _, _, fired in ALERTS for name in fired}, names)
        tests = []
        for name, figures, fired in ALERTS:
            labelled = {re.sub(r"^(\w+)(?:\{(.*)\})?$", r'\1{instance="vpn",\2}', figure): value for figure, value in (WELL | figures).items()}
            series = [{"series": figure, "values": f"{value}x10"} for figure, value in labelled.items()]
            quiet = [{"eval_time": "3m", "alertname": alert, "exp_alerts": []} for alert in names - set(fired)]
            firing = [{"expr": f'count(ALERTS{{alertname="{alert}",alertstate="firing"}})', "eval_time": "3m"} for alert in fired]
            firing = [{**each, "exp_samples": [{"labels": "{}", "value": 1}]} for each in firing]
            tests.append({"name": name, "interval": "1m", "input_series": series, "alert_rule_test": quiet, "promql_expr_test": firing})
        with tempfile.TemporaryDirectory() as folder:
            path = Path(folder) / "test.yml"
            path.write_text(json.dumps({"rule_files": [str(DIST / "prometheus-alerts.yml")], "tests": tests}))
            told = subprocess.run(["promtool", "test", "rules", path], capture_output=True, text=True)
            self.assertEqual(told.returncode, 0, told.stdout + told.stderr)


if __name__ == "__main__":
    unittest.main()
