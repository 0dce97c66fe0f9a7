"""The server between kernels that come and go and a device that keeps what it was asked."""
import socket
from types import SimpleNamespace

import pytest

from server import Server


class Device:
    """A device that has nothing to answer."""

    def __init__(self):
        self.asked = []

    def mend(self):
        self.asked.append("mend")

    def power_cut(self, **how):
        self.asked.append(("power_cut", how))

    def reply(self):
        return None


@pytest.fixture
def bench(tmp_path):
    device, path = Device(), tmp_path / "socket"
    server = Server(device, path, most_kept=4)
    yield SimpleNamespace(device=device, server=server, path=path)
    server.close()


def kernel_of(bench):
    kernel = socket.socket(socket.AF_UNIX)
    kernel.connect(str(bench.path))
    bench.server.step(1)
    return kernel


def test_a_kernel_finds_a_device_that_mended_and_has_its_attentions(bench):
    """Nothing ends them. When the kernel goes, so does the power, and the next one finds the same."""
    comes = ["mend"]
    goes = ["mend", ("power_cut", {"mend": False})]
    for lives in range(2):
        kernel = kernel_of(bench)
        assert bench.device.asked == goes * lives + comes
        kernel.close()
        for _ in range(2):
            bench.server.step(1)
        assert bench.device.asked == goes * (lives + 1)


def test_another_kernel_is_turned_away(bench, capsys):
    """The one that is there keeps its device."""
    with kernel_of(bench), kernel_of(bench) as other:
        assert other.recv(1) == b""
        assert bench.device.asked == ["mend"]
    assert "turned away" in capsys.readouterr().err
