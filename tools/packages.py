"""How tools install packages of Debian's."""
from typing import Iterable, List


def commands(packages: Iterable[str]) -> List[List[str]]:
    """The commands that install these packages, as root. The first fetches the lists of packages, since a new machine
    has none."""
    apt = ["apt-get", "-o", "DPkg::Lock::Timeout=300"]
    return [[*apt, "update"], [*apt, "install", "-y", "--no-install-recommends", *packages]]
