"""User-mode Linux, built of Debian's source, and the files with which its guest begins."""
from __future__ import annotations

import hashlib
import os
import random
import shutil
import subprocess
import sys
import tempfile
from pathlib import Path
from typing import Any, Dict, List, Sequence, Union

import packages
import rpmb_frames

FOLDER = Path(__file__).resolve().parent
SOURCE = Path("/usr/src/linux-source-6.1.tar.xz")
CONFIG = FOLDER / "uml-ufs.config"
PATCHES = (FOLDER / "virt-pci.patch", FOLDER / "um-xstate.patch")
# Debian's packages, and of each a file or a program by which it is known.
PACKAGES: Dict[str, Union[Path, str]] = {
    "linux-source-6.1": SOURCE, "flex": "flex", "bison": "bison", "bc": "bc", "cpio": "cpio", "gcc": "gcc",
    "make": "make", "xz-utils": "xz", "busybox-static": "busybox", "e2fsprogs": "mke2fs",
    "sg3-utils": "sg_raw"}
# Programs of the guest, and the folder of each. All else is busybox.
SG3_UTILS = ("sg_raw", "sg_reset", "sg_vpd", "sg_readcap", "sg_modes", "sg_opcodes", "sg_senddiag", "sg_luns",
             "sg_verify")
PROGRAMS = {"busybox": "bin", "mke2fs": "sbin", "e2fsck": "sbin", **dict.fromkeys(SG3_UTILS, "usr/bin")}
SYSTEM_PATH = "/usr/local/sbin:/usr/local/bin:/usr/sbin:/usr/bin:/sbin:/bin"
EMPTY_FOLDERS = ("proc", "sys", "dev", "mnt", "tmp", "tests", "rpmb")
PATTERN_BYTES, SEED = 1 << 20, 1
EXECUTABLE = 0o755
NAME_DIGITS = 16
# Programs that compile at a time, unless JOBS says otherwise.
JOBS = 2


class BuildFault(Exception):
    """What keeps the kernel from being built."""


# The kernel

def cache() -> Path:
    """Where what was built is kept."""
    home = os.environ.get("XDG_CACHE_HOME") or Path.home() / ".cache"
    return Path(home) / "butcherford" / "linux"


def is_missing(needed: Union[Path, str]) -> bool:
    """Whether a file or a program is not there."""
    if isinstance(needed, Path):
        return not needed.is_file()
    return shutil.which(needed, path=SYSTEM_PATH) is None


def install_packages() -> None:
    """Installs what is missing of Debian's packages. What apt-get says goes to standard error."""
    missing = [package for package, needed in PACKAGES.items() if is_missing(needed)]
    if missing:
        for words in packages.commands(missing):
            run_or_fault(words, f"install {' '.join(missing)} as root, and say --no-install")


def run_or_fault(words: Sequence[Any], advice: str, **how: Any) -> None:
    """Runs a program whose output goes to standard error; a fault tells what to do."""
    try:
        subprocess.run([str(word) for word in words], stdout=sys.stderr, check=True, **how)
    except (OSError, subprocess.CalledProcessError) as fault:
        raise BuildFault(f"{fault}\n{advice}") from fault


def kernel() -> Path:
    """The kernel, which is built if there is none of this configuration, these patches and this source."""
    if not SOURCE.is_file():
        raise BuildFault(f"there is no {SOURCE}; install linux-source-6.1")
    source = str(SOURCE.stat().st_size).encode("ascii")
    texts = b"".join(it.read_bytes() for it in (CONFIG, *PATCHES))
    name = hashlib.sha256(texts + source).hexdigest()[:NAME_DIGITS]
    found = cache() / name / "linux"
    if found.is_file():
        print(f"linux: the kernel is {found}", flush=True)
        return found
    print(f"linux: the kernel is built in {found.parent}; this takes some ten minutes", flush=True)
    found.parent.mkdir(parents=True, exist_ok=True)
    with tempfile.TemporaryDirectory(prefix="build.", dir=found.parent) as folder:
        shutil.copy2(build(Path(folder)), found.with_suffix(".new"))
    found.with_suffix(".new").rename(found)
    return found


def build(folder: Path) -> Path:
    """Builds it in a folder. The configuration begins with nothing, to which that of the repository adds."""
    advice = "the kernel was not built, for what the lines above say"
    run_or_fault(["tar", "xJf", SOURCE, "-C", folder, "--strip-components=1"], advice)
    for changes in PATCHES:
        run_or_fault(["patch", "-p1", "-i", changes], advice, cwd=folder)
    make = ["nice", "-n", "10", "make", "-s", "ARCH=um"]
    run_or_fault([*make, f"KCONFIG_ALLCONFIG={CONFIG}", "allnoconfig"], advice, cwd=folder)
    run_or_fault([*make, f"-j{os.environ.get('JOBS', JOBS)}"], advice, cwd=folder)
    return folder / "linux"


# The guest's first files

def libraries(program: str) -> List[Path]:
    """The shared libraries of a program, and the loader."""
    told = subprocess.run(["ldd", program], stdout=subprocess.PIPE, stderr=subprocess.DEVNULL,
                          encoding="utf-8", check=False)
    return [Path(word) for word in told.stdout.split() if word.startswith("/")]


def copy_program(name: str, place: str, root: Path) -> None:
    """Copies a program, and its libraries to where they stand here."""
    source = shutil.which(name, path=SYSTEM_PATH)
    if source is None:
        raise BuildFault(f"there is no {name}; install its package")
    copy(Path(source), root / place / name)
    for library in libraries(source):
        copy(library, root / str(library)[1:])


def copy(source: Path, place: Path) -> None:
    """Copies a file with its mode."""
    place.parent.mkdir(parents=True, exist_ok=True)
    shutil.copy2(source, place)


def first_files(folder: Path) -> Path:
    """The archive of the files with which the guest begins."""
    root = folder / "root"
    for name in EMPTY_FOLDERS:
        (root / name).mkdir(parents=True)
    for name, place in PROGRAMS.items():
        copy_program(name, place, root)
    for source in sorted((FOLDER / "guest").iterdir()):
        copy(source, root / ("init" if source.name == "init" else f"tests/{source.name}"))
    (root / "init").chmod(EXECUTABLE)
    (root / "bin" / "sh").symlink_to("busybox")
    (root / "pattern").write_bytes(random.Random(SEED).randbytes(PATTERN_BYTES))
    for name, told in rpmb_frames.requests().items():
        (root / "rpmb" / name).write_bytes(told)
    archive = folder / "files.gz"
    run_or_fault(["sh", "-c", f"find . | cpio --quiet -o -H newc | gzip > '{archive}'"],
                 "the guest's files were not packed, for what the lines above say", cwd=root)
    return archive
