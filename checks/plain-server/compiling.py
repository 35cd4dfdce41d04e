"""Builds the plain server, and finds the program lostd."""
import os
import shutil
import subprocess
import sys

from programs import Failed, Program

HERE = os.path.dirname(os.path.realpath(__file__))
TOP = os.path.dirname(os.path.dirname(HERE))
REGISTRY = "/usr/share/cargo/registry"
CRATES = ["ahash", "itoa", "memchr", "serde-json"]
PLAIN = f"{HERE}/target/release/plain-server"


def is_there(crate):
    """Whether Debian's package of a crate is installed."""
    name = crate.replace("-", "_")
    return os.path.isdir(REGISTRY) and any(folder.startswith(f"{name}-") for folder in os.listdir(REGISTRY))


def last_error(said):
    """The first error of what cargo said, or its last line."""
    lines = [line for line in said.decode(errors="replace").splitlines() if line.strip()]
    return next((line for line in lines if line.startswith("error")), lines[-1] if lines else "it said nothing")


def plain_server():
    """The plain server, built from the sources as they stand; Failed where something for that is missing."""
    missing = [f"librust-{crate}-dev" for crate in CRATES if not is_there(crate)]
    if missing:
        raise Failed(f"crates of Debian are missing: apt-get install --no-install-recommends {' '.join(missing)}")
    if shutil.which("cargo") is None:
        raise Failed("cargo is missing: install Rust 1.82 or later")
    words = ["cargo", "build", "--release", "--offline", "--quiet"]
    ran = subprocess.run(words, cwd=HERE, stderr=subprocess.PIPE)
    if ran.returncode:
        raise Failed(f"cargo build: {last_error(ran.stderr)}")
    return Program("plain", PLAIN, is_lostd=False)


def packaged():
    """The packaged program, unpacked; None where it is of other sources."""
    sys.path.append(f"{TOP}/tools")
    from building.faults import Fault
    from building.package import package_of

    try:
        package = package_of(TOP)
        return package.unpack() if package is not None and package.fits() else None
    except Fault as fault:
        raise Failed(str(fault)) from None


def lostd(path):
    """The program lostd at a path; without one, the built one, or else the packaged one."""
    built = f"{TOP}/crates/lostd/out/lostd"
    found = path or (built if os.path.exists(built) else packaged())
    if found is None:
        raise Failed("there is no lostd of these sources: ./build builds it, and --lostd PATH names another one")
    if not os.access(found, os.X_OK):
        raise Failed(f"{found} is no program")
    return Program("lostd", os.path.abspath(found), is_lostd=True)
