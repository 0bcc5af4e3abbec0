"""The fonts of some Debian packages, which are installed where they are missing."""
import os
import pathlib
import subprocess

SMALL = """fonts-dejavu-core fonts-liberation fonts-opensymbol fonts-cantarell fonts-inconsolata fonts-lohit-deva
    fonts-crosextra-caladea fonts-droid-fallback""".split()
LARGE = """fonts-ipafont-gothic fonts-ipafont-mincho fonts-ipamj-mincho fonts-takao-gothic fonts-takao-mincho fonts-vlgothic
    fonts-hanazono fonts-sawarabi-gothic fonts-noto-cjk""".split()
PACKAGES = SMALL + LARGE
ENDINGS = (".ttf", ".otf", ".ttc", ".otc")


def fonts():
    """The font files of the packages."""
    install([package for package in PACKAGES if not files(package)])
    return [file for package in PACKAGES for file in files(package)]


def install(packages):
    if packages:
        quiet = {"stdout": subprocess.DEVNULL, "env": {**os.environ, "DEBIAN_FRONTEND": "noninteractive"}}
        subprocess.run(["apt-get", "update", "-qq"], check=True, **quiet)
        subprocess.run(["apt-get", "install", "-qq", "-y", "--no-install-recommends", *packages], check=True, **quiet)


def files(package):
    """The font files of a package, none where it is not installed."""
    listed = subprocess.run(["dpkg-query", "-L", package], capture_output=True, text=True, check=False).stdout.splitlines()
    return [pathlib.Path(file) for file in sorted(listed) if file.endswith(ENDINGS) and not os.path.islink(file)]
