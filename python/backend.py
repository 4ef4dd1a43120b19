"""Builds the wheel with the standard library alone, so that pip needs no network: a zip file with
the package, and libstar.so inside it.

usage: backend.py LIBRARY FOLDER     or by pip, which takes the library that STAR_LIBRARY names
"""
import base64
import hashlib
import os
import re
import sys
import sysconfig
import zipfile

HERE = os.path.dirname(os.path.abspath(__file__))
NAME = "star_tables"


def version():
    with open(os.path.join(HERE, "pyproject.toml"), encoding="utf-8") as file:
        return re.search(r'^version = "(.*)"', file.read(), re.M).group(1)


def tag():
    return "py3-none-" + re.sub(r"[-.]", "_", sysconfig.get_platform())


def content(library):
    """The files of the wheel, but for its record."""
    files = {}
    for name in sorted(os.listdir(os.path.join(HERE, "star"))):
        if name.endswith(".py") or name == "py.typed":
            files["star/" + name] = os.path.join(HERE, "star", name)
    files["star/libstar.so"] = library
    found = {}
    for name, path in files.items():
        with open(path, "rb") as file:
            found[name] = file.read()
    info = "%s-%s.dist-info/" % (NAME, version())
    found[info + "METADATA"] = (
        "Metadata-Version: 2.1\nName: star-tables\nVersion: %s\n"
        "Summary: Least networks by proved procedures\nRequires-Python: >=3.8\n" % version()).encode()
    found[info + "WHEEL"] = ("Wheel-Version: 1.0\nGenerator: backend.py\nRoot-Is-Purelib: false\n"
                             "Tag: %s\n" % tag()).encode()
    return found, info


def record(files, info):
    lines = []
    for name, data in files.items():
        digest = base64.urlsafe_b64encode(hashlib.sha256(data).digest()).rstrip(b"=").decode()
        lines.append("%s,sha256=%s,%d\n" % (name, digest, len(data)))
    return "".join(lines + [info + "RECORD,,\n"]).encode()


def build_wheel(wheel_directory, config_settings=None, metadata_directory=None):
    """What pip calls."""
    return write(os.environ.get("STAR_LIBRARY") or os.path.join(HERE, "star", "libstar.so"),
                 wheel_directory)


def write(library, folder):
    files, info = content(library)
    files[info + "RECORD"] = record(files, info)
    name = "%s-%s-%s.whl" % (NAME, version(), tag())
    with zipfile.ZipFile(os.path.join(folder, name), "w", zipfile.ZIP_DEFLATED) as wheel:
        for path, data in files.items():
            entry = zipfile.ZipInfo(path, (1980, 1, 1, 0, 0, 0))
            entry.external_attr = 0o644 << 16
            entry.compress_type = zipfile.ZIP_DEFLATED
            wheel.writestr(entry, data)
    return name


if __name__ == "__main__":
    if len(sys.argv) != 3:
        raise SystemExit(__doc__)
    print(write(*sys.argv[1:]))
