#!/usr/bin/env python3
"""package.py: makes a Debian package of the built program.

    python3 tools/package.py [--program FILE] [--out FOLDER]

Writes FOLDER/rpz_VERSION_ARCH.deb (FOLDER is the current one without --out) and prints its name: the program, its manual page, a
systemd unit, an example zone with the configurations of NSD, Unbound and dnsdist that belong to it, tools/dry_run.py, and the
documents. The program is crates/rpz/out/rpz, which `.ci/run` or `rt run` in crates/rpz proves and builds. It wants `dpkg-deb`.

VERSION is what `rpz --version` says. A version that ends in `-dev` is named after the commit and its time in UTC, as in
0.3.0~dev+git202612021430.0123abcd: so it is newer than each release and commit before it, and older than 0.3.0. `.changed` follows
if files differ from the commit. Without git the time is that of the program's file.
"""
import argparse
import gzip
import os
import pathlib
import re
import shutil
import subprocess
import sys
import tempfile
import time

ROOT = pathlib.Path(__file__).resolve().parent.parent
DOCUMENTS = ("SECURITY.md", "docs/OPERATING.md", "docs/FORMATS.md", "docs/PROFILE.md", "docs/GLOSSARY.md")
# Where the files that the documents lead to are installed, seen from the documents; other links are left out.
INSTALLED = {pathlib.Path(name).name: pathlib.Path(name).name for name in DOCUMENTS}
INSTALLED |= {"rpz.service": "/lib/systemd/system/rpz.service"}
INSTALLED |= {name: f"examples/{name}" for name in ("dnsdist.conf", "dry_run.py")}
DRY_RUN = "tools/dry_run.py"
INSTALLED_DRY_RUN = "/usr/share/doc/rpz/examples/dry_run.py"
DESCRIPTION = """DNS forwarder that enforces response policy zones
 rpz stands between DNS clients and a recursive resolver, and rewrites or
 withholds answers by the rules of response policy zones (RPZ), which it takes
 by zone transfer. Every reply is proved to follow the policy.
"""
AFTER_INSTALLING = """#!/bin/sh
set -e
if [ -d /run/systemd/system ]; then
    systemctl daemon-reload
    if [ -n "$2" ]; then systemctl try-restart rpz.service || true; fi
fi
"""
BEFORE_REMOVING = """#!/bin/sh
set -e
if [ "$1" = remove ] && [ -d /run/systemd/system ]; then systemctl disable --now rpz.service || true; fi
"""


def output(*words):
    """What a command prints; git tells times in UTC."""
    return subprocess.run(words, check=True, capture_output=True, text=True, env=os.environ | {"TZ": "UTC"}).stdout


def put(source, target, mode=0o644):
    target.parent.mkdir(parents=True, exist_ok=True)
    shutil.copyfile(source, target)
    target.chmod(mode)


def put_packed(source, target):
    """The file, packed by gzip, without a name or a time in it."""
    target.parent.mkdir(parents=True, exist_ok=True)
    target.write_bytes(gzip.compress(source.read_bytes(), 9, mtime=0))
    target.chmod(0o644)


def led_inside(text):
    """The text of a document whose links lead to what is installed."""

    def link(found):
        words, target = found.groups()
        name, mark, heading = target.partition("#")
        place = INSTALLED.get(pathlib.Path(name).name)
        return found.group() if not name else f"[{words}]({place}{mark}{heading})" if place else words

    text = re.sub(r"\[([^]]+)\]\(([^)]+)\)", link, text)
    return re.sub(r"\bdocs/(\w+\.md)", r"\1", text).replace(DRY_RUN, INSTALLED_DRY_RUN)


def commit():
    """The time of the commit in UTC and its hash, and `.changed` if files differ from it; nothing without git."""
    git = ["git", "-C", str(ROOT)]
    try:
        stamp = output(*git, "log", "-1", "--format=%cd.%h", "--date=format-local:%Y%m%d%H%M").strip()
        changed = output(*git, "status", "--porcelain", "--untracked-files=no")
    except (OSError, subprocess.CalledProcessError):
        return ""
    return stamp + (".changed" if changed else "")


def version_of(program):
    """The version of the package: that of the program, and for a version under development that of the commit, too."""
    version = output(program.resolve(), "--version").split()[1]
    release, dash, dev = version.partition("-")
    if not dash:
        return version
    stamp = commit()
    made = f"git{stamp}" if stamp else time.strftime("%Y%m%d%H%M", time.gmtime(program.stat().st_mtime))
    return f"{release}~{dev}+{made}"


def glibc_of(program):
    """The newest version of glibc that the program's symbols name."""
    return max(re.findall(rb"GLIBC_(\d+)\.(\d+)", program.read_bytes()), key=lambda version: tuple(map(int, version)))


def put_text(text, target, mode=0o644):
    target.parent.mkdir(parents=True, exist_ok=True)
    target.write_text(text)
    target.chmod(mode)


def fill(tree, program):
    """All files that the package installs."""
    put(program, tree / "usr/bin/rpz", 0o755)
    put(ROOT / "packaging/rpz.service", tree / "lib/systemd/system/rpz.service")
    put_packed(ROOT / "docs/rpz.8", tree / "usr/share/man/man8/rpz.8.gz")
    documents = tree / "usr/share/doc/rpz"
    put_packed(ROOT / "CHANGELOG.md", documents / "changelog.gz")
    for name in DOCUMENTS:
        put_text(led_inside((ROOT / name).read_text(encoding="utf-8")), documents / pathlib.Path(name).name)
    for example in sorted((ROOT / "packaging/examples").iterdir()):
        put(example, documents / "examples" / example.name)
    put(ROOT / DRY_RUN, documents / "examples" / "dry_run.py")


def control(tree, version, arch, glibc):
    """What dpkg reads of the package."""
    size = sum(file.stat().st_size for file in tree.rglob("*") if file.is_file())
    lines = {
        "Package": "rpz",
        "Version": version,
        "Architecture": arch,
        "Maintainer": "The developers of Daltuvik",
        "Section": "net",
        "Priority": "optional",
        "Depends": "libc6 (>= {}.{})".format(*(number.decode() for number in glibc)),
        "Suggests": "nsd, unbound, dnsdist",
        "Installed-Size": str(-(-size // 1024)),
        "Description": DESCRIPTION.rstrip("\n"),
    }
    put_text("".join(f"{name}: {value}\n" for name, value in lines.items()), tree / "DEBIAN/control")
    put_text(AFTER_INSTALLING, tree / "DEBIAN/postinst", 0o755)
    put_text(BEFORE_REMOVING, tree / "DEBIAN/prerm", 0o755)


def main():
    reader = argparse.ArgumentParser(description="Makes a Debian package of the built program.")
    reader.add_argument("--program", type=pathlib.Path, default=ROOT / "crates/rpz/out/rpz", metavar="FILE")
    reader.add_argument("--out", type=pathlib.Path, default=pathlib.Path.cwd(), metavar="FOLDER")
    words = reader.parse_args()
    if not words.program.exists():
        sys.exit(f"{words.program} isn't there: `.ci/run`, or `rt run` in crates/rpz, proves and builds it")
    version = version_of(words.program)
    arch = output("dpkg", "--print-architecture").strip()
    package = words.out / f"rpz_{version}_{arch}.deb"
    with tempfile.TemporaryDirectory(prefix="rpz-package-") as room:
        tree = pathlib.Path(room) / "rpz"
        tree.mkdir(mode=0o755)
        fill(tree, words.program)
        control(tree, version, arch, glibc_of(words.program))
        for folder, _, _ in os.walk(tree):
            os.chmod(folder, 0o755)
        subprocess.run(["dpkg-deb", "--root-owner-group", "--build", str(tree), str(package)], check=True, stdout=sys.stderr)
    print(package)


if __name__ == "__main__":
    main()
