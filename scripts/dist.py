#!/usr/bin/env python3
"""Packs the results of `make` and `make library` in bin/ as a tar.gz, a .deb (if dpkg-deb is
installed) and a wheel, with PROVENANCE and SHA256SUMS beside them; and a wheel for ARM, if its
library is built.

The script builds nothing. The packages contain what `make install` installs; packaging/ has their
texts. The same commit with the same programs and the same tools gives the same bytes: times are
those of the commit, owners are root, and files are sorted.

Usage: scripts/dist.py [FOLDER]

Without FOLDER the script replaces bin/dist. FOLDER must not exist yet.
"""
import base64
import gzip
import hashlib
import os
import pathlib
import platform
import re
import shutil
import subprocess
import sys
import tarfile
import time
import zipfile

TOP = pathlib.Path(__file__).resolve().parent.parent
BIN = TOP / "bin"
PACKAGING = TOP / "packaging"
# The targets that build parts of bin/. Each leaves the line of its kit in bin/PART.kit.
TARGETS = {"programs": "make", "library": "make library", "page": "make page"}
# The packed files of bin/, the part that each belongs to, and its sources.
BUILT = {
    "mcf": ("programs", "crates/"),
    "mcfcheck": ("programs", "crates/"),
    "mcfplan": ("programs", "crates/"),
    "libmcf.so.1": ("library", "crates/"),
    "libmcf.a": ("library", "crates/"),
    "libmcf-aarch64.so": ("library", "crates/", "library/heap.c"),
    "_small.abi3.so": ("library", "library/python/", "library/mcf.h"),
    "mcf.html": ("page", "crates/", "page/"),
}
# Those that may be missing: the library for ARM, the Python module's extension for small matrices,
# and the page.
OPTIONAL = ("libmcf-aarch64.so", "_small.abi3.so", "mcf.html")
# The library and the extension of the wheel for each machine.
WHEELS = {"x86_64": ("libmcf.so.1", "_small.abi3.so"), "aarch64": ("libmcf-aarch64.so",)}


def stop(why):
    sys.exit(f"make dist: {why}")


def git(*words):
    """The output of git for this repository."""
    try:
        return (
            subprocess.run(["git", "-C", str(TOP), *words], stdout=subprocess.PIPE, check=True)
            .stdout.decode()
            .strip()
        )
    except (OSError, subprocess.CalledProcessError):
        return stop(
            "packages say of which commit they are: git and the repository have to be there"
        )


def read_version():
    """The version, and the line that names the logic of its proof. Other files with a version must
    have this one."""
    found = re.search(
        r'"mcf ([\d.]+)\\n(proved with [^\\]+)\\n"',
        (TOP / "crates/mcf_suite/src/version.rt").read_text(),
    )
    version, proved = found.groups()
    for place, pattern in (
        ("python/mcf/__init__.py", "__version__ = "),
        ("library/rust/Cargo.toml", "version = "),
    ):
        if f'\n{pattern}"{version}"\n' not in (TOP / place).read_text():
            stop(f"{place} has another version than crates/mcf_suite/src/version.rt, {version}")
    return version, proved


def look(version, proved):
    """Stops if bin/ lacks a file, or has files that can't belong to this commit."""
    if (platform.system(), platform.machine()) != ("Linux", "x86_64"):
        stop("packages are for Linux on x86-64, and made there")
    for name, (part, *sources) in BUILT.items():
        if not (BIN / name).is_file():
            if name in OPTIONAL:
                continue
            stop(f"bin/{name} isn't there; run {TARGETS[part]} first")
        if (BIN / name).stat().st_mtime < int(git("log", "-1", "--format=%ct", "--", *sources)):
            stop(
                f"bin/{name} is older than the last change of {' and '.join(sources)}; run"
                f" {TARGETS[part]} again"
            )
    said = subprocess.run([str(BIN / "mcf"), "--version"], stdout=subprocess.PIPE).stdout.decode()
    if said != f"mcf {version}\n{proved}\n":
        stop(
            "bin/mcf says another version or logic than crates/mcf_suite/src/version.rt; run make"
            " again"
        )


def kits(proved):
    """A line for each packed part, with the line of the kit that built it. Each kit must have the
    logic of the proof."""
    said = []
    for part in sorted({part for name, (part, *_) in BUILT.items() if (BIN / name).is_file()}):
        file = BIN / f"{part}.kit"
        line = file.read_text().strip() if file.is_file() else ""
        if not line.endswith(proved[proved.index(" logic ") :]):
            stop(
                f"bin/{part}.kit doesn't name a kit with the logic of"
                f" crates/mcf_suite/src/version.rt; run {TARGETS[part]} again"
            )
        said.append(f"{part} built with {line}\n")
    return "".join(said)


def libc(*paths):
    """The oldest version of the C library, as 2.N, that has all symbols that these files need."""
    return max(int(n) for path in paths for n in re.findall(rb"GLIBC_2\.(\d+)", path.read_bytes()))


def filled(path, **words):
    """A text of packaging/ with its words filled in."""
    return re.sub(
        r"@(\w+)@", lambda found: str(words[found.group(1)]), (PACKAGING / path).read_text()
    )


def put(path, text):
    """Writes a file, and makes its folder first."""
    path.parent.mkdir(parents=True, exist_ok=True)
    path.write_text(text)


def stage(tree, provenance):
    """Installs everything into a folder, with usr/ for /usr."""
    shared = tree / "usr/share"
    words = [
        "make",
        "--no-print-directory",
        "-C",
        str(TOP),
        "install",
        f"DESTDIR={tree}",
        "PREFIX=/usr",
    ]
    subprocess.run(words, stdout=subprocess.DEVNULL, check=True)
    put(shared / "doc/yokdelm/PROVENANCE", provenance)
    put(shared / "doc/yokdelm/copyright", (PACKAGING / "copyright").read_text())


def pack_tar(tree, path, top, at):
    """Packs the files below usr/ as a tar.gz with a relocatable folder."""
    pc = tree / "lib/pkgconfig/mcf.pc"
    installed = pc.read_text()
    pc.write_text(installed.replace("prefix=/usr\n", "prefix=${pcfiledir}/../..\n"))

    def settled(entry):
        entry.uid = entry.gid = 0
        entry.uname = entry.gname = "root"
        entry.mtime, entry.mode = at, 0o755 if entry.isdir() or entry.mode & 0o100 else 0o644
        return entry

    with open(path, "wb") as file, gzip.GzipFile("", "wb", 9, file, at) as packed:
        with tarfile.open(mode="w", fileobj=packed, format=tarfile.GNU_FORMAT) as tar:
            for member in [tree, *sorted(tree.rglob("*"))]:
                tar.add(
                    member,
                    pathlib.PurePath(top, member.relative_to(tree)),
                    recursive=False,
                    filter=settled,
                )
    pc.write_text(installed)


def pack_deb(tree, path, version, at):
    """Packs a Debian package. The Python module and zsh's completion go where Debian expects
    them."""
    packages = tree / "usr/lib/python3/dist-packages"
    packages.mkdir(parents=True)
    (tree / "usr/share/mcf/python/mcf").rename(packages / "mcf")
    for name in ("METADATA", "entry_points.txt"):
        put(
            packages / f"yokdelm-{version}.dist-info" / name,
            filled(f"python/{name}", VERSION=version),
        )
    (tree / "usr/share/zsh/site-functions").rename(tree / "usr/share/zsh/vendor-completions")
    size = sum(file.lstat().st_size for file in tree.rglob("*") if file.is_file())
    needed = libc(*(BIN / name for name in ("mcf", "mcfcheck", "mcfplan", "libmcf.so.1")))
    control = filled(
        "debian/control",
        VERSION=version,
        MAINTAINER=git("log", "-1", "--format=%an <%ae>"),
        SIZE=size // 1024 + 1,
        LIBC=f"2.{needed}",
    )
    put(tree / "DEBIAN/control", control)
    for name in ("prerm", "triggers"):
        put(tree / "DEBIAN" / name, filled(f"debian/{name}"))
    (tree / "DEBIAN/prerm").chmod(0o755)
    words = ["dpkg-deb", "--root-owner-group", "-Zgzip", "--build", str(tree), str(path)]
    subprocess.run(
        words,
        stdout=subprocess.DEVNULL,
        check=True,
        env={**os.environ, "SOURCE_DATE_EPOCH": str(at)},
    )


def pack_wheel(folder, version, provenance, at, machine):
    """Packs a wheel of the module for a machine, with the library beside it. Returns its path."""
    library, *extensions = WHEELS[machine]
    needed = libc(BIN / library)
    tag = f"py3-none-{'manylinux2014' if needed <= 17 else f'manylinux_2_{needed}'}_{machine}"
    about = f"yokdelm-{version}.dist-info"
    files = {
        f"mcf/{file.name}": file.read_bytes()
        for file in sorted((TOP / "python/mcf").glob("*.*"))
        if file.suffix != ".so"
    }
    for name in extensions:
        if (BIN / name).is_file():
            files[f"mcf/{name}"] = (BIN / name).read_bytes()
    files["mcf/libmcf.so"] = (BIN / library).read_bytes()
    for name in ("METADATA", "WHEEL", "entry_points.txt"):
        files[f"{about}/{name}"] = filled(f"python/{name}", VERSION=version, TAG=tag).encode()
    files[f"{about}/PROVENANCE"] = provenance.encode()
    files[f"{about}/copyright"] = (PACKAGING / "copyright").read_bytes()
    sums = {
        name: base64.urlsafe_b64encode(hashlib.sha256(data).digest()).rstrip(b"=").decode()
        for name, data in files.items()
    }
    record = [f"{name},sha256={sums[name]},{len(data)}\n" for name, data in files.items()] + [
        f"{about}/RECORD,,\n"
    ]
    files[f"{about}/RECORD"] = "".join(record).encode()
    path = folder / f"yokdelm-{version}-{tag}.whl"
    with zipfile.ZipFile(path, "w", zipfile.ZIP_DEFLATED) as wheel:
        for name, data in files.items():
            entry = zipfile.ZipInfo(name, time.gmtime(at)[:6])
            entry.compress_type, entry.create_system, entry.external_attr = (
                zipfile.ZIP_DEFLATED,
                3,
                0o100644 << 16,
            )
            wheel.writestr(entry, data)
    return path


def main(folder):
    """Makes all packages."""
    os.umask(0o022)
    version, proved = read_version()
    look(version, proved)
    at, tree = int(git("log", "-1", "--format=%ct")), folder / "tree"
    changes = ", and changes that aren't committed" if git("status", "--porcelain") else ""
    provenance = (
        f"yokdelm {version}\ncommit {git('rev-parse', 'HEAD')}{changes}\n{proved}\n{kits(proved)}"
    )
    if folder == BIN / "dist":
        shutil.rmtree(folder, ignore_errors=True)
    elif folder.exists():
        stop(f"{folder} is there already")
    folder.mkdir(parents=True)
    stage(tree, provenance)
    name = f"yokdelm-{version}-linux-x86_64"
    pack_tar(tree / "usr", folder / f"{name}.tar.gz", name, at)
    if shutil.which("dpkg-deb"):
        pack_deb(tree, folder / f"yokdelm_{version}_amd64.deb", version, at)
    else:
        print("dist: skipped: the .deb: there is no dpkg-deb")
    for machine, (library, *_) in WHEELS.items():
        if (BIN / library).is_file():
            pack_wheel(folder, version, provenance, at, machine)
        else:
            print(f"dist: skipped: the wheel for {machine}: bin/{library} isn't built")
    shutil.rmtree(tree)
    put(folder / "PROVENANCE", provenance)
    made = sorted(folder.iterdir())
    put(
        folder / "SHA256SUMS",
        "".join(f"{hashlib.sha256(file.read_bytes()).hexdigest()}  {file.name}\n" for file in made),
    )
    print("\n".join(f"make dist: {file}" for file in made))


main(pathlib.Path(sys.argv[1] if len(sys.argv) > 1 else BIN / "dist").resolve())
