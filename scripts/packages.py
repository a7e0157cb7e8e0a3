"""packages FOLDER DATE TO: makes packages of the archive in FOLDER, of the same bytes for the same archive: a wheel, a .crate of each
Rust crate, and a Debian package of all that scripts/install installs. Files are of DATE, in seconds since 1970. Prints their paths in
the folder TO."""
import base64
import glob
import gzip
import hashlib
import io
import os
import re
import subprocess
import sys
import tarfile
import tempfile
import time
import zipfile

from scripts.repository import read, read_bytes, write

SUMMARY = "Verdicts on texts and logs of io_uring's registered file table, by a verified judge"
CONTROL = """\
Package: yachtbanyan
Version: {version}
Architecture: amd64
Maintainer: Yachtbanyan <yachtbanyan@localhost>
Depends: libc6 (>= {libc})
Recommends: python3 (>= 3.10)
Section: libdevel
Priority: optional
Description: verified table of slots for threads, and a checker of io_uring's fixed files
 Libraries for C, Rust and Python: a table of slots that threads share without a lock, whose last
 user of a value drops it, and a judge of texts and logs. The programs fixfiles and fixcheck play
 and judge scripts of io_uring's registered file table.
"""


def libc_of(library):
    """Returns the newest version of the C library whose symbols a library needs, as a pair of numbers."""
    said = subprocess.run(["readelf", "-W", "--version-info", library], capture_output=True, text=True, check=True).stdout
    return max((int(major), int(minor)) for major, minor in re.findall(r"Name: GLIBC_(\d+)\.(\d+)", said))


def tar_of(folder, top, date):
    """Returns a compressed tar of a folder's files, below `top`."""
    packed = io.BytesIO()
    with gzip.GzipFile(fileobj=packed, mode="wb", mtime=0) as zipped, tarfile.open(fileobj=zipped, mode="w", format=tarfile.GNU_FORMAT) as tar:
        for path in sorted(it for it in glob.glob(f"{folder}/**", recursive=True, include_hidden=True) if os.path.isfile(it)):
            entry = tarfile.TarInfo(f"{top}/{os.path.relpath(path, folder)}")
            content = read_bytes(path)
            entry.size, entry.mtime, entry.mode = len(content), date, 0o644
            tar.addfile(entry, io.BytesIO(content))
    return packed.getvalue()


def wheel_of(files, version, tag, date):
    """Returns a wheel with these files, which are pairs of a name and its bytes."""
    info = f"yachtjudge-{version}.dist-info"
    files = [
        *files,
        (f"{info}/METADATA", f"Metadata-Version: 2.1\nName: yachtjudge\nVersion: {version}\nSummary: {SUMMARY}\nLicense: MIT\nRequires-Python: >=3.10\n".encode()),
        (f"{info}/WHEEL", f"Wheel-Version: 1.0\nGenerator: packages\nRoot-Is-Purelib: false\nTag: {tag}\n".encode()),
    ]
    digest = lambda content: base64.urlsafe_b64encode(hashlib.sha256(content).digest()).rstrip(b"=").decode()
    record = "".join(f"{name},sha256={digest(content)},{len(content)}\n" for name, content in files) + f"{info}/RECORD,,\n"
    packed = io.BytesIO()
    with zipfile.ZipFile(packed, "w", zipfile.ZIP_DEFLATED) as it:
        for name, content in [*files, (f"{info}/RECORD", record.encode())]:
            entry = zipfile.ZipInfo(name, time.gmtime(max(date, 315532800))[:6])
            entry.external_attr, entry.compress_type = 0o100644 << 16, zipfile.ZIP_DEFLATED
            it.writestr(entry, content)
    return packed.getvalue()


def python_wheel(folder, version, major, date):
    """Returns the wheel's name and bytes. The modules look for the library beside them."""
    library = f"libyachtjudge.so.{major}"
    modules = [(os.path.basename(it), read_bytes(it)) for it in sorted(glob.glob(f"{folder}/python/*.py"))]
    tag = "py3-none-manylinux_{}_{}_x86_64".format(*libc_of(f"{folder}/lib/{library}"))
    return f"yachtjudge-{version}-{tag}.whl", wheel_of([*modules, (library, read_bytes(f"{folder}/lib/{library}"))], version, tag, date)


def crates(folder, version, date):
    """Yields the name and the bytes of each crate, with the library in its own folder."""
    for name, room, library in (("yachtbanyan", "rust", None), ("yachtjudge", "rust_judge", "libyachtjudge.a")):
        with tempfile.TemporaryDirectory() as copy:
            subprocess.run(["cp", "-r", f"{folder}/{room}/.", copy], check=True)
            if library:
                os.makedirs(f"{copy}/lib/x86_64-unknown-linux-gnu")
                subprocess.run(["cp", f"{folder}/lib/{library}", f"{copy}/lib/x86_64-unknown-linux-gnu"], check=True)
            yield f"{name}-{version}.crate", tar_of(copy, f"{name}-{version}", date)


def debian_package(folder, version, major, date, to):
    """Writes the Debian package of what scripts/install installs below /usr, and returns its path."""
    libc = "{}.{}".format(*max(libc_of(it) for it in (*glob.glob(f"{folder}/lib/*.so.{major}"), *glob.glob(f"{folder}/bin/fix*"))))
    with tempfile.TemporaryDirectory() as root:
        os.chmod(root, 0o755)
        given = {**os.environ, "DESTDIR": root, "PREFIX": "/usr"}
        subprocess.run([f"{folder}/scripts/install"], env=given, check=True, stdout=subprocess.DEVNULL)
        # a list for its `uninstall`
        os.remove(f"{root}/usr/lib/yachtbanyan/folders")
        write(f"{root}/DEBIAN/control", CONTROL.format(version=version, libc=libc))
        path = f"{to}/yachtbanyan_{version}_amd64.deb"
        command = ["dpkg-deb", "--root-owner-group", "-Zxz", "--build", root, path]
        subprocess.run(command, env={**os.environ, "SOURCE_DATE_EPOCH": str(date)}, check=True, stdout=subprocess.DEVNULL)
    return path


def command():
    folder, date, to = sys.argv[1], int(sys.argv[2]), sys.argv[3]
    os.umask(0o022)
    version = read(f"{folder}/VERSION").strip()
    major = version.split(".")[0]
    for name, content in (python_wheel(folder, version, major, date), *crates(folder, version, date)):
        write(f"{to}/{name}", content)
        print(f"{to}/{name}")
    print(debian_package(folder, version, major, date, to))
