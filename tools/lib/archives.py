"""Files as a .deb and as a .tar.gz: the same files and the same time give the same bytes."""

import gzip
import hashlib
import io
import os
import secrets
import subprocess
import tarfile
import tempfile
from dataclasses import dataclass

from files import refuse_others


@dataclass(frozen=True)
class File:
    """A file of a package: its bytes, and whether it can be run."""

    data: bytes
    is_run: bool = False

    @property
    def mode(self) -> int:
        return 0o755 if self.is_run else 0o644


def folders_of(paths: list[str]) -> list[str]:
    """Returns each folder above these paths, sorted."""
    found = set()
    for path in paths:
        while path := os.path.dirname(path):
            found.add(path)
    return sorted(found)


def sums(files: dict[str, File]) -> str:
    """Returns the sums of files as Debian's tools compare them."""
    return "".join(f"{hashlib.md5(files[it].data, usedforsecurity=False).hexdigest()}  {it}\n" for it in sorted(files))


def kib(files: dict[str, File]) -> int:
    """Returns how many KiB files and their folders take, each rounded up, as Debian counts them."""
    return sum(-(-len(it.data) // 1024) for it in files.values()) + len(folders_of(list(files)))


def tar_bytes(files: dict[str, File], seconds: int) -> bytes:
    """Returns the files, and the folders above them, as a compressed archive: by name, of this time, and of root."""
    out = io.BytesIO()
    with tarfile.open(fileobj=out, mode="w", format=tarfile.GNU_FORMAT) as archive:
        for path in sorted([*files, *folders_of(list(files))]):
            entry = tarfile.TarInfo(path)
            entry.mtime, entry.uname, entry.gname = seconds, "root", "root"
            data = files[path].data if path in files else None
            entry.type, entry.mode = (tarfile.DIRTYPE, 0o755) if data is None else (tarfile.REGTYPE, files[path].mode)
            entry.size = len(data or b"")
            archive.addfile(entry, io.BytesIO(data or b""))
    return gzip.compress(out.getvalue(), 9, mtime=0)


def put(room: str, path: str, file: File, seconds: int) -> None:
    """Writes a file below a folder."""
    whole = f"{room}/{path}"
    os.makedirs(os.path.dirname(whole), exist_ok=True)
    with open(whole, "wb") as it:
        it.write(file.data)
    os.chmod(whole, file.mode)
    os.utime(whole, (seconds, seconds))


def deb_bytes(files: dict[str, File], control: str, seconds: int, folder: str) -> bytes:
    """Returns the files as a package of Debian, which dpkg-deb makes in a folder of its own below `folder`.

    Raises ValueError where dpkg-deb is not there, or does not make it.
    """
    with tempfile.TemporaryDirectory(prefix=".tracesync-", dir=folder) as room:
        tree, made = f"{room}/tree", f"{room}/made.deb"
        own = {**files, "DEBIAN/control": File(control.encode()), "DEBIAN/md5sums": File(sums(files).encode())}
        for path, file in own.items():
            put(tree, path, file, seconds)
        for path in ["", *folders_of(list(own))]:
            os.chmod(f"{tree}/{path}", 0o755)
            os.utime(f"{tree}/{path}", (seconds, seconds))
        words = ["dpkg-deb", "--root-owner-group", "-Zgzip", "-z9", "--build", tree, made]
        # (dpkg-deb has its own files for a while in TMPDIR)
        variables = {**os.environ, "SOURCE_DATE_EPOCH": str(seconds), "TMPDIR": room, "LC_ALL": "C"}
        try:
            ran = subprocess.run(words, env=variables, stdin=subprocess.DEVNULL, capture_output=True, text=True)
        except OSError as why:
            raise ValueError(f"dpkg-deb does not start ({why.strerror}): it makes the .deb") from None
        if ran.returncode:
            raise ValueError(f"dpkg-deb makes no package: {ran.stderr.strip() or ran.stdout.strip()}")
        with open(made, "rb") as it:
            return it.read()


def write_whole(path: str, data: bytes) -> None:
    """Writes a file as a whole, under a name that is new, which is then put in its place. Raises ValueError as refuse_others does."""
    refuse_others(path)
    folder, name = os.path.split(path)
    part = os.path.join(folder, f".{name}.{secrets.token_hex(8)}")
    try:
        with open(os.open(part, os.O_WRONLY | os.O_CREAT | os.O_EXCL | os.O_NOFOLLOW | os.O_CLOEXEC, 0o666), "wb") as it:
            it.write(data)
        os.replace(part, path)
    finally:
        if os.path.lexists(part):
            os.remove(part)
