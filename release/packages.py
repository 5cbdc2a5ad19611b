"""Packages as bytes: how each kind is written, and what each holds. The same files give the same bytes."""

import base64
import dataclasses
import gzip
import hashlib
import io
import lzma
import pathlib
import tarfile
import time
import zipfile


@dataclasses.dataclass(frozen=True)
class File:
    """A packed file: its bytes and its rights, or those that its link leads to."""

    data: bytes
    rights: int = 0o644
    link: str = ""

    def sum(self):
        return hashlib.sha256(self.data).hexdigest()


def zipped(data):
    return gzip.compress(data, 9, mtime=0)


def plain(name, file):
    """The file without what compressors differ in."""
    if name.endswith(".gz"):
        return dataclasses.replace(file, data=gzip.decompress(file.data))
    if name == "DEBIAN/md5sums":
        return dataclasses.replace(file, data=b"".join(it for it in file.data.splitlines(True) if not it.endswith(b".gz\n")))
    return file


def folders(names):
    """The folders of the files, each behind the one that it is in."""
    return sorted({str(it) for name in names for it in pathlib.PurePosixPath(name).parents} - {"."})


def compressed(data):
    return lzma.compress(data, preset=6 | lzma.PRESET_EXTREME)


def tar(files, top, seconds, pack=compressed):
    """The files below a folder, as tar writes them, compressed by xz or by gzip."""
    out = io.BytesIO()
    with tarfile.open(fileobj=out, mode="w", format=tarfile.USTAR_FORMAT) as archive:

        def add(name, kind, rights, data=b"", link=""):
            member = tarfile.TarInfo(top + name)
            member.type, member.mode, member.size, member.linkname, member.mtime = kind, rights, len(data), link, seconds
            archive.addfile(member, io.BytesIO(data))

        for name in folders(files):
            add(name, tarfile.DIRTYPE, 0o755)
        for name, file in sorted(files.items()):
            if file.link:
                add(name, tarfile.SYMTYPE, 0o777, link=file.link)
            else:
                add(name, tarfile.REGTYPE, file.rights, file.data)
    return pack(out.getvalue())


def untarred(data, top):
    """The files of a compressed tar file, by their names below the folder."""
    found = {}
    with tarfile.open(fileobj=io.BytesIO(data)) as archive:
        for member in archive:
            if not member.isdir():
                rights = 0o777 if member.issym() else member.mode
                found[member.name.removeprefix(top)] = File(archive.extractfile(member).read(), rights, member.linkname)
    return found


def deb(files, seconds):
    """A package for Debian. The files by which it is installed are below DEBIAN."""
    control = {name.removeprefix("DEBIAN/"): file for name, file in files.items() if name.startswith("DEBIAN/")}
    others = {name: file for name, file in files.items() if not name.startswith("DEBIAN/")}
    members = [("debian-binary", b"2.0\n"), ("control.tar.xz", tar(control, "./", seconds)), ("data.tar.xz", tar(others, "./", seconds))]
    out = b"!<arch>\n"
    for name, data in members:
        out += f"{name:<16}{seconds:<12}{0:<6}{0:<6}{100644:<8}{len(data):<10}`\n".encode() + data + b"\n" * (len(data) % 2)
    return out


def undeb(data):
    found, at = {}, 8
    while at < len(data):
        name, size = data[at : at + 16].decode().strip(), int(data[at + 48 : at + 58])
        if name.endswith(".tar.xz"):
            held = untarred(data[at + 60 : at + 60 + size], "./")
            found.update({f"DEBIAN/{it}": file for it, file in held.items()} if name.startswith("control") else held)
        at += 60 + size + size % 2
    return found


def zip_file(files, seconds):
    """A package for Python, with the list of its files last, or one for Windows."""
    out = io.BytesIO()
    with zipfile.ZipFile(out, "w", zipfile.ZIP_DEFLATED) as archive:
        for name, file in sorted(files.items(), key=lambda it: (it[0].endswith("/RECORD"), it[0])):
            member = zipfile.ZipInfo(name, time.gmtime(seconds)[:6])
            member.create_system, member.external_attr = 3, (0o100000 | file.rights) << 16
            archive.writestr(member, file.data, zipfile.ZIP_DEFLATED, 9)
    return out.getvalue()


def unzipped(data):
    with zipfile.ZipFile(io.BytesIO(data)) as archive:
        return {it.filename: File(archive.read(it), it.external_attr >> 16 & 0o777) for it in archive.infolist()}


def record(files, name):
    """The list of the files of a package for Python, itself among them by its name."""
    rows = []
    for it, file in sorted(files.items()):
        digest = base64.urlsafe_b64encode(hashlib.sha256(file.data).digest()).rstrip(b"=").decode()
        rows.append(f"{it},sha256={digest},{len(file.data)}\n")
    return File("".join([*rows, f"{name},,\n"]).encode())


def top_of(name):
    """The folder that all files of a tar file are in."""
    return "package/" if name.endswith(".tgz") else name.removesuffix(".tar.xz") + "/"


def write(name, files, seconds):
    """The bytes of a package that holds the files, by the kind that its name says."""
    if name.endswith(".deb"):
        return deb(files, seconds)
    if name.endswith((".whl", ".zip")):
        return zip_file(files, seconds)
    if name.endswith(".tar.xz"):
        return tar(files, top_of(name), seconds)
    if name.endswith(".tgz"):
        return tar(files, top_of(name), seconds, zipped)
    return files[name].data


def read(name, data):
    """The files that a package holds."""
    if name.endswith(".deb"):
        return undeb(data)
    if name.endswith((".whl", ".zip")):
        return unzipped(data)
    if name.endswith((".tar.xz", ".tgz")):
        return untarred(data, top_of(name))
    return {name: File(data)}
