#!/usr/bin/env python3
"""Packs a folder as a reproducible .tar.gz or .zip archive: archive.py FOLDER ARCHIVE

Files are sorted by name, belong to root, and have the time SOURCE_DATE_EPOCH. Programs and shared libraries stay executable. In a
.zip, a link is replaced by its target."""
from __future__ import annotations

import argparse
import gzip
import io
import os
import sys
import tarfile
import time
import zipfile
from pathlib import Path

# 1980-01-01: a Zip archive cannot store an earlier time.
FIRST_TIME = 315532800
TIME = max(FIRST_TIME, int(os.environ.get("SOURCE_DATE_EPOCH", FIRST_TIME)))


def mode_of(path: Path) -> int:
    return 0o755 if path.is_dir() or os.access(path, os.X_OK) else 0o644


def members(folder: Path) -> list[Path]:
    return [folder, *sorted(folder.rglob("*"))]


def tar_of(folder: Path) -> bytes:
    buffer = io.BytesIO()
    with tarfile.open(fileobj=buffer, mode="w", format=tarfile.PAX_FORMAT) as archive:
        for path in members(folder):
            member = tarfile.TarInfo(path.relative_to(folder.parent).as_posix())
            member.mtime, member.mode, member.uname, member.gname = TIME, mode_of(path), "root", "root"
            if path.is_symlink():
                member.type, member.linkname, member.mode = tarfile.SYMTYPE, os.readlink(path), 0o777
                archive.addfile(member)
            elif path.is_dir():
                member.type = tarfile.DIRTYPE
                archive.addfile(member)
            else:
                content = path.read_bytes()
                member.size = len(content)
                archive.addfile(member, io.BytesIO(content))
    return gzip.compress(buffer.getvalue(), mtime=0)


def zip_of(folder: Path) -> bytes:
    buffer = io.BytesIO()
    with zipfile.ZipFile(buffer, "w") as archive:
        for path in members(folder):
            if path.is_file():
                member = zipfile.ZipInfo(path.relative_to(folder.parent).as_posix(), time.gmtime(TIME)[:6])
                member.compress_type, member.create_system = zipfile.ZIP_DEFLATED, 3
                member.external_attr = (0o100000 | mode_of(path)) << 16
                archive.writestr(member, path.read_bytes())
    return buffer.getvalue()


def main() -> int:
    parser = argparse.ArgumentParser(description="Packs a folder as a reproducible archive.")
    parser.add_argument("folder", type=Path)
    parser.add_argument("archive", type=Path)
    arguments = parser.parse_args()
    is_zip = arguments.archive.suffix == ".zip"
    arguments.archive.write_bytes((zip_of if is_zip else tar_of)(arguments.folder))
    return 0


if __name__ == "__main__":
    sys.exit(main())
