#!/usr/bin/env python3
"""pack.py FOLDER TOP TAR ZIP: a folder as a tar (compressed by gzip) and as a zip, its files below a folder TOP.
pack.py FOLDER ZIP: as a zip alone, its files at the top, as a jar or an AAR has them.

The same files give the same bytes whenever and wherever it runs: names are sorted, times, owners and permissions
fixed."""
import gzip
import io
import pathlib
import sys
import tarfile
import zipfile

# The first day that a zip can state, for both.
YEAR, SECONDS = 1980, 315532800
MODE = 0o644


def files_of(folder):
    """Path within the folder and bytes of each file, sorted by path."""
    paths = sorted(p.relative_to(folder).as_posix() for p in folder.rglob("*") if p.is_file())
    return [(path, (folder / path).read_bytes()) for path in paths]


def tar_of(files):
    out = io.BytesIO()
    with tarfile.open(fileobj=out, mode="w", format=tarfile.USTAR_FORMAT) as tar:
        for path, data in files:
            entry = tarfile.TarInfo(path)
            entry.size, entry.mtime, entry.mode = len(data), SECONDS, MODE
            tar.addfile(entry, io.BytesIO(data))
    return gzip.compress(out.getvalue(), mtime=0)


def zip_of(files):
    out = io.BytesIO()
    with zipfile.ZipFile(out, "w", zipfile.ZIP_DEFLATED) as archive:
        for path, data in files:
            entry = zipfile.ZipInfo(path, (YEAR, 1, 1, 0, 0, 0))
            entry.create_system, entry.external_attr = 3, MODE << 16  # as Unix writes it, whatever system this is
            entry.compress_type = zipfile.ZIP_DEFLATED
            archive.writestr(entry, data)
    return out.getvalue()


def main():
    folder, *names = sys.argv[1:]
    files = files_of(pathlib.Path(folder))
    if len(names) > 1:
        top, tar, _ = names
        files = [(f"{top}/{path}", data) for path, data in files]
        pathlib.Path(tar).write_bytes(tar_of(files))
    pathlib.Path(names[-1]).write_bytes(zip_of(files))


if __name__ == "__main__":
    main()
