#!/usr/bin/env python3
"""aar.py RELEASE CALL...: whether the release's AAR is laid out as Android's format and prefab's say: the manifest, the
class with a native method for each call, for each processor a library of that processor whose segments fit pages of 16
KB, which exports the class's methods alone and needs libc alone, and a prefab package with the release's own archives
and header.

aar.py --planted RELEASE CALL... changes it in several ways, one at a time: each must be found."""
import io
import json
import pathlib
import struct
import sys
import xml.etree.ElementTree as tree
import zipfile

ABIS = {"arm64-v8a": (183, "aarch64-android"), "x86_64": (62, "x86_64-android")}
LIBC = {"memcpy", "memmove", "memset", "memcmp"}
PAGE = 16384
JAVA_8 = 52
ANDROID = "{http://schemas.android.com/apk/res/android}"
LOAD, DYNAMIC, STACK = 1, 2, 0x6474E551
EXECUTE, WRITE = 1, 2
NEEDED, STRTAB, SYMTAB, SONAME, TEXTREL = 1, 5, 6, 14, 22


class Wrong(Exception):
    pass


def check(holds, what):
    if not holds:
        raise Wrong(what)


def segments(elf):
    """Type, flags, offset, address, bytes in the file, alignment of each."""
    start, size, count = struct.unpack_from("<Q", elf, 32)[0], *struct.unpack_from("<HH", elf, 54)
    for k in range(count):
        kind, flags, offset, address, _, length, _, align = struct.unpack_from("<IIQQQQQQ", elf, start + k * size)
        yield kind, flags, offset, address, length, align


def offset_of(elf, address):
    for kind, _, offset, start, length, _ in segments(elf):
        if kind == LOAD and start <= address < start + length:
            return offset + address - start
    raise Wrong("an address outside of the file")


def text(elf, at):
    return elf[at : elf.index(b"\0", at)].decode()


def dynamic(elf):
    """The entries of the dynamic section, by tag."""
    entries = {}
    for kind, _, offset, _, length, _ in segments(elf):
        if kind == DYNAMIC:
            for at in range(offset, offset + length, 16):
                tag, value = struct.unpack_from("<QQ", elf, at)
                entries.setdefault(tag, []).append(value)
    return entries


def symbols(elf, entries):
    """Names that it exports, and names that it needs. The names begin where the table of symbols ends."""
    at, names = offset_of(elf, entries[SYMTAB][0]), offset_of(elf, entries[STRTAB][0])
    count = struct.unpack_from("<I", elf, offset_of(elf, entries[4][0]) + 4)[0]  # of the hash table's chain
    exported, needed = set(), set()
    for k in range(1, count):
        name, _, _, section = struct.unpack_from("<IBBH", elf, at + 24 * k)
        (exported if section else needed).add(text(elf, names + name))
    return exported, needed


def check_library(elf, abi, methods):
    machine, name = ABIS[abi][0], f"jni/{abi}"
    check(elf[:6] == b"\x7fELF\x02\x01", f"{name}: no 64-bit little-endian ELF")
    check(struct.unpack_from("<HH", elf, 16) == (3, machine), f"{name}: a library for another processor")
    entries = dynamic(elf)
    names = offset_of(elf, entries[STRTAB][0])
    check([text(elf, names + n) for n in entries[NEEDED]] == ["libc.so"], f"{name}: needs other libraries")
    check(text(elf, names + entries[SONAME][0]) == "libengine_jni.so", f"{name}: another name")
    check(TEXTREL not in entries, f"{name}: relocates its text")
    for kind, flags, offset, address, _, align in segments(elf):
        if kind == LOAD:
            check(align >= PAGE and (address - offset) % PAGE == 0, f"{name}: a segment for pages below 16 KB")
        check(kind not in (LOAD, STACK) or flags & (WRITE | EXECUTE) != WRITE | EXECUTE, f"{name}: writable code")
    check(any(kind == STACK for kind, *_ in segments(elf)), f"{name}: a stack that may be run")
    exported, needed = symbols(elf, entries)
    check(exported == methods, f"{name}: exports {sorted(exported ^ methods)} too, or not")
    check(needed <= LIBC, f"{name}: needs {sorted(needed - LIBC)}")


def check_prefab(files, release, header):
    package = json.loads(files["prefab/prefab.json"])
    check(package["schema_version"] == 2 and package["name"] == "engine", "prefab.json is of another format")
    check(all(n.isdigit() for n in package["version"].split(".")), "prefab.json: a version that CMake cannot read")
    module = "prefab/modules/engine"
    check(json.loads(files[f"{module}/module.json"])["export_libraries"] == [], "module.json exports libraries")
    check(files[f"{module}/include/engine.h"] == header, "prefab: another header")
    for abi, (_, folder) in ABIS.items():
        said = json.loads(files[f"{module}/libs/android.{abi}/abi.json"])
        due = {"abi": abi, "api": 24, "stl": "none", "static": True}
        check({k: said.get(k) for k in due} == due and isinstance(said.get("ndk"), int), f"{abi}: abi.json has {said}")
        own = (release / "lib" / folder / "libengine.a").read_bytes()
        check(files[f"{module}/libs/android.{abi}/libengine.a"] == own, f"prefab's archive for {abi} is another")


def check_aar(data, release, calls):
    archive = zipfile.ZipFile(io.BytesIO(data))
    check(archive.testzip() is None, "the AAR is damaged")
    files = {name: archive.read(name) for name in archive.namelist()}
    for name in ("AndroidManifest.xml", "R.txt", "classes.jar", "proguard.txt", "prefab/prefab.json"):
        check(name in files, f"the AAR has no {name}")
    manifest = tree.fromstring(files["AndroidManifest.xml"])
    check(manifest.tag == "manifest" and manifest.get("package"), "the manifest names no package")
    check(manifest.find("uses-sdk").get(f"{ANDROID}minSdkVersion") == "24", "the manifest states another API")
    jar = zipfile.ZipFile(io.BytesIO(files["classes.jar"]))
    check("poqashem/Engine.class" in jar.namelist(), "classes.jar has no poqashem.Engine")
    for name in jar.namelist():
        if name.endswith(".class"):
            magic, _, version = struct.unpack_from(">IHH", jar.read(name))
            check((magic, version) == (0xCAFEBABE, JAVA_8), f"{name} is not for Java 8")
    found = {name.split("/")[1] for name in files if name.startswith("jni/")}
    check(found == set(ABIS), f"libraries for {sorted(found)}")
    methods = {"Java_poqashem_Engine_" + call.replace("_", "_1") for call in calls}
    for abi in ABIS:
        check_library(files[f"jni/{abi}/libengine_jni.so"], abi, methods)
    check_prefab(files, release, (release / "include/engine.h").read_bytes())
    return len(files)


# ---- changes that are planted


def changed(data, name, change):
    """The AAR with one file changed, or left out where the change gives None."""
    out = io.BytesIO()
    with zipfile.ZipFile(io.BytesIO(data)) as old, zipfile.ZipFile(out, "w") as new:
        for entry in old.namelist():
            content = change(old.read(entry)) if entry == name else old.read(entry)
            if content is not None:
                new.writestr(entry, content)
    return out.getvalue()


def small_pages(elf):
    """The first segment aligned to 4 KB."""
    start = struct.unpack_from("<Q", elf, 32)[0]
    for k in range(struct.unpack_from("<H", elf, 56)[0]):
        if struct.unpack_from("<I", elf, start + 56 * k)[0] == LOAD:
            at = start + 56 * k + 48
            return elf[:at] + struct.pack("<Q", 4096) + elf[at + 8 :]
    return elf


def planted(data, release, calls):
    other = zipfile.ZipFile(io.BytesIO(data)).read("jni/x86_64/libengine_jni.so")
    arm, module = "jni/arm64-v8a/libengine_jni.so", "prefab/modules/engine"
    faults = [
        ("AndroidManifest.xml", lambda _: None, "no AndroidManifest.xml"),
        ("AndroidManifest.xml", lambda b: b.replace(b'"24"', b'"21"'), "another API"),
        ("classes.jar", lambda _: data, "no poqashem.Engine"),
        (arm, lambda _: other, "another processor"),
        (arm, small_pages, "pages below 16 KB"),
        (arm, lambda b: b.replace(b"libc.so", b"libm.so"), "other libraries"),
        (arm, lambda b: b.replace(b"Engine_told\0", b"Engine_tole\0"), "Engine_told"),
        (f"{module}/libs/android.x86_64/abi.json", lambda b: b.replace(b"true", b"false"), "abi.json"),
        (f"{module}/libs/android.x86_64/libengine.a", lambda b: b[:-1], "is another"),
        (f"{module}/include/engine.h", lambda b: b + b"\n", "another header"),
    ]
    for name, change, words in faults:
        try:
            check_aar(changed(data, name, change), release, calls)
        except Wrong as wrong:
            if words in str(wrong):
                continue
            raise SystemExit(f"{name}, {words}: {wrong}")
        raise SystemExit(f"not noticed of the AAR: {name}, {words}")
    return len(faults)


def main():
    words = sys.argv[1:]
    plant = words[0] == "--planted"
    folder, *calls = words[1:] if plant else words
    release = pathlib.Path(folder)
    data = (release / "android/engine.aar").read_bytes()
    try:
        if plant:
            print(f"engine.aar: {planted(data, release, calls)} planted faults are noticed")
        else:
            print(f"engine.aar: {check_aar(data, release, calls)} files, for {', '.join(ABIS)}")
    except (Wrong, KeyError) as wrong:
        raise SystemExit(f"engine.aar: {wrong}")


if __name__ == "__main__":
    main()
