// What each released file is: formats.mjs FOLDER CALL... Reads the archives' own bytes: that they hold one object of
// the format and processor that their folder says, for Apple's the platform and the least version of it, which names a
// linker sees, and which it must find elsewhere, and that they have unwind tables, but in WebAssembly, which has none;
// that the XCFramework's list names its libraries as they are; and that engine.wasm imports nothing and exports its
// memory and the calls.
import { execFileSync } from "node:child_process";
import { readdirSync, readFileSync } from "node:fs";
import { join } from "node:path";

const [folder, ...calls] = process.argv.slice(2);
const wanted = calls.map((name) => `engine_${name}`).sort();
// The last three are of Apple's libc.
const elsewhere = new Set(["memcpy", "memmove", "memset", "memcmp", "bzero", "__bzero", "memset_pattern16"]);

function check(ok, what) {
    if (ok) return;
    console.error(what);
    process.exit(1);
}

// The archive's members but for its index.
function members(file, b = readFileSync(file)) {
    check(b.toString("latin1", 0, 8) === "!<arch>\n", `${file} is no archive`);
    const out = [];
    for (let at = 8; at + 60 <= b.length; ) {
        const size = Number(b.toString("latin1", at + 48, at + 58));
        let name = b.toString("latin1", at, at + 16).trim();
        let from = at + 60;
        if (name.startsWith("#1/")) {
            const n = Number(name.slice(3)); // BSD: the name stands before the bytes
            name = b.toString("latin1", from, from + n).replace(/\0+$/, "");
            from += n;
        }
        const index = name === "/" || name === "//" || name === "/SYM64/" || name.startsWith("__.SYMDEF");
        if (!index) out.push(b.subarray(from, at + 60 + size));
        at += 60 + size + (size % 2);
    }
    return out;
}

function text(b, at) {
    return b.toString("latin1", at, b.indexOf(0, at));
}

// ELF: the processor's number, the names that are global or weak, defined or not, and the bytes of unwind tables.
function elf(b) {
    check(b.readUInt32BE(0) === 0x7f454c46 && b[4] === 2 && b[5] === 1, "no 64-bit little-endian ELF");
    check(b.readUInt16LE(16) === 1, "no relocatable object");
    const defined = [];
    const undefinedNames = [];
    const sections = Number(b.readBigUInt64LE(40));
    const section = (k) => sections + k * b.readUInt16LE(58);
    const offset = (s) => Number(b.readBigUInt64LE(s + 24));
    const size = (s) => Number(b.readBigUInt64LE(s + 32));
    const sectionNames = offset(section(b.readUInt16LE(62)));
    let unwind = 0;
    for (let k = 0; k < b.readUInt16LE(60); k++) {
        const s = section(k);
        if (text(b, sectionNames + b.readUInt32LE(s)) === ".eh_frame") unwind += size(s);
        if (b.readUInt32LE(s + 4) !== 2) continue; // the symbols
        const names = offset(section(b.readUInt32LE(s + 40)));
        for (let at = offset(s); at < offset(s) + size(s); at += 24) {
            if (b[at + 4] >> 4 === 0) continue; // local
            (b.readUInt16LE(at + 6) === 0 ? undefinedNames : defined).push(text(b, names + b.readUInt32LE(at)));
        }
    }
    return { processor: b.readUInt16LE(18), defined, undefinedNames, unwind };
}

// A fat archive: the processor and the bytes of each of its archives.
function slices(file) {
    const b = readFileSync(file);
    check(b.readUInt32BE(0) === 0xcafebabe, `${file} is no fat archive`);
    return Array.from({ length: b.readUInt32BE(4) }, (_, k) => {
        const [processor, , offset, size, align] = [0, 4, 8, 12, 16].map((n) => b.readUInt32BE(8 + 20 * k + n));
        check(offset % 2 ** align === 0 && offset + size <= b.length, `${file}: slice ${k} is out of its place`);
        return { processor, bytes: b.subarray(offset, offset + size) };
    });
}

// Mach-O: the same, and the platform that it was built for, with its least version, as 65,536 times 15 for 15.0.
function macho(b) {
    check(b.readUInt32LE(0) === 0xfeedfacf && b.readUInt32LE(12) === 1, "no 64-bit Mach-O object");
    const defined = [];
    const undefinedNames = [];
    let platform;
    let least;
    let unwind = 0;
    for (let k = 0, at = 32; k < b.readUInt32LE(16); k++, at += b.readUInt32LE(at + 4)) {
        if (b.readUInt32LE(at) === 0x32) [platform, least] = [b.readUInt32LE(at + 8), b.readUInt32LE(at + 12)];
        if (b.readUInt32LE(at) === 0x19) {
            for (let n = 0, s = at + 72; n < b.readUInt32LE(at + 64); n++, s += 80) {
                const section = b.toString("latin1", s, s + 16); // a name of 16 bytes has no zero behind it
                if (section === "__compact_unwind") unwind += Number(b.readBigUInt64LE(s + 40));
            }
        }
        if (b.readUInt32LE(at) !== 2) continue; // the symbols
        const [symbols, count, names] = [8, 12, 16].map((n) => b.readUInt32LE(at + n));
        for (let s = symbols; s < symbols + 16 * count; s += 16) {
            if ((b[s + 4] & 1) === 0) continue; // not external
            check((b[s + 4] & 0x10) === 0, "a private external name");
            const name = text(b, names + b.readUInt32LE(s));
            check(name[0] === "_", `${name} has no underscore`);
            ((b[s + 4] & 0xe) === 0 ? undefinedNames : defined).push(name.slice(1));
        }
    }
    return { processor: b.readUInt32LE(4), platform, least, defined, undefinedNames, unwind };
}

// An object of WebAssembly: the same names, from its table of symbols; the name of one that it needs stands in its
// imports. Numbers are of seven bits a byte.
function wasmObject(b) {
    check(b.readUInt32LE(0) === 0x6d736100 && b.readUInt32LE(4) === 1, "no object of WebAssembly");
    let at = 8;
    const byte = () => b[at++];
    const number = () => {
        for (let n = 0, shift = 0; ; shift += 7) {
            const part = byte();
            n += (part & 127) * 2 ** shift;
            if (part < 128) return n;
        }
    };
    const name = () => {
        const length = number();
        at += length;
        return b.toString("latin1", at - length, at);
    };
    const imports = [[], [], [], []]; // of functions, tables, memories, globals
    const found = { defined: [], undefinedNames: [] };
    const limits = () => (number() & 1 ? (number(), number()) : number());
    const skip = [number, () => (byte(), limits()), limits, () => (byte(), byte())]; // what is behind an import's kind
    const symbol = () => {
        const [kind, flags] = [byte(), number()];
        if (kind === 3) return number(); // a section
        const missing = (flags & 16) !== 0;
        const index = kind === 1 ? undefined : number(); // data have their name first
        const said = kind !== 1 && missing && (flags & 64) === 0 ? imports[kind === 2 ? 3 : kind][index] : name();
        if (kind === 1 && !missing) [number(), number(), number()];
        if ((flags & 3) !== 2) found[missing ? "undefinedNames" : "defined"].push(said);
    };
    const table = (end) => {
        check(number() === 2, "a table of symbols of another version");
        while (at < end) {
            const [kind, length] = [byte(), number()];
            const next = at + length;
            if (kind === 8) for (let n = number(); n > 0; n--) symbol();
            at = next;
        }
    };
    while (at < b.length) {
        const [kind, length] = [byte(), number()];
        const end = at + length;
        if (kind === 2) {
            for (let n = number(); n > 0; n--) {
                name();
                const [called, sort] = [name(), byte()];
                imports[sort].push(called);
                skip[sort]();
            }
        } else if (kind === 0 && name() === "linking") table(end);
        at = end;
    }
    return found;
}

const ELF = { x86_64: 62, aarch64: 183 };
const APPLE = { x86_64: 0x01000007, arm64: 0x0100000c };
// Apple's platforms and their variants: number and least version.
const PLATFORMS = { ios: [2, 15], "ios-simulator": [7, 15], macos: [1, 12] };
const names = ["x86_64-linux", "aarch64-linux", "x86_64-android", "aarch64-android"];
for (const [name] of Object.entries(PLATFORMS)) names.push(`arm64-${name}`);
names.push("x86_64-ios-simulator", "x86_64-macos");

const there = readdirSync(join(folder, "lib")).filter((n) => n !== "cmake");
check(there.sort().join() === [...names, "wasm32"].sort().join(), `archives for ${there}`);
for (const name of names.sort()) {
    const [processor, system] = [name.slice(0, name.indexOf("-")), name.slice(name.indexOf("-") + 1)];
    const apple = PLATFORMS[system];
    const objects = members(join(folder, "lib", name, "libengine.a"));
    check(objects.length === 1, `${name}: ${objects.length} objects in the archive`);
    const found = apple ? macho(objects[0]) : elf(objects[0]);
    check(found.processor === (apple ? APPLE : ELF)[processor], `${name}: processor ${found.processor}`);
    check(found.platform === apple?.[0], `${name}: platform ${found.platform}`);
    check(!apple || found.least === apple[1] << 16, `${name}: least version ${found.least / 65536}`);
    check(found.defined.sort().join() === wanted.join(), `${name} defines ${found.defined}`);
    const strange = found.undefinedNames.filter((n) => !elsewhere.has(n));
    check(strange.length === 0, `${name} needs ${strange}`);
    check(found.unwind > 24 * found.defined.length, `${name} has ${found.unwind} bytes of unwind tables`);
    const needs = found.undefinedNames.sort().join(", ");
    console.log(`${name}: ${found.defined.length} calls, needs ${needs}, ${found.unwind} bytes of unwind tables`);
}

const [whole, ...more] = members(join(folder, "lib", "wasm32", "libengine.a"));
const linked = wasmObject(whole);
check(more.length === 0, `wasm32: ${1 + more.length} objects in the archive`);
check(linked.defined.sort().join() === wanted.join(), `wasm32 defines ${linked.defined}`);
const needed = linked.undefinedNames.filter((n) => !elsewhere.has(n) && n !== "__stack_pointer");
check(needed.length === 0, `wasm32 needs ${needed}`);
console.log(`wasm32: ${linked.defined.length} calls, needs ${linked.undefinedNames.sort().join(", ")}`);

// The XCFramework: its list is a property list, every library stands in it and nothing else is there, and each has the
// very archives of the processors and the platform that the list states.
const framework = join(folder, "apple", "Engine.xcframework");
const script = "import json, plistlib, sys; print(json.dumps(plistlib.load(open(sys.argv[1], 'rb'))))";
const list = JSON.parse(execFileSync("python3", ["-c", script, join(framework, "Info.plist")], { encoding: "utf8" }));
check(list.CFBundlePackageType === "XFWK" && list.XCFrameworkFormatVersion === "1.0", "Info.plist is of another format");
const parts = list.AvailableLibraries.map((l) => l.LibraryIdentifier);
const entries = readdirSync(framework).filter((n) => n !== "Info.plist");
check(entries.sort().join() === [...parts].sort().join(), `the XCFramework has ${entries}, and lists ${parts}`);
const covered = list.AvailableLibraries.flatMap((l) => {
    const at = join(framework, l.LibraryIdentifier);
    check(l.LibraryPath === "libengine.a" && l.BinaryPath === l.LibraryPath, `${at}: library ${l.LibraryPath}`);
    const system = l.SupportedPlatformVariant ? `${l.SupportedPlatform}-${l.SupportedPlatformVariant}` : l.SupportedPlatform;
    const variant = l.SupportedPlatformVariant ? `-${l.SupportedPlatformVariant}` : "";
    const due = `${l.SupportedPlatform}-${l.SupportedArchitectures.join("_")}${variant}`;
    check(l.LibraryIdentifier === due, `${at} should be ${due}`);
    const headers = readdirSync(join(at, l.HeadersPath, "Engine"));
    check(headers.sort().join() === "engine.h,module.modulemap", `${at}: headers ${headers}`);
    const own = readFileSync(join(at, l.HeadersPath, "Engine", "engine.h"));
    check(own.equals(readFileSync(join(folder, "include", "engine.h"))), `${at}: another header`);
    const file = join(at, l.LibraryPath);
    const bytes = (name) => readFileSync(join(folder, "lib", name, "libengine.a"));
    const archives = l.SupportedArchitectures.map((processor) => `${processor}-${system}`);
    if (archives.length === 1) check(readFileSync(file).equals(bytes(archives[0])), `${file} is not ${archives[0]}`);
    else {
        const found = slices(file);
        check(found.length === archives.length, `${file}: ${found.length} archives`);
        l.SupportedArchitectures.forEach((processor, k) => {
            const one = found.find((s) => s.processor === APPLE[processor]);
            check(one && one.bytes.equals(bytes(archives[k])), `${file} does not have ${archives[k]}`);
        });
    }
    return archives;
});
const apples = names.filter((n) => PLATFORMS[n.slice(n.indexOf("-") + 1)]);
check(covered.sort().join() === apples.sort().join(), `the XCFramework has ${covered}`);
console.log(`Engine.xcframework: ${parts.join(", ")}`);

const wasm = new WebAssembly.Module(readFileSync(join(folder, "wasm", "engine.wasm")));
check(WebAssembly.Module.imports(wasm).length === 0, "engine.wasm has imports");
const exported = WebAssembly.Module.exports(wasm).map((e) => e.name).sort();
check(exported.join() === [...wanted, "memory"].sort().join(), `engine.wasm exports ${exported}`);
console.log(`engine.wasm: ${wanted.length} calls and its memory, no imports`);
