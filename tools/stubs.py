#!/usr/bin/env python3
"""Makes libraries stand below a crate, so that the crate can be checked before they are proved here.

usage: tools/stubs.py NAME..     takes what `rt ci` has kept of the libraries below these crates, and builds
                                 a stub of each that it has not; a stub that stands is left
       tools/stubs.py --clear    removes all stubs

A stub has the types, definitions and contracts of its library, and bodies that cannot be reached: each calls a
foreign function that is assumed to promise everything. It is built in a fraction of the time of a proof, and `rt
check NAME` then takes it for the library. What is proved over stubs is as good as what they promise: `rt ci` reads
none of them, and only its word counts. The checkouts on a machine share their stubs, in a folder for temporary files.
"""
import fcntl
import hashlib
import os
import re
import shutil
import subprocess
import sys
import tempfile
import time
from concurrent.futures import ThreadPoolExecutor

import kit
from kit import KIT

STORE = f"{tempfile.gettempdir()}/stubs-of-libraries"
TOP = os.path.dirname(os.path.dirname(os.path.abspath(__file__)))
CALL = "{\n    crate::unreached::unreached();\n    unreachable!()\n}"
UNREACHED = """unsafe extern "C" {{
    fn {name}_is_a_stub() ensures {{ ⊥ }};
}}

pub(crate) fn unreached()
    ensures {{ ⊥ }}
{{
    unsafe {{ {name}_is_a_stub() }}
}}
"""
NAME_OF_FN = re.compile(r"\bfn\s+[A-Za-z_]\w*")
CLAUSE = re.compile(r"(requires|ensures|ghost|decreases)\b\*?")
TACTIC = r"\[tactic\((?:[^()]|\((?:[^()]|\([^()]*\))*\))*\)\]"
CYCLE = r"#\[cycle\(\w+\)\]\n(?=\s*(///[^\n]*\n\s*)*(#\[[^\n]*\n\s*)*(pub(\([a-z]+\))? )?(unsafe )?fn )"


def load():
    """The kit's rt, which sums up the crates' texts once."""
    module = kit.load(TOP)
    if hasattr(module, "STAMPS"):
        module.STAMPS.seen = {}
    return module


def behind_text(code, at):
    """The place behind a literal text that begins here."""
    at += 1
    while code[at] != '"':
        at += 2 if code[at] == "\\" else 1
    return at + 1


def behind_group(code, at, comments=True):
    """The place behind a bracket that opens here."""
    close, depth = {"{": "}", "(": ")", "[": "]", "<": ">"}[code[at]], 0
    opens = code[at]
    while True:
        if comments and code.startswith("//", at):
            at = code.index("\n", at)
        elif code[at] == '"':
            at = behind_text(code, at)
            continue
        elif char := re.match(r"'(\\.[^']*|[^'\\])'", code[at:]):
            at += char.end()
            continue
        elif code[at] == opens:
            depth += 1
        elif code[at] == close and code[at - 1 : at + 1] != "->":
            depth -= 1
            if depth == 0:
                return at + 1
        at += 1


def behind_space(code, at):
    while code[at].isspace() or code.startswith("//", at):
        at = code.index("\n", at) if code.startswith("//", at) else at + 1
    return at


def next_fn(code, at):
    """The next place behind `fn NAME` that is no comment, text or ghost item; None where there is none."""
    while at < len(code):
        if code.startswith("//", at):
            at = code.find("\n", at)
            if at < 0:
                return None
        elif code[at] == '"':
            at = behind_text(code, at)
        elif re.match(r"ghost\s+(use|view|Value)", code[at : at + 20]):
            at = code.index(";", at)
        elif found := NAME_OF_FN.match(code, at):
            return found.end()
        else:
            at += 1
    return None


def body_of(code, at):
    """Where the body begins of a function whose name ends here, or its semicolon."""
    at = behind_space(code, at)
    if code[at] == "<":
        at = behind_space(code, behind_group(code, at))
    at = behind_group(code, at)
    while True:
        at = behind_space(code, at)
        if CLAUSE.match(code, at):
            at = behind_group(code, code.index("{", at), comments=False)
        elif code[at] in "{;":
            return at
        elif code[at] in "([":
            at = behind_group(code, at)
        else:
            word = re.compile(r"\w+").match(code, at)
            at = word.end() if word else at + 1


def without_bodies(code):
    made, at = "", 0
    while (name := next_fn(code, at)) is not None:
        body = body_of(code, name)
        made += code[at:body] + (";" if code[body] == ";" else CALL)
        at = body + 1 if code[body] == ";" else behind_group(code, body)
    return made + code[at:]


def stubbed(code):
    code = re.sub(r"#\[cfg\(test\)\]\s*mod \w+;\n?", "", code)
    code = re.sub("#!" + TACTIC, "#![tactic(auto)]", code)
    code = re.sub("#" + TACTIC + r"\n?", "", code)
    return without_bodies(re.sub(CYCLE, "", code))


def names_proofs_of(name):
    """Whether another crate names a lemma of this one."""
    words = ["grep", "-rlE", rf"Rattle\.{name}\.proofs\.|\b{name}::proofs::", f"{TOP}/crates"]
    found = subprocess.run([*words, "--include=*.antt", "--include=*.rt"], capture_output=True, text=True)
    return any(f"/crates/{name}/" not in it for it in found.stdout.split())


def tests_in(folder, files):
    """The files of a folder that hold tests alone, which a stub has not."""
    codes = [open(f"{folder}/{it}").read() for it in files]
    return {f"{it}.rt" for code in codes for it in re.findall(r"#\[cfg\(test\)\]\s*mod (\w+);", code)}


def write_stub(crate, into):
    """Copies the crate without bodies and, where no other names a lemma of it, without proofs."""
    if os.path.isdir(f"{crate.folder}/specs"):
        shutil.copytree(f"{crate.folder}/specs", f"{into}/specs")
    os.makedirs(f"{into}/proofs")
    open(f"{into}/proofs/Lib.antt", "w").close()
    if names_proofs_of(crate.name):
        for it in os.scandir(f"{crate.folder}/proofs"):
            if it.is_file():
                shutil.copy(it.path, f"{into}/proofs/{it.name}")
            elif os.path.isfile(f"{it.path}.antt"):
                shutil.copytree(it.path, f"{into}/proofs/{it.name}")
    for folder, _, files in os.walk(f"{crate.folder}/src"):
        to = into + "/src" + folder[len(f"{crate.folder}/src") :]
        os.makedirs(to, exist_ok=True)
        for file in sorted({*files} - tests_in(folder, files)):
            code = stubbed(open(f"{folder}/{file}").read())
            if file == "lib.rt" and to == f"{into}/src":
                code += "\nmod unreached;\n"
            with open(f"{to}/{file}", "w") as it:
                it.write(code)
    with open(f"{into}/src/unreached.rt", "w") as it:
        it.write(UNREACHED.format(name=crate.name))


def words_for(crate):
    words = ["--crate-name", crate.name, "src/lib.rt"]
    for name in dict.fromkeys(["std", *crate.of_kit]):
        words += ["--extern", f"{name}={KIT}/rlibs/{name}.rlib"]
    words += ["-L", f"dependency={KIT}/rlibs"]
    for dep in crate.deps:
        words += ["--extern", f"{dep.name}={dep.rlib}"]
    for dep in crate.below():
        words += ["-L", f"dependency={os.path.dirname(dep.rlib)}"]
    words += ["--antt-project", f"{KIT}/rattle/logic/antt-project.json"]
    words += ["--logic-built", f"{KIT}/logic_built", "--links", f"{crate.name}=c"]
    return [*words, "--jobs", "1", "--statements", "-o", crate.rlib]


def text_in(file):
    try:
        with open(file) as it:
            return it.read()
    except OSError:
        return None


def note(crate, **texts):
    for name, text in texts.items():
        with open(f"{crate.folder}/out/rlib/{name}", "w") as it:
            it.write(text)


def built_below(crate):
    """What tells whether a library below was built anew."""
    files = [f"{it.rlib}/format" for it in crate.below()]
    return repr([os.stat(it).st_mtime_ns for it in files if os.path.exists(it)])


def identity(crate):
    """What tells this library's build from others, in every checkout."""
    out = f"{crate.folder}/out/rlib"
    return text_in(f"{out}/stub_key") or text_in(f"{out}/kept") or repr(crate.stamp())


def stub_key(kept, crate):
    below = [(it.name, identity(it)) for it in crate.below()]
    read = (kept.key(crate), names_proofs_of(crate.name), below)
    return hashlib.sha256(repr(read).encode()).hexdigest()


def build_stub(crate):
    """Builds the stub, and tells whether that went well."""
    began = time.time()
    with tempfile.TemporaryDirectory(prefix="stub-") as into:
        write_stub(crate, into)
        words = [f"{KIT}/bin/rattle", "build", *words_for(crate)]
        ran = subprocess.run(words, cwd=into, capture_output=True, text=True)
    if not os.path.isdir(crate.rlib):
        print(f"{crate.name}: no stub\n{(ran.stdout + ran.stderr)[-1500:]}")
        return False
    print(f"{crate.name}: a stub, in {time.time() - began:.0f} s", flush=True)
    return True


def make_stub(kept, crate):
    """Takes the stub that a checkout on this machine has built, or builds it, and tells whether that went well."""
    out, key = f"{crate.folder}/out/rlib", stub_key(kept, crate)
    shutil.rmtree(out, ignore_errors=True)
    os.makedirs(STORE, exist_ok=True)
    with open(f"{STORE}/{key}.lock", "w") as lock:
        fcntl.flock(lock, fcntl.LOCK_EX)
        if os.path.isdir(f"{STORE}/{key}"):
            shutil.copytree(f"{STORE}/{key}", out)
        else:
            os.makedirs(out)
            if not build_stub(crate):
                return False
            shutil.copytree(out, f"{STORE}/{key}.part", dirs_exist_ok=True)
            os.rename(f"{STORE}/{key}.part", f"{STORE}/{key}")
    note(crate, stamp=crate.stamp(), stub=built_below(crate), stub_key=key)
    return True


def take_kept(kept, crate, key):
    """Takes what a run of rt ci kept of the library, and tells whether there was any."""
    if not os.path.isdir(kept.place(crate, False, key)):
        return False
    shutil.rmtree(f"{crate.folder}/out/rlib", ignore_errors=True)
    os.makedirs(f"{crate.folder}/out/rlib")
    if not kept.give(crate, False, key):
        return False
    note(crate, stamp=crate.stamp(), kept=key)
    return True


class NothingKept:
    """What a kit keeps whose `rt ci` keeps nothing."""

    def key(self, crate):
        return crate.stamp()

    def place(self, crate, tests, key):
        return ""

    def is_built(self, crate):
        pass


def make_stand(kept, crate, proved):
    """Makes the library stand, and tells whether it does; `proved` are the names of those that are no stubs."""
    stub = text_in(f"{crate.folder}/out/rlib/stub")
    over_proved = all(it.name in proved for it in crate.below())
    if crate.is_built() and stub is None and over_proved:
        kept.is_built(crate)
        proved.add(crate.name)
        return True
    # (a stub that stands is not given up for what was kept since: all above it would have to be built again)
    if crate.is_built() and stub is not None and stub == built_below(crate):
        return True
    if over_proved and take_kept(kept, crate, kept.key(crate)):
        kept.is_built(crate)
        proved.add(crate.name)
        return True
    return all(it.is_built() for it in crate.deps) and make_stub(kept, crate)


def main(names):
    if names == ["--clear"]:
        for it in os.listdir(f"{TOP}/crates"):
            if os.path.exists(f"{TOP}/crates/{it}/out/rlib/stub"):
                shutil.rmtree(f"{TOP}/crates/{it}/out/rlib")
        return 0
    if not names or names[0].startswith("-"):
        print(__doc__.split("\n\n")[1])
        return 2
    os.chdir(TOP)
    rt = load()
    crates = rt.crates_of(TOP) if hasattr(rt, "Kept") else rt.rtlib.crates_below(TOP)
    by_name, proved = {it.name: it for it in crates}, set()
    kept = rt.Kept(crates) if hasattr(rt, "Kept") else NothingKept()
    needed = {it.name: it for name in names for it in by_name[name].below()}
    runs = {}

    def stand(crate):
        # (each library is begun after those below it, so none waits for one that has no turn)
        return all(runs[it.name].result() for it in crate.below()) and make_stand(kept, crate, proved)

    with ThreadPoolExecutor(os.cpu_count()) as pool:
        for it in needed.values():
            runs[it.name] = pool.submit(stand, it)
    return 0 if all(it.result() for it in runs.values()) else 1


if __name__ == "__main__":
    sys.exit(main(sys.argv[1:]))
