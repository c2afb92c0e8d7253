"""Compares the types that the compiler of the checkout writes with what another compiler says of the
same modules: the files tests/vectors/NAME.tsv, which `tools/asn1_oracle` wrote. Also calls the compiler with
words of each kind, and compares what it says."""
import errno
import os
import re
import subprocess
import tempfile

import checker
import growth
from checker import TOP, crates, text_of

VECTORS = f"{TOP}/tests/vectors"
# Types of a module of tests/trees that are compiled too. What asn1ct reads and would write otherwise is not compared.
SETS = ["Plain", "Classes", "Nested", "Wide"]
USES = ["der_asn1", "der", "der_core"]
# Types whose words are no words of small letters.
NAMES = {"AA": "Aa", "AB": "Ab", "ABC": "Abc"}

MAIN = """//! Reads the octets of vectors, and prints whether they are accepted.
#![tactic(auto)]

mod asn1;

use der::{{Decode, DecodeBytes, Encode, Error, SliceReader}};
use der_asn1::{{Enumerated, NamedInteger}};
use std::alloc::Global;
use std::io;

/// Whether the octets are accepted, and written again.
fn answer<'a, T>(alloc: Global, octets: &'a [u8]) -> &'static str
where
    T: Decode<SliceReader<'a>, Error = Error> + DecodeBytes<'a> + Encode + Drop,
{{
    let Ok(value) = T::from_der(alloc, octets) else {{
        return "refused";
    }};
    match value.to_der(alloc) {{
        Ok(written) if written.as_slice() == octets => "ok",
        _ => "written otherwise",
    }}
}}
{functions}
fn main(rt: HostRuntime) -> io::Result<()> {{
{calls}    Ok(())
}}
"""

FUNCTION = """
fn answers_{at}(rt: &HostRuntime) -> io::Result<()> {{
    let alloc = rt.alloc();
{lines}    Ok(())
}}
"""


def path_of(name):
    """The path of a module and of its vectors, without the end of its name."""
    return f"{TOP}/tests/trees/sets" if name == "sets" else f"{VECTORS}/{name}"


def rows_of(name):
    """The rows of a file: a type, octets, and the answer of the other compiler."""
    rows = [it.split("\t") for it in text_of(f"{path_of(name)}.tsv").splitlines() if not it.startswith("#")]
    return [it for it in rows if name != "sets" or it[0] in SETS and it[2] != "read"]


def names():
    return sorted([*(it[:-4] for it in os.listdir(VECTORS) if it.endswith(".tsv")), "sets"])


def rust_names(module, said):
    """The name in Rust of each type of a module, of which the compiler said this: in words of an upper-case
    letter and small ones, unless a warning says otherwise."""
    names = re.findall(r"^([A-Z][\w-]*) ::=", module, re.M)
    chosen = dict(re.findall(r": ([\w-]+): the name is `(\w+)` in Rust", said))
    return {it: chosen.get(it) or NAMES.get(it) or it for it in names}


def rust_types(folder, module, said):
    """How Rust writes each type of the crate: with a lifetime if it has one; the items of an enumeration
    stand in an ENUMERATED or an INTEGER, as the module says."""
    texts = "".join(text_of(f"{folder}/src/asn1/{it}") for it in sorted(os.listdir(f"{folder}/src/asn1")))
    found = {}
    for name, rust in rust_names(module, said).items():
        life = "<'_>" if re.search(rf"^pub (struct|enum|type) {rust}<'a>", texts, re.M) else ""
        found[name] = f"asn1::{rust}{life}"
        if f"impl Enumeration for {rust} " in texts:
            is_integer = re.search(rf"^{name} ::= INTEGER", module, re.M)
            found[name] = f"{'NamedInteger' if is_integer else 'Enumerated'}<asn1::{rust}>"
    return found


def program_text(types, rows):
    """The text of a program that prints an answer for each row."""
    functions, calls = "", ""
    for at in range(0, len(rows), 50):
        lines = ""
        for name, octets, _ in rows[at:at + 50]:
            listed = ", ".join(f"0x{octets[i:i + 2]}" for i in range(0, len(octets), 2))
            lines += f'    println!(rt; "{{}}", answer::<{types[name]}>(alloc, &[{listed}]))?;\n'
        functions += FUNCTION.format(at=at, lines=lines)
        calls += f"    answers_{at}(&rt)?;\n"
    return MAIN.format(functions=functions, calls=calls)


def answers(compiler, name, rows):
    """What the types of one module answer for each row."""
    with tempfile.TemporaryDirectory() as folder:
        words = [compiler, "--out", f"{folder}/vectors", f"{path_of(name)}.asn1"]
        ran = subprocess.run(words, stdin=subprocess.DEVNULL, check=False, text=True, capture_output=True)
        if ran.returncode:
            return (ran.stdout + ran.stderr).splitlines()
        os.remove(f"{folder}/vectors/src/lib.rt")
        types = rust_types(f"{folder}/vectors", text_of(f"{path_of(name)}.asn1"), ran.stderr)
        with open(f"{folder}/vectors/src/main.rt", "w", encoding="utf-8") as file:
            file.write(program_text(types, rows))
        ran = checker.try_unproved(f"{folder}/vectors", "vectors", USES + crates()["der_asn1"], [])
        return ran.stdout.splitlines() if not ran.returncode else (ran.stdout + ran.stderr).splitlines()


def compare(compiler, name):
    """Compares the answers for one module with those of the other compiler, and returns for each row whether
    it is the same."""
    rows = rows_of(name)
    said = answers(compiler, name, rows)
    if len(said) != len(rows):
        print("\n".join(said[-50:]))
        said = ["none"] * len(rows)
    for (of, octets, wanted), answer in zip(rows, said):
        if answer != wanted:
            print(f"test: vectors: {name}: {of} {octets} is {answer}, and {wanted} for asn1ct")
    held = [answer == wanted for (_, _, wanted), answer in zip(rows, said)]
    print(f"test: vectors: {name}: {sum(held)} of {len(held)} answers are those of asn1ct", flush=True)
    return held


def lists(folder, count):
    """The path of a module whose type is so many lists, each in the one before."""
    with open(f"{folder}/lists{count}.asn1", "w", encoding="utf-8") as file:
        file.write(f"Lists DEFINITIONS ::= BEGIN\nDeep ::= {'SEQUENCE OF ' * count}INTEGER\nEND\n")
    return file.name


def calls(folder):
    """Calls of the compiler, which may write to a folder: the words, the status, and the texts that it prints, to
    standard output for the help and the version, and else to standard error."""
    why = {it: os.strerror(it) for it in (errno.ENOENT, errno.EISDIR, errno.ENOTDIR)}
    module, partly = f"{checker.folder_of('asn1_compile')}/data/wrong.asn1", f"{VECTORS}/partly.asn1"
    joined = f"{VECTORS}/joined.asn1"
    return [
        (["--version"], 0, [f"asn1_compile {text_of(f'{TOP}/VERSION')}"]),
        (["--help"], 0, ["--out <FOLDER>", "--with <CRATE=FILE>", "--only <TYPE>", "<FILE>", "--help", "--version"]),
        ([], 2, ["error: ", "<FILE>", "Usage: asn1_compile "]),
        (["none.asn1"], 2, ["error: ", "'--out'", "'--schema'"]),
        (["--out", "made", "none.asn1", "other.asn1"], 2, ["error: ", "'--out'", "one file"]),
        (["--out", "made", "--schema", "made", "none.asn1"], 2, ["error: ", "'--out'", "'--schema'"]),
        (["--out", "made"], 2, ["error: ", "<FILE>"]),
        (["--out", "made", "none.asn1", "--loud"], 2, ["error: unexpected argument '--loud'"]),
        (["--out", "made", "none.asn1", "--with", "base"], 2, ["error: ", "'--with'"]),
        (["--out", "made", "none.asn1"], 1, [f"error: none.asn1: {why[errno.ENOENT]}"]),
        (["--out=made", "none.asn1"], 1, [f"error: none.asn1: {why[errno.ENOENT]}"]),
        (["none.asn1", "--with", "base=.", "--out", "made"], 1, [f"error: .: {why[errno.EISDIR]}"]),
        (["--out", f"{module}/made", f"{VECTORS}/explicit.asn1"], 1, [f"error: {module}/made: {why[errno.ENOTDIR]}"]),
        (["--out", f"{folder}/all", partly], 0, [
            f"warning: {partly}:4:24: Missing: Away is left out: expected a module that --with or --modules gives\n",
            f"warning: {partly}:10:39: EXTERNAL: Lost is left out: expected a type that the library knows\n",
            f"warning: {partly}:14:1: Loop: Loop is left out: expected a type that does not contain itself\n"]),
        (["--out", f"{folder}/one", "--only", "Kept", partly], 0, []),
        (["--out", f"{folder}/no", "--only", "Kept", "--only=Lost", partly], 1, [f"{partly}:10:39: found EXTERNAL, expected a type"]),
        (["--out", f"{folder}/no", "--only", "Away", partly], 1, [f"{partly}:4:24: found Missing, expected a module"]),
        (["--out", f"{folder}/joined", "--modules", f"{VECTORS}/joined", joined], 0, [
            f"warning: {joined}:6:25: Far: Lost is left out: expected a name that is not left out\n",
            f"warning: {VECTORS}/joined/outer.ASN:16:44: Choice: the name is `Choice_` in Rust\n"]),
        (["--out", f"{folder}/no", "--only", "Lost", "--modules", f"{VECTORS}/joined", joined], 1, [
            f"{joined}:6:25: found Far, expected a name that is not left out\n"]),
        (["--out", f"{folder}/no", "--modules", "none", joined], 1, [f"error: none: {why[errno.ENOENT]}"]),
        (["--out", f"{folder}/no", "--only", "Other", partly], 1, [f"{partly}:2:1: found Partly, expected a module that has"]),
        (["--schema", f"{folder}/table", f"{TOP}/asn1/visits.asn1", f"{TOP}/asn1/spki.asn1"], 0, ["Visits.Visit 0\n", "PublicKeyInfo.SubjectPublicKeyInfo "]),
        (["--schema", f"{folder}/table", f"{TOP}/asn1/pkcs8.asn1", f"{TOP}/asn1/spki.asn1", "--only", "SubjectPublicKeyInfo"], 0, [
            "PublicKeyInfo.SubjectPublicKeyInfo 0\n"]),
        (["--schema", f"{folder}/none/table", f"{TOP}/asn1/visits.asn1"], 1, [f"error: {folder}/none/table: {why[errno.ENOENT]}"]),
        (["--schema", f"{folder}/table", module], 1, [f"{module}:5:12: found Number, expected a type"]),
        (["--schema", f"{folder}/table", "--only", "Away", partly], 1, [f"{partly}:4:24: found Missing, expected a module"]),
        (["--schema", f"{folder}/table", "--only", "Visits.None", f"{TOP}/asn1/visits.asn1"], 1, ["found Visits, expected a module that has"]),
        (["--schema", f"{folder}/table", lists(folder, 63)], 0, ["Lists.Deep 0\n"]),
        (["--schema", f"{folder}/table", lists(folder, 64)], 1, [":2:778: found INTEGER, expected at most 63 types around a type"]),
        (checker.args_of("asn1_compile"), 1, [text_of(f"{checker.folder_of('asn1_compile')}/stderr")]),
    ]


def says(compiler, words, status, texts):
    """Whether the compiler ends a call with the status, and prints the texts where they belong, and nothing
    elsewhere."""
    folder = f"{checker.folder_of('asn1_compile')}/data"
    ran = subprocess.run([compiler, *words], cwd=folder, stdin=subprocess.DEVNULL, check=False, text=True,
                         capture_output=True)
    is_asked = {"--help", "--version"} & set(words) or "--schema" in words and not status
    printed, other = (ran.stdout, ran.stderr) if is_asked else (ran.stderr, ran.stdout)
    held = ran.returncode == status and not other and all(it in printed for it in texts)
    if not held:
        print(f"test: asn1_compile {' '.join(words)} says something else:\n{ran.stdout}{ran.stderr}")
    return held


def is_linear(compiler):
    """Whether the time for a module is linear in its number of types."""
    with tempfile.TemporaryDirectory() as folder:
        def measured(count):
            types = "".join(f"T{it} ::= INTEGER\n" for it in range(count))
            with open(f"{folder}/many.asn1", "w", encoding="utf-8") as file:
                file.write(f"Many DEFINITIONS ::= BEGIN\n{types}END\n")
            return growth.seconds([compiler, "--out", f"{folder}/many{count}", f"{folder}/many.asn1"])
        return growth.is_linear("asn1_compile", 50, measured)


def run_calls(compiler):
    """Makes each call, and returns whether it says what it should, and takes no more time than it should."""
    with tempfile.TemporaryDirectory() as folder:
        held = [*(says(compiler, *it) for it in calls(folder)), is_linear(compiler)]
        held.append(not os.path.exists(f"{folder}/no") and os.path.exists(f"{folder}/one/src/asn1/kept.rt"))
    print(f"test: asn1_compile: {sum(held)} of {len(held)} calls say what they should", flush=True)
    return held
