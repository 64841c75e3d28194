"""Compiles the LLVM module of a program for a browser: a 32-bit WebAssembly module, which needs nothing that a telephone lacks.

The kit's clang, which wrote the module, prints it as text; the text is changed into what LLVM 16 reads; and LLVM 16 compiles it
with pointers of 64 bits, since sizes and offsets of these are in it. The wasm-opt of Debian then lowers its memory to 32 bits."""
import os
import re
import shutil
import subprocess
from typing import NamedTuple

import kit

SHIM = f"{kit.ROOT}/browser/shim.c"
# The tools by the Debian packages that have them.
PACKAGES = {"opt-16": "llvm-16", "llc-16": "llvm-16", "clang-16": "clang-16", "wasm-ld-16": "lld-16", "wasm-opt": "binaryen"}
TARGET = "wasm64-unknown-unknown"
LAYOUT = "e-m:e-p:64:64-p10:8:8-p20:8:8-i64:64-i128:128-n32:64-S128-ni:1:10:20"
# What the module needs of WebAssembly: what every browser of 2021 and later has.
FEATURES = ["--enable-sign-ext", "--enable-mutable-globals"]
STACK = 8 << 20
# At most 2 GiB, so that a program that asks for ever more says `no memory` in place of the browser ending its page.
MEMORY = 2 << 30


class Change(NamedTuple):
    """What a word of the module's text becomes, and what the lines that have it contain."""

    mark: str
    old: re.Pattern
    new: object


def splat(found):
    count, kind, value = found.groups()
    return f"<{count} x {kind}> <{', '.join([value] * int(count))}>"


# What LLVM 16 doesn't know yet, of which all but the first and the last only promise what a compiler may use; and the pause of
# an x86 processor in a loop that waits for a lock, which is no instruction elsewhere.
CHANGES = [
    Change(" ptrtoaddr ", re.compile(" ptrtoaddr "), " ptrtoint "),
    Change("captures(none)", re.compile(r"captures\(none\)"), "nocapture"),
    Change(" nneg ", re.compile(" (nuw nneg|nneg) "), " "),
    Change(" disjoint ", re.compile(" disjoint "), " "),
    Change("getelementptr", re.compile(r"getelementptr( inbounds)?( nuw| nusw)+ "), r"getelementptr\1 "),
    Change("trunc n", re.compile("trunc( nuw| nsw)+ "), "trunc "),
    Change(" samesign ", re.compile(" samesign "), " "),
    Change(" splat ", re.compile(r"<(\d+) x (\w+)> splat \((\w+ [^)]+)\)"), splat),
    Change("@llvm.x86.sse2.pause", re.compile(r"^ +(tail )?call void @llvm\.x86\.sse2\.pause\(\).*\n"), ""),
]
# Attributes of functions that are another processor's, or that LLVM 16 doesn't know.
ATTRIBUTES = re.compile(r'"(frame-pointer|probe-stack|stack-probe-size|target-cpu|target-features|tune-cpu|rattle-sig)"="[^"]*"'
                        "|sanitize_address|nocreateundeforpoison|nobuiltin")


def missing():
    """Returns the Debian packages that are needed and not installed."""
    return sorted({package for tool, package in PACKAGES.items() if not shutil.which(tool)})


def changed(line):
    """Returns a line of the module's text as LLVM 16 reads it."""
    if line.startswith("target datalayout"):
        return f'target datalayout = "{LAYOUT}"\n'
    if line.startswith("target triple"):
        return f'target triple = "{TARGET}"\n'
    if line.startswith("attributes "):
        # nothing unwinds there, and a group may not be empty
        return ATTRIBUTES.sub("", line).replace("{", "{ nounwind", 1)
    for it in CHANGES:
        if it.mark in line:
            line = it.old.sub(it.new, line)
    return line


def compile_module(kit_folder, room, module, to, without=None):
    """Compiles the file `module` into the file `to`, with what is between in the folder `room`. `without`, if it is given,
    takes what a text says that isn't wanted out of each line. Returns what was said where that fails, or None."""
    whole, text = f"{room}/whole.ll", f"{room}/text.ll"
    said = failed([f"{kit_folder}/toolchain/bin/clang", "-x", "ir", module, "-S", "-emit-llvm", "-Xclang", "-disable-llvm-passes",
                   "-o", whole])
    if said:
        return said
    with open(whole, encoding="utf-8") as lines, open(text, "w", encoding="utf-8") as out:
        out.writelines(changed(without(it) if without else it) for it in lines)
    os.remove(whole)
    for words in steps(room, text, to):
        said = said or failed(words)
    return said


def steps(room, text, to):
    """Returns the commands that compile the text into the file `to`."""
    best, program, shim, wide = f"{room}/best.bc", f"{room}/program.o", f"{room}/shim.o", f"{room}/wide.wasm"
    exports = [f"--export={it}" for it in ("main", "reset", "__stack_pointer", "__heap_base")]
    return [
        # What nothing calls goes first, so that no pass goes over it. Functions are copied into their callers more seldom than
        # by themselves: the page is a fifth smaller, and a walk takes a third longer.
        ["opt-16", "-passes=globaldce,default<O2>", "-inline-threshold=60", text, "-o", best],
        ["llc-16", "-O2", f"-mtriple={TARGET}", "-filetype=obj", best, "-o", program],
        ["clang-16", f"--target={TARGET}", "-O2", "-Wall", "-ffreestanding", "-fno-builtin", "-c", SHIM, "-o", shim],
        ["wasm-ld-16", "-mwasm64", "--no-entry", "--gc-sections", "--strip-all", "--stack-first", "-z", f"stack-size={STACK}",
         f"--max-memory={MEMORY}", *exports, program, shim, "-o", wide],
        ["wasm-opt", "--enable-memory64", *FEATURES, "--memory64-lowering", "-O2", "--strip-producers", "--strip-target-features",
         wide, "-o", to],
    ]


def failed(words):
    """Runs a command. Returns what it said where it fails, or None."""
    ran = subprocess.run(words, stdin=subprocess.DEVNULL, stdout=subprocess.PIPE, stderr=subprocess.STDOUT, text=True,
                         errors="replace")
    return (ran.stdout or f"{words[0]} fails")[-4000:] if ran.returncode else None
