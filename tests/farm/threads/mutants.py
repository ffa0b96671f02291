"""mutants.py TREE: puts the mutants of the running farm into TREE, which has the sources of this repository, each as a
crate of its own beside `pf_farm`; and has `pf_tests_farm` hold each of them to the tests that keep runs at the gate, in
modules that have the names of the mutants. It shortens the waits of these tests, so that one that waits in vain fails
soon.
mutants.py names: lists the tests of the farm as it is and of each mutant, with what has to become of each: `ok` or
`FAILED`."""
import os
import shutil
import sys

WORKERS = "workers.rt"
# What each mutant does, the old text, which is there once, the new one, and which tests have to fail.
MUTANTS = {
    "one_thread": (
        "all workers share one thread",
        "    let count = seats.len();\n",
        "    let count = 1;\n",
        ("gate_steal", "gate_two_trials"),
    ),
    "lock_round_a_slice": (
        "the lock is kept round a slice",
        "    match gate.slice(alloc, rt, due, scratch) {\n",
        "    let held = floor.shared.lock(rt);\n"
        "    let slice = gate.slice(alloc, rt, due, scratch);\n"
        "    drop(held);\n"
        "    match slice {\n",
        ("gate_steal", "gate_two_trials"),
    ),
    "hands_back_each_claim": (
        "a worker hands back each claim",
        "        Ok(parked) => Ok(HeldRun::new(claim, parked)),\n",
        "        Ok(_) => {\n            floor.hand_back(rt, seat, claim);\n            Err(NoMemory)\n        }\n",
        ("gate_steal", "gate_two_trials"),
    ),
    "never_parks": (
        "a worker never parks a run",
        "match seat.park(HeldRun::new(claim, parked)) {\n",
        "match Err::<(), HeldRun<N>>(HeldRun::new(claim, parked)) {\n",
        ("gate_steal",),
    ),
    "never_steals": (
        "a worker never steals a run",
        "    if let Some(run) = seat.steal() {\n",
        "    if let Some(run) = None::<HeldRun<N>> {\n",
        ("gate_steal",),
    ),
}
# The modules of the tests that use the farm, in which of them each test stands, and modules of other tests.
MODULES = ("calls", "scene", "stolen", "together")
TESTS = {"gate_steal": "stolen", "gate_two_trials": "together"}
OTHERS = ("closed", "seats")
# How many turns a wait has at most, fewer by as much as lets the real farm pass still: more than a second of a
# processor that has no other work.
WAITS = ("waiting.rt", "MOST_TURNS: u64 = 100_000_000;", "MOST_TURNS: u64 = 3_000_000;")


def text_of(path):
    with open(path, encoding="utf-8") as it:
        return it.read()


def put(path, text):
    with open(path, "w", encoding="utf-8") as it:
        it.write(text)


def change(path, old, new):
    """Replaces a text that is in the file once."""
    text = text_of(path)
    if text.count(old) != 1:
        sys.exit(f"{path}: this text is there {text.count(old)} times, and not once: {old}")
    put(path, text.replace(old, new))


def of_mutant(text, name):
    """The text of a file that uses the farm, with the mutant in its place."""
    text = text.replace("pf_farm::", f"pf_farm_{name}::").replace("Rattle.pf_farm.", f"Rattle.pf_farm_{name}.")
    for module in MODULES:
        text = text.replace(f"crate::{module}::", f"crate::{name}::{module}::")
    return text


def add_crate(tree, name):
    """A copy of the farm's sources that is the mutant."""
    _, old, new, _ = MUTANTS[name]
    src = f"{tree}/crates/pf_farm_{name}/src"
    shutil.copytree(f"{tree}/crates/pf_farm/src", src)
    for file in os.listdir(src):
        put(f"{src}/{file}", of_mutant(text_of(f"{src}/{file}"), name))
    change(f"{src}/{WORKERS}", old, new)


def add_tests(tree, name):
    """The tests of the mutant, as modules below one of its name."""
    src = f"{tree}/crates/pf_tests_farm/src"
    os.mkdir(f"{src}/{name}")
    for module in MODULES:
        put(f"{src}/{name}/{module}.rt", of_mutant(text_of(f"{src}/{module}.rt"), name))
    modules = "".join(f"mod {module};\n" for module in MODULES)
    put(f"{src}/{name}.rt", f"//! A mutant: {MUTANTS[name][0]}.\n\n{modules}")
    lib = f"{src}/lib.rt"
    put(lib, text_of(lib) + f"#[cfg(test)]\nmod {name};\n")


def add_lines(tree):
    """The mutants' lines of crates.txt, and their names in that of the tests."""
    lines = []
    for line in text_of(f"{tree}/crates.txt").splitlines():
        if line.startswith("pf_tests_farm"):
            line += "".join(f" pf_farm_{name}" for name in MUTANTS)
        lines.append(line)
        if line.startswith("pf_farm:"):
            lines += [line.replace("pf_farm:", f"pf_farm_{name}:", 1) for name in MUTANTS]
    put(f"{tree}/crates.txt", "\n".join(lines) + "\n")


def main(words):
    if words == ["names"]:
        for test, module in TESTS.items():
            print(f"{module}::{test} ok")
            for name, (_, _, _, fail) in MUTANTS.items():
                print(f"{name}::{module}::{test} {'FAILED' if test in fail else 'ok'}")
        return
    (tree,) = words
    tests = f"{tree}/crates/pf_tests_farm/src"
    file, old, new = WAITS
    change(f"{tests}/{file}", old, new)
    for module in OTHERS:
        change(f"{tests}/lib.rt", f"#[cfg(test)]\nmod {module};\n", "")
        os.remove(f"{tests}/{module}.rt")
    for name in MUTANTS:
        add_crate(tree, name)
        add_tests(tree, name)
    add_lines(tree)


main(sys.argv[1:])
