"""Finds the wrong bodies that no longer compile. A check could not judge them."""

import re
import tempfile
from concurrent.futures import ThreadPoolExecutor

import edits
from copies import at_once, check, copied

# rt looks for this function after it has compiled the crate. There is none, so rt proves nothing.
NO_FUNCTION = "no_such::function"


def packed(bodies, folder):
    """Puts wrong bodies into few groups, so that the bodies of a group can be applied together."""
    packs = []
    for body in bodies:
        for pack in packs:
            try:
                pack["texts"] = edits.apply(body.changes, dict(pack["texts"]), folder)
            except edits.Fault:
                continue
            pack["bodies"].append(body)
            break
        else:
            packs.append({"texts": edits.apply(body.changes, {}, folder), "bodies": [body]})
    return [it["bodies"] for it in packs]


def fault_of(folder, bodies):
    """Why a copied crate with some wrong bodies does not compile, or None."""
    texts = {}
    for body in bodies:
        texts = edits.apply(body.changes, texts, folder)
    said = check(folder, texts, "--only", NO_FUNCTION)
    if f"has no function `{NO_FUNCTION}`" in said:
        return None
    why = next((it for it in said.split("\n") if "error" in it), said.strip().split("\n")[-1])
    return re.sub(": (help|note): .*", "", why)


def faults_of(folder, bodies):
    """The wrong bodies of a group that do not compile, each with the reason. If the group does not
    compile, each half is tried. Bodies that compile by themselves are no faults."""
    why = fault_of(folder, bodies)
    if not why:
        return []
    if len(bodies) == 1:
        return [f"{bodies[0].name}: {why}"]
    half = len(bodies) // 2
    return faults_of(folder, bodies[:half]) + faults_of(folder, bodies[half:])


def faults_of_crate(root, crate):
    """The faults of the wrong bodies of a crate, and the number of its groups."""
    bodies = edits.bodies_of(root, crate) + edits.must_fail(root, crate)
    packs = packed(bodies, f"{root}/crates/{crate}")
    with tempfile.TemporaryDirectory() as work:
        copied(root, crate, work)
        faults = [it for pack in packs for it in faults_of(f"{work}/crates/{crate}", pack)]
    return faults, len(packs)


def print_faults(root, crates):
    """Prints a line for each crate, and the faults of its wrong bodies. Returns whether there is one."""
    is_fault = False
    with ThreadPoolExecutor(at_once()) as pool:
        tried = pool.map(lambda it: faults_of_crate(root, it), crates)
        for crate, (faults, count) in zip(crates, tried):
            of = f"{count} group{'s' if count > 1 else ''} of wrong bodies"
            ends = f"{len(faults)} do not compile" if faults else "all compile"
            print("\n  ".join([f"{crate}: {of}, {ends}", *faults]), flush=True)
            is_fault = is_fault or bool(faults)
    return is_fault
