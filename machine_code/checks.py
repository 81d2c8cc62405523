"""All checks of a library, by function of its header."""
import collections
from functools import partial

import columns
import filters
import hashes
import headers
import keys
import library
import loading
import rates
from aarch64 import Aarch64
from machine import Setting
from values import Stop
from wasm import Wasm
from x86 import X86

MACHINES = {"x86-64": X86, "aarch64": Aarch64, "wasm": Wasm}


def machine_of(built):
    """What makes a machine for each call of a library, once its constructors have run."""
    kind = MACHINES[built.processor]
    built.flags = loading.flags_of(kind, built)
    machine = partial(kind, built)
    machine.size, machine.library = kind.size, built
    return machine


def checks_of(built):
    """By function what runs each of its checks, which raises Stop if something is not shown."""
    machine = machine_of(built)
    found = collections.defaultdict(list)
    for module in hashes, columns, keys, filters, rates, headers:
        for function, run in module.checks(machine):
            found[function].append(partial(on_each_setting, built, run))
    if found.keys() != library.PARAMETERS.keys():
        raise Stop(f"the header has other functions: {found.keys() ^ library.PARAMETERS.keys()}")
    return found


def on_each_setting(built, run):
    """With either value of each byte that constructors set and that is read."""
    settings = [{}]
    while settings:
        built.setting = settings.pop()
        try:
            run()
        except Setting as byte:
            settings += [{**built.setting, byte.args[0]: n} for n in (0, 1)]


def faults_of(runs):
    """The reasons why not all is shown, and of each an input for which a call is wrong, if one is known."""
    faults = {}
    for run in runs:
        try:
            run()
        except Stop as stop:
            faults[str(stop)] = faults.get(str(stop)) or getattr(stop, "input", None)
    return faults
