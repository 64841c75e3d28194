"""Reads each example's waves as a viewer does: after each command, and after each delivery of a
pump, they show what `state` and `waiting` print, and count what `show` prints. What doesn't change
isn't told again.

The output of `lockup script --vcd` is taken apart into its signals and their values at each time.
Lines that differ in nothing but their blanks are shown as they are written. A script with an
invalid line has no waves, and its error is reported. What tools/gtkw writes for GTKWave names all
signals but the counts that stay 0, and GTKWave shows them.
"""
import os
import re
import tempfile
from itertools import takewhile

from harness import ROOT, each, lockup, needs, read, run, same, want, write
from harness.scripts import split
from harness.states import States, shown_scripts, states_of

# A pump that ends before all is delivered, one that finds nothing, and a line that leaves for another.
PUMPS = """cores 3
slices 2
lines 8
ways 1
sets 1
issue 0 0 store 0 5
issue 1 0 load 8
issue 2 0 load 0
pump 3
pump 40
pump 1
issue 0 1 load 32
pump 40
state 0
"""

Times = list[tuple[int, list[tuple[str, str]]]]

# the states in which a miss register waits for a line, and those in which it is being written back
MISSING = ("IS_D", "IM_AD", "IM_A", "SM_AD", "SM_A")
LEAVING = ("MI_A", "SI_A", "II_A")


def taken_apart(text: str) -> tuple[dict[str, str], Times]:
    """Returns the signals, by their codes, and for each time its number and what is said there, in
    order."""
    scopes, signals, times = [], {}, []
    words = iter(text.split())
    for word in words:
        if word == "$scope":
            scopes.append((next(words), next(words))[1])
        elif word == "$upscope":
            scopes.pop()
        elif word == "$var":
            kind, size, code, name = next(words), next(words), next(words), next(words)
            want((kind, size) in (("string", "1"), ("integer", "32")) and code not in signals,
                 f"a signal {kind} {size} {code}")
            signals[code] = "/".join([*scopes, name])
        elif word.startswith("#"):
            times.append((int(word[1:]), []))
        elif word.startswith("s"):
            times[-1][1].append((next(words), word[1:]))
        elif word.startswith("b"):
            times[-1][1].append((next(words), str(int(word[1:], 2))))
        elif word in ("$version", "$timescale"):
            while next(words) != "$end":
                pass
        else:
            want(word in ("$end", "$enddefinitions", "[31:0]"), f"a word {word}")
    return signals, times


def channel_of(message: str) -> tuple[str, str]:
    """Returns a channel's line and its name, from what `waiting` prints of the message in front of
    it."""
    _, channel, line, *cores = message.split("   ")[0].split()
    return line, channel[0] + ".".join(cores)


def values_of(state: str, messages: list[str]) -> dict[str, str]:
    """Returns the values that a line has to have, from what `state` and `waiting` print."""
    line, entry, cores = re.fullmatch(r"line (\d+) dir (\S+) .* cores (.*)", state).groups()
    found = {f"run/line{line}/directory": entry}
    found.update({f"run/line{line}/core{core}": copy for core, copy in enumerate(cores.split())})
    waiting = [name for at, name in map(channel_of, messages) if at == line]
    found[f"run/line{line}/in_flight"] = "+".join(waiting) or "-"
    found[f"run/line{line}/channels"] = str(len(waiting))
    return found


def shape_of(script: str) -> tuple[int, int]:
    """Returns how many cores and slices a script's machine has."""
    shape = {"cores": 2, "slices": 1}
    for line in split(script)[0]:
        name, *words = line.split()
        shape[name] = words[0] if words else ""
    return int(shape["cores"]), int(shape["slices"])


def counts_of(shape: tuple[int, int], held: list[str]) -> dict[str, str]:
    """Returns what each core has in use of each slice, from what `show` prints, one slice after
    another."""
    cores, slices = shape
    names = ("registers", "targets", "writebacks")
    found = {f"run/slice{slice}/core{core}/{name}": 0 for slice in range(slices) for core in range(cores) for name in names}
    slice = 0
    for words in map(str.split, held):
        if words[0] == "slice":
            slice += 1
        elif words[0] == "core":
            used = {"registers": words[2] == "line" and words[4] in MISSING, "targets": "awaits" in words,
                    "writebacks": words[2] == "line" and words[4] in LEAVING}
            for name, counts in used.items():
                found[f"run/slice{slice}/core{words[1]}/{name}"] += counts
    return {name: str(count) for name, count in found.items()}


def wanted_at(command: str, shape: tuple[int, int], states: States) -> dict[str, str]:
    values = {"run/command": re.sub("[^!-~]", "_", command), **counts_of(shape, states.held)}
    for state in states.lines:
        values.update(values_of(state, states.messages))
    return values


def deliveries_written_out(script: str) -> str:
    """Returns a script in which each delivery of a pump, as `--explain` has it, is a command, and the pump delivers no
    more."""
    config, commands = split(script)
    answers = iter(lockup("script", "--echo", "--explain", "-", text=script).out.split("\n"))
    found = list(config)
    for command in commands:
        while next(answers) != command:
            pass
        if command.split()[0] == "pump":
            found += takewhile(lambda it: it.startswith("deliver "), (it.split("   ")[0] for it in answers))
            command = "pump 0"
        found.append(command)
    return "\n".join(found) + "\n"


def waved_scripts() -> dict[str, str]:
    return {"pumps": PUMPS, **shown_scripts()}


@each(waved_scripts)
def test_waves(name: str) -> None:
    script = waved_scripts()[name]
    ran = lockup("script", "--vcd", "-", text=script)
    same("status and error", (0, ""), (ran.status, ran.err))
    signals, times = taken_apart(ran.out)
    commands, wanted = states_of(deliveries_written_out(script))
    pumps = iter(it for it in split(script)[1] if it.split()[0] == "pump")
    commands = [next(pumps) if it == "pump 0" else it for it in commands]
    same("times", list(range(len(commands) + 2)), [at for at, _ in times])
    same("begin and end", ([("c", "-")], []), (times[0][1], times[-1][1]))
    stands = {}
    for (at, said), command, states in zip(times[1:], commands, wanted):
        values = wanted_at(command, shape_of(script), states)
        # the command is always told, and else what changes
        changed = {name: value for name, value in values.items() if name == "run/command" or stands.get(name) != value}
        same(f"values at {at}", changed, {signals[code]: value for code, value in said})
        same(f"how many values there are at {at}", len(changed), len(said))
        stands.update(values)
    want(not commands or set(stands) == set(signals.values()), "there is a signal without a value")


def test_an_invalid_line() -> None:
    ran = lockup("script", "--vcd", "-", text="cores 1\nissue 0 0 add 0 5\nissue 0 ad\n")
    same("a script with an invalid line", (2, "", "lockup: line 3: not a command\n"), tuple(ran))


def test_an_empty_script() -> None:
    """The signals of the machine that it has are declared, and nothing is played."""
    for script in ("", "\n# nothing\n"):
        ran = lockup("script", "--vcd", "-", text=script)
        same("status and error", (0, ""), (ran.status, ran.err))
        signals, times = taken_apart(ran.out)
        of_cores = [f"run/slice0/core{core}/{it}" for core in (0, 1) for it in ("registers", "targets", "writebacks")]
        same("signals", ["run/command", *of_cores], list(signals.values()))
        same("times", [(0, [("c", "-")]), (1, [])], times)


def test_settings_for_gtkwave() -> None:
    """tools/gtkw names all signals in their order, each line's under its name."""
    waves = lockup("script", "--vcd", "-", text=shown_scripts()["two_upgrades_at_once"]).out
    with tempfile.TemporaryDirectory() as room:
        file = write(f"{room}/run.vcd", waves)
        ran = run([ROOT / "tools/gtkw", file], None)
        same("what is told", (0, f"gtkwave {room}/run.gtkw\n", ""), (ran.status, ran.out, ran.err))
        lines = read(f"{room}/run.gtkw").splitlines()
    same("the file of waves", f'[dumpfile] "{room}/run.vcd"', lines[0])
    # the longest value is deliver_data_0_0: 16 characters need more than half of a unit's 200 pixels
    want(any(it.startswith("*-0.000000 ") for it in lines), f"{lines[3]} is another zoom")
    shown = [it for it in lines if it.startswith(("run.", "-")) and it != "-"]
    # both cores miss, and neither writes a line back
    counts = [it for core in (0, 1) for it in (f"-slice0 core{core}", f"run.slice0.core{core}.registers",
                                               f"run.slice0.core{core}.targets")]
    same("signals", ["run.command", "-line0", "run.line0.directory", "run.line0.core0", "run.line0.core1",
                     "run.line0.in_flight", "run.line0.channels", *counts], shown)
    steps = [at for at, it in enumerate(lines) if it.endswith((".channels", ".registers", ".targets"))]
    same("counts", [["@8024", "@20000", "-"]] * len(steps), [[lines[at - 1], *lines[at + 1:at + 3]] for at in steps])


# in GTKWave's own language: each signal that is shown, and by which flags
ASK = """foreach signal [gtkwave::getDisplayedSignals] {
    puts "shown $signal [format %x [gtkwave::getTraceFlagsFromName $signal]]"
}
flush stdout
exit
"""


def test_gtkwave_shows_all() -> None:
    """GTKWave, asked which signals it shows by the settings of tools/gtkw, and how: texts, and numbers as steps."""
    needs("gtkwave", "xvfb-run")
    waves = lockup("script", "--vcd", "-", text=shown_scripts()["two_upgrades_at_once"]).out
    with tempfile.TemporaryDirectory() as room:
        run([ROOT / "tools/gtkw", write(f"{room}/run.vcd", waves)])
        asked = write(f"{room}/ask.tcl", ASK)
        ran = run(["xvfb-run", "-a", "gtkwave", "--save", f"{room}/run.gtkw", "--script", asked], env={**os.environ, "HOME": room})
    line = [f"run.line0.{it} 820" for it in ("directory", "core0", "core1", "in_flight")]
    counts = [f"run.slice0.core{core}.{it} 8024" for core in (0, 1) for it in ("registers", "targets")]
    shown = [it.removeprefix("shown ") for it in ran.out.splitlines() if it.startswith("shown ")]
    same("what is shown", ["run.command 820", *line, "run.line0.channels 8024", *counts], shown)
