#!/usr/bin/env python3
"""Writes the runs that `lcm_cases` plays: what is asked, what fails, where a life is stopped, and what all that is to come to.

usage, from the top of the repository:
    tests/runs.py              writes crates/lcm_cases/stdin
    tests/runs.py --check      tells how what is stored differs from what is written here, and which runs the model of working.py doesn't come to, of those of one
                               form some, at some moments of long lives; ends with 1 where there is something to tell
    tests/runs.py --play       tells the same of the model, of each run and at each moment of each life, in minutes
    tests/runs.py TITLE        prints the run of this title alone, behind the texts and the runs that it needs; ends with 1 where there is none
    tests/runs.py --titles     prints each title behind the name of its module

What is to be told, printed and left is written out by hand in the modules runs_*.py beside this one, or by the rules of docs/FORMATS.md and
docs/EVENTS.md in another language; nothing of it comes from the program. tests/README.md says how a run is written and where which are.
"""
import collections
import importlib
import json
import pathlib
import re
import sys

sys.dont_write_bytecode = True
import played
import run_parts

# The modules in the order in which they are played. A run may take what an earlier one kept.
ORDER = (
    *["run_texts", "runs_commands", "runs_sessions", "runs_routes", "runs_instantiations", "runs_descriptors", "runs_tasks", "runs_forward"],
    *["runs_rollbacks", "runs_cancels", "runs_stops", "runs_windows", "runs_command_line", "runs_turns", "runs_histories", "runs_journals", "runs_plans"],
    *["runs_grants", "runs_words", "runs_edges", "runs_framing", "run_operations", "runs_asks", "runs_scaling", "runs_healing", "runs_powers", "runs_terminations", "runs_troubles", "runs_lives"],
    *["runs_subscriptions", "runs_notices", "runs_deliveries", "runs_migrations", "runs_serving", "runs_wrong"],
)
TOP = pathlib.Path(__file__).resolve().parent.parent
STDIN, STDOUT = (TOP / "crates" / "lcm_cases" / name for name in ("stdin", "stdout"))


def modules():
    """All modules, whose titles and texts have distinct names."""
    for name in ORDER:
        it = importlib.import_module(name)
        # (a module may keep its runs in a list of its own, and begin nothing)
        if hasattr(it, "RUNS") and all(module.title != name for module in run_parts.MODULES):
            run_parts.begin(name)
            run_parts.MODULES[-1].runs.extend(it.RUNS)
    for what, names in ("title", [it[0] for it in all_runs()]), ("text", [it[0] for module in run_parts.MODULES for it in module.texts]):
        twice = sorted(it for it, count in collections.Counter(names).items() if count > 1)
        if twice:
            sys.exit("runs.py: the %s stands twice: %s" % (what, "; ".join(twice)))
    return run_parts.MODULES


def all_runs():
    return [it for module in run_parts.MODULES for it in module.runs]


def lines_of(title, texts, runs, wrong):
    """The lines of a module: its heading, which says how much stands behind it, its texts and its runs, each a line."""
    lines = [json.dumps({"text": name, "is": text}) for name, text in texts] + [json.dumps(run) for run in runs]
    size = sum(len(line) + 1 for line in lines)
    return [json.dumps({"module": title, "runs": len(runs), "wrong": len(runs) if wrong else 0, "bytes": size}), *lines]


def lines_of_module(module):
    return lines_of(module.title, module.texts, module.runs, module.wrong)


def written(lines):
    return "".join(line + "\n" for line in lines)


# ---- One run alone

def names_in(value):
    return set(re.findall(r'"\$(\w+)"', json.dumps(value)))


def kept_by(run):
    """The names that a run gives to texts."""
    return {act[1] for act in run[1:] if act[0] in ("keep", "keep records", "let")}


def alone(title):
    """The lines of the run of this title, and of the texts and the runs that it needs."""
    found = [(module, run) for module in modules() for run in module.runs if run[0] == title]
    if not found:
        sys.exit("runs.py: there is no run of this title: %s" % title)
    [(module, run)] = found
    texts, runs, needed = [], [run], names_in(run)
    for earlier in reversed(all_runs()[: all_runs().index(run)]):
        if kept_by(earlier) & needed:
            runs.insert(0, earlier)
            needed |= names_in(earlier)
    for text in reversed([it for module in run_parts.MODULES for it in module.texts]):
        if text[0] in needed:
            texts.insert(0, text)
            needed |= names_in(text[1])
    return lines_of("alone", texts, runs, module.wrong)


# ---- What is stored

def by_module(text):
    """The lines of each module of what is stored, by the name of the module and by their titles, and the headings."""
    stored, headings, module = {}, {}, None
    for line in text.splitlines():
        value = json.loads(line)
        if isinstance(value, dict) and "module" in value:
            module, headings[value["module"]] = stored.setdefault(value["module"], {}), value
        elif module is None:
            sys.exit("runs.py: no heading of a module stands first in what is stored")
        else:
            module["text " + value["text"] if isinstance(value, dict) else value[0]] = line
    return stored, headings


def differences():
    """What is stored otherwise than it is written here, each a line for a person."""
    here, here_headings = by_module(written(line for module in modules() for line in lines_of_module(module)))
    text = STDIN.read_text()
    there, there_headings = by_module(text)
    for module in [*here, *(it for it in there if it not in here)]:
        ours, stored = here.get(module, {}), there.get(module, {})
        yield from ("%s: not stored: %s" % (module, title) for title in ours if title not in stored)
        yield from ("%s: stored, but not written here: %s" % (module, title) for title in stored if title not in ours)
        yield from ("%s: stored otherwise: %s" % (module, title) for title in ours if title in stored and ours[title] != stored[title])
        if here_headings.get(module) != there_headings.get(module):
            yield "%s: its heading is %s, and stored is %s" % (module, here_headings.get(module), there_headings.get(module))
    if text != written(line for module in modules() for line in lines_of_module(module)):
        yield "crates/lcm_cases/stdin: not byte for byte as it is written here"
    yield from counts_that_differ()


def counts_that_differ():
    """The lines of the stored output, which is kept by hand, that don't say how many runs each module has."""
    stored = STDOUT.read_text().splitlines()
    for module in modules():
        line = "%s: %d runs, %d wrong" % (module.title, len(module.runs), len(module.runs) if module.wrong else 0)
        if line not in stored:
            yield "crates/lcm_cases/stdout: has no line: %s" % line
    line = "%d runs, %d wrong" % (len(all_runs()), sum(len(module.runs) for module in modules() if module.wrong))
    if stored[-1:] != [line]:
        yield "crates/lcm_cases/stdout: doesn't end with: %s" % line


# ---- The table of tests/README.md

def main_calls():
    """The main calls of each crate that docs/ARCHITECTURE.md names in the paragraph that begins with the crate."""
    page = (TOP / "docs" / "ARCHITECTURE.md").read_text()
    for paragraph in page.split("\n\n"):
        crate = re.match(r"\*\*(\w+)\*\*", paragraph)
        for said in re.findall(r"[Mm]ain (?:types? [^.;]*?, main )?calls? ([^.;]*)", paragraph) if crate else []:
            yield from ((crate[1], call) for call in re.findall(r"`((?:[A-Z]\w*::)?[a-z]\w*)`", said) if is_call(crate[1], call))


def is_call(crate, call):
    """Whether the sources of the crate have a function of this name."""
    sources = (it.read_text() for it in sorted((TOP / "crates" / crate / "src").glob("*.rt")))
    return any(re.search(r"\bfn %s\b" % call.split("::")[-1], it) for it in sources)


def table_faults():
    """What the table of tests/README.md, of which module tests which call, names that isn't there, or misses."""
    page = (TOP / "tests" / "README.md").read_text()
    rows = {crate: (calls, tested) for crate, calls, tested in re.findall(r"^\| `(\w+)` \| (.*?) ?\| (.*?) \|$", page, re.M)}
    titles, named = {module.title for module in modules()}, set()
    for crate, (calls, tested) in rows.items():
        yield from ("tests/README.md: %s has no call %s" % (crate, it) for it in re.findall(r"`([\w:]+)`", calls) if not is_call(crate, it))
        named |= set(re.findall(r"`(runs_\w+)`", tested))
        yield from ("tests/README.md: there is no %s" % it for it in re.findall(r"\b\w+\.sh\b", tested) if not (TOP / "tests" / it).exists())
    yield from ("tests/README.md: there is no module %s" % it for it in sorted(named - titles))
    yield from ("tests/README.md: no row names %s" % it for it in sorted(titles - named - {"run_texts", "run_operations"}))
    listed = {line.split(":")[0] for line in (TOP / "crates.txt").read_text().splitlines() if re.match(r"\w+:", line)}
    yield from ("tests/README.md: no row of the crate %s" % it for it in sorted(listed - set(rows)))
    yield from ("tests/README.md: the row of %s doesn't name its call %s" % it for it in main_calls() if it[0] in rows and "`%s`" % it[1] not in rows[it[0]][0])


def tell(faults):
    """Prints these, and ends with 1 where there are some."""
    print("".join(it + "\n" for it in faults), end="")
    sys.exit(1 if faults else 0)


def main(words):
    if words == ["--check"]:
        tell([*differences(), *table_faults(), *played.faults(is_patient=False)])
    if words == ["--play"]:
        modules()
        tell([*played.faults(is_patient=True)])
    if words == ["--titles"]:
        print("".join("%s: %s\n" % (module.title, it[0]) for module in modules() for it in module.runs), end="")
    elif words:
        print(written(alone(" ".join(words))), end="")
    else:
        STDIN.write_text(written(line for module in modules() for line in lines_of_module(module)), newline="")


if __name__ == "__main__":
    main(sys.argv[1:])
