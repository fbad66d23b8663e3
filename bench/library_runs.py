"""What bench/library runs: each program in C of embed/, plain, with the sanitizers of the compiler and under valgrind; the runs of
examples/ again from C; the programs of docs/EMBEDDING.md as a new user would build them; and the real tanks of both languages.

Each function is told the folder of the library, a room for files, and the calls that check and run."""

import os
import re
import shutil
import subprocess
import sys
from pathlib import Path

TOP = Path(__file__).resolve().parent.parent
PAGE = (TOP / "docs/EMBEDDING.md").read_text(encoding="utf-8")

STRICT = ["-std=c99", "-Wall", "-Wextra", "-Wpedantic", "-Werror", "-O2"]
SANITIZED = ["-g", "-fsanitize=address,undefined", "-fno-sanitize-recover=all"]
VALGRIND = ["valgrind", "-q", "--error-exitcode=99", "--leak-check=full", "--errors-for-leak-kinds=all"]

# What a program is linked with besides, and its words.
WRAPPED = ["-Wl,--wrap=malloc,--wrap=realloc,--wrap=free"]
LINKED = {"growths": WRAPPED, "plant_growths": WRAPPED, "log_growths": WRAPPED, "real_tank": ["-pthread"], "plant": ["-pthread"]}
WORDS = {"cost": ["job", "64"], "drive": ["8", "64", "ahead"], "real_tank": ["1"]}

# How long the real tanks run, in seconds, and the setpoint that their operators are told.
SECONDS = 10
SETPOINT = 600
# In that time: 1,000 jobs of the sampler, 500 of the controller, 10 of the display, and one of the operator.
JOBS = f"{SECONDS * 151 + 1} jobs, {SECONDS * 151 + 1} committed, 0 late by the model"

# Stored reports that declare no set or have no entries.
REFUSED = {"257-items", "65-sets", "65-transactions", "carriage-returns", "empty", "nothing-ran"}


def reports():
    """The reports of the scenarios of examples/ that run."""
    for line in (TOP / "examples/LIST").read_text().splitlines():
        found = re.fullmatch(r"(\w+) 0 (run.*)", line)
        if found:
            yield TOP / f"examples/{found[1]}.{re.sub('[ -]+', '_', found[2])}.txt"


def words_of(name, program):
    """The words of a run of a program: for the one with a log a file beside it."""
    return [f"{program}.journal"] if name == "logged" else WORDS.get(name, [])


def inputs(name):
    """The files that a program in C reads, each in a run of its own."""
    if name == "report":
        stored = sorted((TOP / "crates/rtdb_tests/data").glob("*.report"))
        return [*reports(), *[file for file in stored if file.stem not in REFUSED]]
    if name == "refusals":
        return [TOP / "embed/refusals.txt"]
    return [None]


def entries_of(report):
    """The lines of a report that are entries."""
    lines = report.read_text().splitlines(keepends=True)
    return "".join(line for line in lines if line.split(" ")[0] in ("plan", "step", "block", "idle"))


def outputs(expected):
    """What a program has to print: of its input, or None where its status says enough."""
    return {
        "tank": lambda _: expected,
        "plant": lambda _: expected,
        "first": lambda _: shown_output("embed/first.c"),
        "report": entries_of,
    }


def try_programs(folder, room, check, run, expected):
    """Builds and runs each program of embed/."""
    if shutil.which("cc") is None:
        print("library: the programs in C are left out, there is no cc")
        return
    has_valgrind = shutil.which("valgrind") is not None
    if not has_valgrind:
        print("library: the programs in C do not run under valgrind, there is none")
    wanted, runs = outputs(expected), 0
    sources = sorted((TOP / "embed").glob("*.c"))
    for source in sources:
        name = source.stem
        link = [f"-I{folder}", f"-L{folder}", "-lrtdb", *LINKED.get(name, [])]
        for kind, more in (("plain", []), ("sanitized", SANITIZED)):
            program = room / f"{name}-{kind}"
            built = run(["cc", *STRICT, *more, str(source), "-o", str(program), *link])
            check(built.returncode == 0, f"{name} does not compile, {kind}")
            files = inputs(name) if built.returncode == 0 else []
            ways = [(file, []) for file in files]
            if kind == "plain" and has_valgrind:
                ways += [(file, VALGRIND) for file in files[:1]]
            for file, words in ways:
                done = run_on(file, [*words, str(program), *words_of(name, program)], run)
                how = f"{name}, {'under valgrind' if words else kind}{f', on {file.name}' if file else ''}"
                check(done.returncode == 0, f"{how}: the status is {done.returncode}")
                check(name not in wanted or done.stdout == wanted[name](file), f"{how}: it prints something else")
                runs += 1
    print(f"library: {len(sources)} programs in C, {runs} runs of them, and {len(inputs('report'))} reports again")


def run_on(file, words, run):
    with open(file or os.devnull, encoding="utf-8") as given:
        return run(words, stdin=given)


# ---- the page ----


def shown_code(path):
    """What docs/EMBEDDING.md shows of a file, part after part."""
    parts = re.findall(rf"^<!-- part of {re.escape(path)} -->\n```\n(.*?)^```$", PAGE, re.M | re.S)
    return "\n".join(parts)


def shown_output(path):
    """What the page says that the program of a file prints: the block behind the file's last part."""
    behind = PAGE[PAGE.rindex(f"<!-- part of {path} -->") :]
    return re.search(r"^prints\n\n```\n(.*?)^```$", behind, re.M | re.S)[1]


def shown_command(form):
    """The line of the page that begins so."""
    return re.search(rf"^    ({form}.*)$", PAGE, re.M)[1]


def try_new_user(folder, room, check):
    """In a folder with only the installed one, the code and the commands of the page make the programs of the page."""
    home = room / "user"
    shutil.copytree(folder, home / "FOLDER", ignore=shutil.ignore_patterns("target", "Cargo.lock"))
    by_pkg_config = re.search(r"`(PKG_CONFIG_PATH=FOLDER [^`]*)`", PAGE)[1] + " && ./first"
    ways = (
        ("embed/first.c", shown_command(r"cc first\.c "), "cc"),
        ("embed/first.c", by_pkg_config, "pkg-config"),
        ("rust/examples/first.rs", "cargo run", "cargo"),
    )
    for path, command, tool in ways:
        code = shown_code(path)
        check(code == (TOP / path).read_text(), f"the page shows other code than {path}")
        check(command.removesuffix(" && ./first") in PAGE, f"the page has no command {command}")
        if shutil.which(tool) is None:
            print(f"library: {path} as a new user is left out, there is no {tool}")
            continue
        if tool == "cargo":
            (home / "src").mkdir()
            (home / "src/main.rs").write_text(code)
            (home / "Cargo.toml").write_text(re.search(r"^```toml\n(.*?)^```$", PAGE, re.M | re.S)[1])
        else:
            (home / "first.c").write_text(code)
        plain = {name: value for name, value in os.environ.items() if name not in ("RTDB_LIB_DIR", "CARGO_TARGET_DIR")}
        done = subprocess.run(["sh", "-c", command], cwd=home, env=plain, capture_output=True, text=True)
        check(done.returncode == 0, f"{command} ends with {done.returncode}: {done.stderr[-400:]}")
        check(done.stdout == shown_output(path), f"{command} prints {done.stdout!r}")


# ---- the real tanks ----


def try_real(room, rust, check):
    """Runs the real tanks of both languages at once. Lateness is told and fails nothing: it is the machine's."""
    programs = {"C": room / "real_tank-plain", "Rust": rust}
    started = {}
    for language, program in programs.items():
        if program is None or not program.exists():
            print(f"library: the real tank in {language} is left out, it was not built")
            continue
        words = [str(program), str(SECONDS), str(room / f"journal-{language}")]
        started[language] = subprocess.Popen(words, stdin=subprocess.PIPE, stdout=subprocess.PIPE, text=True)
        started[language].stdin.write(f"{SETPOINT}\n")
        started[language].stdin.close()
    written = rf"step operator/0 \d+ write setpoint {SETPOINT}\0".encode()
    for language, process in started.items():
        lines = process.stdout.read().splitlines()
        status = process.wait()
        last = lines[-1] if lines else "nothing"
        check(status == 0, f"the real tank in {language} ends with {status}")
        check(len(lines) == SECONDS + 1, f"the real tank in {language} has {len(lines)} lines")
        check(re.match(rf"{SECONDS * 1000} ticks, ", last) and last.endswith(JOBS), f"the real tank in {language} tells {last}")
        journal = (room / f"journal-{language}").read_bytes()
        check(re.search(written, journal), f"the journal of the real tank in {language} has no setpoint {SETPOINT}")
        print(f"library: the real tank in {language}: {last}")
        sys.stdout.flush()
