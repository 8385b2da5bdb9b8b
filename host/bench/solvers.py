#!/usr/bin/env python3
"""Least costs of the jobs by mixed integer programming solvers, with their times.

    solvers.py [--limit SECONDS] [--solver NAME ..] [--write FOLDER] [JOB ..]

Writes model (1) of source document 000, with the first life of 001, and for jobs with removals model S1 of 001, for glpsol, cbc and
lp_solve (Debian: glpk-utils, coinor-cbc, lp-solve), runs each on one thread, compares the cost with TABLE.md and prints a table of times.
JOB is the beginning of a job's name; with none, all jobs are solved.
"""

import argparse
import os
import re
import resource
import shutil
import subprocess
import sys
import tempfile

JOBS = os.path.join(os.path.dirname(os.path.abspath(__file__)), "..", "..", "jobs")


def read_job(text):
    """The facts of a job text without faults: running steps, openings (running steps up to it, fee), parts (life, left, prices, removal,
    the places of the holders from 0)."""
    horizon, idles, openings, parts = None, [], [], []
    for line in text.split():
        key, value = line.split("=")
        value = int(value)
        if key == "horizon":
            horizon = value
        elif key == "idle":
            idles.append(value)
        elif key == "opening":
            openings.append([value - sum(idle <= value for idle in idles)])
        elif key == "fee":
            openings[-1].append(value)
        elif key == "life":
            parts.append([value])
        elif key == "left":
            parts[-1] += [value, [], 0, []]
        elif key == "removal":
            parts[-1][3] = value
        elif key == "holder":
            parts[-1][4].append(value - 1)
        elif key in ("price", "high"):
            parts[-1][2].append(value)
        elif key == "base":
            base = value
        elif key == "drop":
            drop = value
        elif key == "least":
            parts[-1][2] = [max(base - k * drop, value) for k in range(len(openings))]
    return horizon - len(idles), openings, parts


def windows(horizon, openings, life, left):
    """The sets of openings of which at least one changes the part: running steps 1 to R, with the idle ones before (0), and running steps
    k + 1 to k + L, where they end by the last. Each set once, and none that contains another."""
    ends = [(0, left)] + [(k + 1, k + life) for k in range(horizon)]
    sets = {
        tuple(j for j, (step, _) in enumerate(openings) if first <= step <= last)
        for first, last in ends
        if last <= horizon
    }
    return sorted(a for a in sets if not any(set(b) < set(a) for b in sets))


def model(job):
    """The objective as (coefficient, variable), the constraints as (terms, relation, bound), and the variables. All are binary: z for a
    stop, x for a change, y for a removal, which a job without removals and holders has no need of."""
    horizon, openings, parts = job
    objective = [(fee, f"z{j}") for j, (_, fee) in enumerate(openings)]
    constraints = []
    held = any(removal or holders for *_, removal, holders in parts)
    for i, (life, left, prices, removal, holders) in enumerate(parts):
        objective += [(price, f"x{i}_{j}") for j, price in enumerate(prices)]
        for j in range(len(openings)):
            if held:
                # (4) and (5) of model S1: x <= y <= z, and y of each holder is no less than y.
                objective.append((removal, f"y{i}_{j}"))
                below = [(f"x{i}_{j}", f"y{i}_{j}"), (f"y{i}_{j}", f"z{j}")] + [(f"y{i}_{j}", f"y{h}_{j}") for h in holders]
            else:
                below = [(f"x{i}_{j}", f"z{j}")]
            constraints += [([(1, less), (-1, more)], "<=", 0) for less, more in below]
        for window in windows(horizon, openings, life, left):
            if not window:
                sys.exit("a part has a window without openings: the job has no plan")
            constraints.append(([(1, f"x{i}_{j}") for j in window], ">=", 1))
    return objective, constraints, [name for _, name in objective]


def terms(pairs):
    return " ".join(f"{'-' if c < 0 else '+'} {abs(c)} {name}" for c, name in pairs)


def wrapped(words, width=200):
    """Lines of at most this width: some readers have a limit."""
    lines, line = [], ""
    for word in words.split(" "):
        if len(line) + len(word) > width:
            lines.append(line)
            line = ""
        line += " " + word
    return "\n".join(lines + [line])


def cplex_lp(objective, constraints, names):
    """The CPLEX LP format, which glpsol and cbc read."""
    text = "Minimize\n cost:" + wrapped(terms(objective)) + "\nSubject To\n"
    for number, (pairs, relation, bound) in enumerate(constraints):
        text += f" c{number}:" + wrapped(terms(pairs)) + f" {relation} {bound}\n"
    return text + "Binary\n" + wrapped(" ".join(names)) + "\nEnd\n"


def lp_solve_lp(objective, constraints, names):
    """The LP format of lp_solve."""
    text = "min:" + wrapped(terms(objective)) + ";\n"
    for number, (pairs, relation, bound) in enumerate(constraints):
        text += f"c{number}:" + wrapped(terms(pairs)) + f" {relation} {bound};\n"
    return text + "bin" + wrapped(", ".join(names)) + ";\n"


def found(pattern, text):
    match = re.search(pattern, text)
    return round(float(match.group(1))) if match else None


def glpsol(lp, limit, folder, options=()):
    report = os.path.join(folder, "glpsol.out")
    command = ["glpsol", "--lp", lp, "--tmlim", str(limit), "-o", report, *options]
    log = subprocess.run(command, capture_output=True, text=True, check=True).stdout
    with open(report, encoding="utf-8") as file:
        report = file.read()
    proved = "INTEGER OPTIMAL" in report and "TIME LIMIT" not in log
    return proved, found(r"Objective:\s+cost = (\S+)", report) if "INTEGER UNDEFINED" not in report else None


def cbc(lp, limit, folder):
    command = ["cbc", lp, "sec", str(limit), "threads", "0", "solve", "quit"]
    log = subprocess.run(command, capture_output=True, text=True, check=True).stdout
    return "Result - Optimal solution found" in log, found(r"Objective value:\s+(\S+)", log)


def lp_solve(lp, limit, folder):
    command = ["lp_solve", "-S4", "-timeout", str(limit), lp]
    log = subprocess.run(command, capture_output=True, text=True, check=False).stdout
    cost = found(r"Value of objective function:\s+(\S+)", log)
    return cost is not None and "suboptimal" not in log.lower(), cost


SOLVERS = {
    "glpsol": (glpsol, "cplex"),
    "glpsol --cuts": (lambda *arguments: glpsol(*arguments, options=["--cuts"]), "cplex"),
    "cbc": (cbc, "cplex"),
    "lp_solve": (lp_solve, "own"),
}


def solve(name, files, limit, folder):
    """Whether the solver proved a cost least, the cost, and its CPU time in seconds."""
    run, form = SOLVERS[name]
    before = resource.getrusage(resource.RUSAGE_CHILDREN)
    proved, cost = run(files[form], limit, folder)
    after = resource.getrusage(resource.RUSAGE_CHILDREN)
    return proved, cost, after.ru_utime + after.ru_stime - before.ru_utime - before.ru_stime


# Jobs whose row of TABLE.md is that of a walk cut short.
LEAST = {"14_full64_4": 2690, "15_full64_8": 3660}


def expected_costs():
    """Of each job the nodes of the walk and the least cost: that of the walk, or of the column of its own that jobs with holders have."""
    with open(os.path.join(JOBS, "TABLE.md"), encoding="utf-8") as file:
        rows = [[cell.strip() for cell in line.split("|")] for line in file if line.startswith("|")]
    return {row[1]: (int(row[2]), LEAST.get(row[1]) or int(row[9] if len(row) > 10 else row[4])) for row in rows if row[2].isdigit()}


def write(folder, name, job):
    """The model in both formats."""
    parts = model(job)
    files = {"cplex": os.path.join(folder, name + ".lp"), "own": os.path.join(folder, name + ".lps")}
    for form, render in (("cplex", cplex_lp), ("own", lp_solve_lp)):
        with open(files[form], "w", encoding="utf-8") as file:
            file.write(render(*parts))
    return files, len(parts[2]), len(parts[1])


def main():
    arguments = argparse.ArgumentParser(description=__doc__, formatter_class=argparse.RawDescriptionHelpFormatter)
    arguments.add_argument("--limit", type=int, default=60, help="seconds on the clock for each solver and job (the table has CPU seconds)")
    arguments.add_argument("--solver", action="append", choices=list(SOLVERS), help="only this one (may be repeated)")
    arguments.add_argument("--write", help="write the models to this folder and keep them")
    arguments.add_argument("job", nargs="*")
    options = arguments.parse_args()
    solvers = [name for name in options.solver or SOLVERS if shutil.which(name.split()[0])]
    missing = [name for name in options.solver or SOLVERS if name not in solvers]
    if missing:
        print("not installed:", ", ".join(missing), file=sys.stderr)

    wrong = 0
    print("| job | nodes | variables | constraints | least cost |" + "".join(f" {name}, s |" for name in solvers))
    print("|---|---|---|---|---|" + "---|" * len(solvers))
    with tempfile.TemporaryDirectory() as scratch:
        for name, (nodes, least) in expected_costs().items():
            if options.job and not any(name.startswith(job) for job in options.job):
                continue
            with open(os.path.join(JOBS, name + ".txt"), encoding="ascii") as file:
                job = read_job(file.read())
            files, variables, constraints = write(options.write or scratch, name, job)
            print(f"| {name} | {nodes} | {variables} | {constraints} | {least} |", end="", flush=True)
            for solver in solvers:
                proved, cost, cpu = solve(solver, files, options.limit, scratch)
                print(f" {cpu:.2f} |" if proved else f" > {cpu:.0f} (best {cost}) |", end="", flush=True)
                if cost is not None and (cost < least or (proved and cost != least)):
                    wrong += 1
                    print(f" WRONG: {cost} |", end="")
            print(flush=True)
    if wrong:
        sys.exit(f"{wrong} costs differ from TABLE.md")


if __name__ == "__main__":
    main()
