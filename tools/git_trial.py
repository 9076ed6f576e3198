#!/usr/bin/env python3
"""Takes a Git repository in whole and looks every commit up again.

    git_trial.py ASK REPOSITORY

Git writes the bundle (its commits, parents first, and its tags); to it are added a `find` and a `read` of
every commit and a `parent` for each of its parents. Every answer of ASK is compared with what Git says of the
commit. The repository may have up to 512 commits.
"""
import subprocess
import sys


def git(repository, *words):
    return subprocess.run(["git", "-C", repository, *words], check=True, capture_output=True, text=True).stdout


def main(program, repository):
    commits = git(repository, "log", "--all", "--topo-order", "--reverse", "--format=commit %H - %ct %P")
    names = git(repository, "for-each-ref", "--format=name %(objectname) %(refname:short)", "refs/tags")
    lines = [line.strip() for line in commits.splitlines() + names.splitlines()]
    due = ["place %d" % place for place in range(len(commits.splitlines()))] + ["kept"] * len(names.splitlines())
    order = git(repository, "log", "--all", "--topo-order", "--reverse", "--format=%H").split()
    places = {id: place for place, id in enumerate(order)}
    for id in order:
        date, *parents = git(repository, "show", "-s", "--format=%ct %P", id).split()
        lines += ["find " + id, "read %d" % places[id]]
        due += ["place %d" % places[id], "%s - %s %d" % (id, date, len(parents))]
        for number, parent in enumerate(parents):
            lines.append("parent %d %d" % (places[id], number))
            due.append("place %d" % places[parent])
        lines.append("parent %d %d" % (places[id], len(parents)))
        due.append("none")
    lines += ["count", "read %d" % len(order), "find " + "f" * 40]
    due += [str(len(order)), "none", "none"]
    done = subprocess.run([program], input="\n".join(lines) + "\n", capture_output=True, text=True)
    said = done.stdout.splitlines()
    for line, answer, got in zip(lines, due, said):
        if got != line + " -> " + answer:
            print("differs: got %r, due %r" % (got, line + " -> " + answer))
            return 1
    if done.returncode != 0 or len(said) != len(lines) + 1:
        print("status %d, %d lines for %d" % (done.returncode, len(said), len(lines) + 1))
        return 1
    print("%d commits taken in and looked up; %d lines answered as Git has it" % (len(order), len(lines)))
    return 0


if __name__ == "__main__":
    if len(sys.argv) != 3:
        print(__doc__)
        sys.exit(2)
    sys.exit(main(sys.argv[1], sys.argv[2]))
