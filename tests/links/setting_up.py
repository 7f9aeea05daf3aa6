"""What deploy/links/setup makes, makes anew, and denies."""

import os
import shutil
import ssl
import subprocess
import time

from carrying import DEPLOY, PLAN, check, set_up

LOST = PLAN.replace("grid 1 2", "grid 2 1") + "replace 1\n"


def number_of(path):
    done = subprocess.run(["openssl", "x509", "-noout", "-serial", "-in", path], stdout=subprocess.PIPE, text=True, check=True)
    return done.stdout.strip().partition("=")[2]


def numbers(links):
    folder = os.path.join(links, "secret")
    return {name[:-4]: number_of(os.path.join(folder, name)) for name in os.listdir(folder) if name.endswith(".crt")}


def denied(links):
    with open(os.path.join(links, "denied"), encoding="ascii") as file:
        return file.read().split()


def first_seconds(path):
    """The second of the clock from which on a certificate is good."""
    done = subprocess.run(["openssl", "x509", "-noout", "-startdate", "-in", path], stdout=subprocess.PIPE, text=True, check=True)
    return ssl.cert_time_to_seconds(done.stdout.strip().partition("=")[2])


def set_up_status(folder, *words):
    done = subprocess.run([os.path.join(DEPLOY, "setup"), *words], cwd=folder, stdout=subprocess.PIPE, stderr=subprocess.PIPE, text=True)
    return done.returncode, done.stderr


def what_it_makes(_, folder):
    links = set_up(folder, PLAN)
    made = numbers(links)
    check(made.keys() == {"0", "1", "ann", "bob"}, f"it makes {sorted(made)}")
    open_to_others = [name for name in ("ca.key", "secret/0.key", "secret/ann.key") if os.stat(os.path.join(links, name)).st_mode & 0o077]
    check(not open_to_others, f"others may read {open_to_others}")
    set_up(folder, PLAN)
    check(numbers(links) == made, "certificates that are good are made anew")
    os.unlink(os.path.join(links, "secret", "bob.key"))
    set_up(folder, PLAN)
    changed = {name for name, number in numbers(links).items() if number != made[name]}
    check(changed == {"bob"}, f"anew are {changed}")
    set_up(folder, PLAN, "--days", "9000")
    check(not set(numbers(links).values()) & set(made.values()), "certificates that end soon are not made anew")
    for name in ("ca.crt", "ca.key"):
        os.unlink(os.path.join(links, name))
    made = numbers(links)
    set_up(folder, PLAN)
    check(not set(numbers(links).values()) & set(made.values()), "certificates of another authority are kept")


def what_a_late_clock_takes(_, folder):
    """A machine whose clock is an hour late takes what was made now, and so does one that is a day ahead."""
    links = set_up(folder, PLAN)
    for path in ("ca.crt", "secret/0.crt", "secret/ann.crt"):
        check(first_seconds(os.path.join(links, path)) < time.time() - 3600, f"{path} is not good for a clock that is late")
        for seconds in (-3600, 0, 86_400 * 300):
            words = ["-attime", str(int(time.time()) + seconds), "-CAfile", os.path.join(links, "ca.crt"), "-x509_strict", os.path.join(links, path)]
            done = subprocess.run(["openssl", "verify", *words], capture_output=True, text=True)
            check(done.returncode == 0, f"{path} at {seconds}: {done.stderr}")


def what_it_lists(_, folder):
    links = set_up(folder, PLAN)
    os.unlink(os.path.join(links, "secret", "bob.key"))
    set_up(folder, PLAN, "--days", "370")
    done = subprocess.run([os.path.join(DEPLOY, "setup"), "--list", links], capture_output=True, text=True)
    head, *rows = [line.split() for line in done.stdout.splitlines()]
    check(done.returncode == 0 and head == ["certificate", "ends", "days"], f"{done}")
    check([row[0] for row in rows] == ["0", "1", "ann", "bob", "ca"] and int(rows[3][2]) in (369, 370) and int(rows[4][2]) in (3649, 3650), f"{rows}")
    check(rows[0][1] == time.strftime("%Y-%m-%d", time.gmtime(time.time() + 365 * 86_400)) or time.strftime("%H:%M") < "00:05", f"{rows}")


def what_it_denies(_, folder):
    links = set_up(folder, PLAN)
    first = numbers(links)
    set_up(folder, PLAN, "--days", "9000")
    second = numbers(links)
    set_up(folder, PLAN, "--deny", "ann")
    check(sorted(denied(links)) == sorted([first["ann"], second["ann"]]), "a certificate from before it was made anew is not denied")
    check(numbers(links)["ann"] not in denied(links), "the new one is denied")
    set_up(folder, LOST)
    set_up(folder, LOST, "--deny", "1")
    check({first["1"], second["1"]} <= set(denied(links)) and len(denied(links)) == 4, f"denied are {denied(links)}")
    here = numbers(links)
    check(set_up_status(folder, "--deny", "0", "--deny", "zed", "links", "plan")[0] == 1, "a name without a certificate is denied")
    check(numbers(links) == here, "some are denied, and one has no certificate")
    set_up(folder, LOST, "--deny", "0", "--deny", "bob")
    check({here["0"], here["bob"]} <= set(denied(links)), f"not all who were named are denied: {denied(links)}")
    check(all(numbers(links)[name] != here[name] for name in ("0", "bob")), "no new certificates")
    check(all(numbers(links)[name] == here[name] for name in ("65", "ann")), "others have new certificates")
    check(numbers(links).keys() == {"0", "65", "ann", "bob"}, f"there are certificates of {sorted(numbers(links))}")


def what_it_refuses(_, folder):
    set_up(folder, PLAN)
    with open(os.path.join(folder, "odd"), "w", encoding="ascii") as out:
        out.write("grid 1\n")
    for words, status, says in (
        (["links"], 2, "a folder and a plan"),
        (["--list"], 2, "a folder is wanted"),
        (["--list", "links", "plan"], 2, "a folder is wanted"),
        (["--list", "none"], 1, "none/ca.crt: there is none"),
        (["--day", "3", "links", "plan"], 2, "no such word"),
        (["--days", "0", "links", "plan"], 2, "--days: 0"),
        (["--days", "x", "links", "plan"], 2, "--days: x"),
        (["--deny", "../ca", "links", "plan"], 2, "--deny: ../ca"),
        (["--deny", "zed", "links", "plan"], 1, "zed has been given no certificate"),
        (["links", "none"], 1, "can't be read"),
        (["links", "odd"], 1, "odd: line 1: form"),
    ):
        seen = set_up_status(folder, *words)
        check(seen[0] == status and says in seen[1], f"{words}: {seen}")
    shutil.rmtree(os.path.join(folder, "links", "secret"))
    with open(os.path.join(folder, "links", "ca.key"), "w", encoding="ascii") as out:
        out.write("no key\n")
    status, told = set_up_status(folder, "links", "plan")
    check(status == 1 and told.startswith("setup: openssl: "), f"a wrong key: {status} {told}")


CHECKS = [what_it_makes, what_a_late_clock_takes, what_it_lists, what_it_denies, what_it_refuses]
