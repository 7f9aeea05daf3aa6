"""Faults that are planted in hosts, packages and steps. The trial that each one names has to find it."""

import os

import trials
import made
from hosts import TOP, check
from processes import WRONG


def repository_is_seen(grid):
    grid.machines[1].write(os.path.join(TOP, "README.md"), "here")


def a_row_and_a_column_are_stopped(grid):
    for place in (0, 3):
        grid.machines[place].does("systemctl", "stop", grid.unit(place))


def a_bound_of_before(grid):
    host = grid.machines[2]
    host.write("/etc/systemd/system/gridfs-linked@2.service.d/memory.conf", "[Service]\nExecStartPre=\nMemoryMax=512M\n")
    host.shell("rm -rf /run/systemd/system.control && systemctl daemon-reload && systemctl restart gridfs-linked@2")


def a_bound_in_another_place(grid):
    grid.machines[3].does("sed", "-i", "s/Environment=MEMORY=/MemoryMax=/", "/usr/bin/gridfs-machine")


def a_metric_has_another_name(grid):
    grid.desk.does("sed", "-i", "s/gridfs_s3_waiting/gridfs_s3_waits/", "/usr/lib/gridfs/gridfs_s3/metrics.py")
    trials.objects(grid)


def a_module_is_left_out(grid):
    grid.desk.does("rm", "/usr/lib/gridfs/gridfs_s3/store.py")


def two_are_away(grid):
    grid.machines[1].power_off()
    grid.waits_for_nodes = lambda *_: None


def the_unit_is_not_enabled(grid):
    grid.machines[0].does("systemctl", "disable", grid.unit(0))


def one_has_the_old_plan(grid):
    bring = grid.bring
    grid.bring = lambda host, node: None if node == 0 else bring(host, node)


def packages_are(change):
    """The later packages of the grid, after a change of their files."""

    def plant(grid):
        def changed(room):
            made.make_later(room)
            change(room)

        grid.later = made.later(f"{grid.folder}.changed", grid.packages, changed)

    return plant


def appended(script, text):
    def change(room):
        with open(f"{room}/DEBIAN/{script}", "a", encoding="utf-8") as out:
            out.write(text)

    return change


def broken(room):
    with open(f"{room}/usr/bin/gridfs-node", "w", encoding="utf-8") as out:
        out.write("#!/bin/sh\nexit 2\n")


def installed(plant):
    """Has the later packages be installed on the first machine."""

    def planted(grid):
        plant(grid)
        grid.install(grid.machines[0], "gridfs", packages=grid.later)

    return planted


def the_unit_of_before(grid):
    grid.desk.shell("sed -i s/ExecReload=+/ExecReload=/ /usr/lib/systemd/system/gridfs-broker.service && systemctl daemon-reload")


# Of each fault how it is planted, and the trial that finds it.
FAULTS = {
    "the repository is seen": (repository_is_seen, trials.nothing_else),
    "a row and a column are stopped": (a_row_and_a_column_are_stopped, trials.files),
    "a unit has the bound of before": (a_bound_of_before, trials.bounds),
    "a bound is written where it does not hold": (a_bound_in_another_place, trials.bounds),
    "a metric has another name": (a_metric_has_another_name, trials.metrics),
    "the gateway lacks a module": (a_module_is_left_out, trials.objects),
    "one more is away": (two_are_away, trials.cut_off),
    "a unit is not enabled": (the_unit_is_not_enabled, trials.stopped),
    "a node has the plan of before": (one_has_the_old_plan, trials.lost),
    "a package restarts nodes": (packages_are(appended("postinst", "systemctl try-restart 'gridfs-linked@*'\n")), trials.changed),
    "the later program does not start": (packages_are(broken), trials.changed),
    "nodes run on without their package": (installed(packages_are(lambda room: os.unlink(f"{room}/DEBIAN/prerm"))), trials.removed),
    "the broker is not root's to signal": (the_unit_of_before, trials.over_a_broker),
    "a purge takes journals away": (installed(packages_are(appended("postrm", '[ "$1" != purge ] || rm -rf /var/lib/gridfs\n'))), trials.removed),
}


def is_found(folder, packages, lower, fault):
    plant, trial = fault
    grid = trials.Grid(folder, packages, lower)
    try:
        grid.begin()
        if trial is not trials.over_a_broker:
            grid.set_up()
            grid.waits_for_nodes()
            grid.puts()
        grid.later = made.later(folder, packages)
        plant(grid)
        try:
            trial(grid)
        except WRONG as wrong:
            return f"found: {str(wrong)[:150]}"
    finally:
        grid.end()
    check(False, f"{trial.__name__} does not find it")
