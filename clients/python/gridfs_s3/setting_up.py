"""Makes the folder of the gateways of S3 from a plan: access keys for each tenant with names, and the configuration of nginx before them.

    gridfs-s3-setup [--listen ADDRESS:PORT] [--gateways N] FOLDER PLAN     (/etc/gridfs/s3 /etc/gridfs/plan, as the units of systemd have it)

FOLDER gets NAME.keys, NAME.s3cfg and NAME.rclone of each tenant, nginx.conf, several and tmpfiles.conf, by which one unit has all gateways, and sysusers.conf, by which `systemd-sysusers FOLDER/sysusers.conf` makes a user for
each gateway. Once that is done, and setup is run again as root, the keys of a tenant can be read by the users of its gateways alone. Run again with a new plan it adds
the new tenants; keys that are there stay. A gateway's socket is /run/gridfs-s3-NAME/socket, as its unit has it. Nothing in FOLDER names FOLDER, so it may be copied to
another machine, links as links (cp -a). With --gateways each tenant has so many, NAME-1, NAME-2 and so on, each with a share of its sessions, which is told,
for the settings NAME-1.ini of each. The status is 1 where something can't be made, 2 where the words are no request.
"""

import argparse
import shutil
import sys
from collections.abc import Mapping, Sequence
from pathlib import Path

from gridfs_s3.front import Instance, instances_of, nginx_conf, tenants_of, write_for


FRONT = Path("/run/gridfs-s3-front")  # where nginx has its own files, as its unit has it


def set_up(folder: Path, plan: Path, listen: str, count: int) -> None:
    tenants = tenants_of(plan.read_bytes())
    if not tenants:
        sys.exit(f"setup: {plan}: no tenant has volumes for names, and others after them")
    folder.mkdir(mode=0o755, parents=True, exist_ok=True)
    for name in tenants:
        write_for(folder, name, listen)
    gateways = {name: instances_of(name, sessions, count) for name, sessions in tenants.items()}
    every = [each for found in gateways.values() for each in found]
    for each in every:
        if each.name != each.tenant:
            (folder / f"{each.name}.keys").unlink(missing_ok=True)
            (folder / f"{each.name}.keys").symlink_to(f"{each.tenant}.keys")
    (folder / "sysusers.conf").write_text(users_of(gateways))
    (folder / "several").write_text(lines_of(every))
    (folder / "tmpfiles.conf").write_text("".join(f"d /run/gridfs-s3-{each.name} 0750 gridfs-s3-{each.name} gridfs-s3\nd /var/cache/gridfs-s3-{each.name} 0700 gridfs-s3-{each.name} gridfs-s3\n" for each in every))
    lacking = [name for name in tenants if not give_to_group(folder / f"{name}.keys", f"gridfs-s3-{name}")]
    sockets = {each.name: f"/run/gridfs-s3-{each.name}/socket" for each in every}
    (folder / "nginx.conf").write_text(nginx_conf(FRONT, gateways, sockets, listen))
    print(f"setup: {folder}: {', '.join(f'{each.name} (session = {each.sessions})' for each in every)}")
    if lacking:
        print(f"setup: the users of {', '.join(lacking)} are not there: systemd-sysusers {folder}/sysusers.conf, and then this again", file=sys.stderr)


def users_of(gateways: Mapping[str, Sequence[Instance]]) -> str:
    """The users by which gateways run, each with a group; those of one tenant are in a group of that tenant."""
    lines = ["g gridfs-s3 -"]
    for tenant, found in gateways.items():
        if [each.name for each in found] != [tenant]:
            lines.append(f"g gridfs-s3-{tenant} -")
        for each in found:
            lines.append(f'u gridfs-s3-{each.name} - "gateway of S3 of {tenant}"')
            if each.name != tenant:
                lines.append(f"m gridfs-s3-{each.name} gridfs-s3-{tenant}")
    return "".join(f"{line}\n" for line in lines)


def lines_of(gateways: Sequence[Instance]) -> str:
    """The gateways for `gridfs-s3 --several`, as the unit gridfs-s3@NAME begins each of them."""
    lines = ["# A gateway a line; its files are in the folder of this one (docs/S3.md, Operating it)"]
    for name in (each.name for each in gateways):
        run, cache = f"/run/gridfs-s3-{name}", f"/var/cache/gridfs-s3-{name}"
        who = f"user=gridfs-s3-{name} group=gridfs-s3 GRIDFS_LOCKS={run}/locks TMPDIR={cache}"
        lines.append(f"{who} --config {name}.ini --keys {name}.keys --listen unix:{run}/socket --drain 30 --index {cache}/index")
    return "".join(f"{line}\n" for line in lines)


def give_to_group(path: Path, group: str) -> bool:
    """Lets a group read a file, and nobody else; whether there is such a group, and whoever runs this may do so."""
    try:
        shutil.chown(path, group=group)
        path.chmod(0o640)
        return True
    except (LookupError, PermissionError):
        return False


def main() -> None:
    parser = argparse.ArgumentParser(prog="gridfs-s3-setup", description=__doc__, formatter_class=argparse.RawDescriptionHelpFormatter)
    parser.add_argument("--listen", default="127.0.0.1:9000")
    parser.add_argument("--gateways", type=int, default=1)
    parser.add_argument("folder", type=Path)
    parser.add_argument("plan", type=Path)
    asked = parser.parse_args()
    try:
        set_up(asked.folder, asked.plan, asked.listen, asked.gateways)
    except OSError as fault:
        sys.exit(f"setup: {fault.filename}: {fault.strerror}")


if __name__ == "__main__":
    main()
