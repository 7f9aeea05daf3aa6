"""What stands before the gateways of several tenants: secrets, and nginx, which brings each request to the gateway of the tenant whose key signed it."""

import os
import secrets
from collections.abc import Mapping, Sequence
from dataclasses import dataclass
from pathlib import Path

from gridfs_client.plans import plan_of

NGINX = """\
# Before the gateways of S3: each request goes to the gateway of the tenant that its access key is of. Nobody is let in here: the gateway checks the
# signature. For TLS add a server with `listen ADDRESS:PORT ssl` and a certificate (docs/S3.md).
daemon off;
worker_processes {workers};
pid {folder}/nginx.pid;
error_log stderr warn;
worker_rlimit_nofile 34000;
events {{ worker_connections 16384; }}
http {{
    access_log off;
    server_tokens off;
    client_body_temp_path {folder}/temp-body;
    proxy_temp_path {folder}/temp-proxy;
    fastcgi_temp_path {folder}/temp-fastcgi;
    uwsgi_temp_path {folder}/temp-uwsgi;
    scgi_temp_path {folder}/temp-scgi;
    client_max_body_size 0;
    # names of headers as clients signed them
    underscores_in_headers on;
    ignore_invalid_headers off;
    large_client_header_buffers 8 16k;
    # the tenant of the key of a signature, in the header or in the URL, or of whoever a browser says that it is
    map "$http_authorization $args|$remote_user" $tenant {{
        "~Credential=(?<signer>[a-z]{{1,16}})(\\.[A-Za-z0-9_-]{{1,40}})?(/|%2[Ff])" $signer;
        "~^AWS (?<old_signer>[a-z]{{1,16}})(\\.[A-Za-z0-9_-]{{1,40}})?:" $old_signer;
        "~[ &]AWSAccessKeyId=(?<old_query>[a-z]{{1,16}})(\\.[A-Za-z0-9_-]{{1,40}})?(&|\\|)" $old_query;
        "~\\|(?<user>[a-z]{{1,16}})(\\.[A-Za-z0-9_-]{{1,40}})?$" $user;
        default "";
    }}
    # one address has a quarter of the connections at most, and so have all requests for one tenant; who names none is counted by his address alone
    limit_conn_zone $binary_remote_addr zone=addresses:10m;
    limit_conn_zone $tenant zone=tenants:1m;
    limit_conn_status 503;
    # who signs no request sends a form, asks for leave, or reads what anybody may: for a tenant that the URL names by ?X-Amz-Credential=, or by its host, as
    # carol.s3.example, or for the only one here
    map $host $by_host {{
        "~^(?<named>[a-z]{{1,16}})\." $named;
        default "";
    }}
    map "$request_method $http_origin $content_type" $by_browser {{
        "~^OPTIONS ." cors;
        "~*^POST .*multipart/form-data" form;
        "~^(GET|HEAD) " read;
        default "";
    }}
    # and of its gateways any, or the one that has the session of an upload
    map "$tenant:$arg_uploadId:$by_browser:$by_host" $gateway {{
        default "";
{map}
    }}
{upstreams}
    server {{
        listen {listen};
        error_page 400 414 494 /malformed;
        error_page 503 = @busy;
        limit_conn addresses 2048;
        limit_conn tenants 2048;
        error_page 401 = @who;
        error_page 403 = @nobody;
        error_page 402 = @cors;
        error_page 405 = @form;
        error_page 502 504 = @away;
        proxy_http_version 1.1;
        proxy_set_header Host $http_host;
        proxy_set_header Connection "";
        proxy_set_header X-Forwarded-For $remote_addr;
        proxy_set_header X-Forwarded-Proto $scheme;
        # (Expect is answered here, and not passed on; a signature may cover it)
        proxy_set_header X-Front-Expect $http_expect;
        # contents go through as they come: a gateway puts them into a file, once it has judged whose they are. A request is sent once: what a gateway has
        # begun is not given to another one
        proxy_request_buffering off;
        proxy_buffering off;
        # an answer's head, of whatever an object may be told with (else the gateway would count as away)
        proxy_buffer_size 64k;
        proxy_buffers 8 64k;
        proxy_busy_buffers_size 128k;
        proxy_next_upstream off;
        proxy_read_timeout 600s;
        proxy_send_timeout 600s;
        location / {{
            set $refused "$gateway $by_browser";
            if ($refused = " form") {{ return 405; }}
            if ($refused = " cors") {{ return 402; }}
            if ($gateway = "") {{ return 403; }}
            proxy_pass http://$gateway;
        }}
        location /-/ {{
            if ($gateway = "") {{ return 401; }}
            proxy_pass http://$gateway;
        }}
        location /minio/health/ {{ return 200 ''; }}
        location @who {{
            add_header WWW-Authenticate 'Basic realm="gridfs-s3", charset="UTF-8"' always;
            return 401 'An access key and its secret are required.\\n';
        }}
        location = /malformed {{
            internal;
            default_type application/xml;
            return 400 '<?xml version="1.0" encoding="UTF-8"?>\\n<Error><Code>BadRequest</Code><Message>The request is malformed, or its headers are too long.</Message></Error>';
        }}
        location @nobody {{
            default_type application/xml;
            return 403 '<?xml version="1.0" encoding="UTF-8"?>\\n<Error><Code>AccessDenied</Code><Message>No tenant here has this access key.</Message></Error>';
        }}
        location @form {{
            default_type application/xml;
            return 403 '<?xml version="1.0" encoding="UTF-8"?>\\n<Error><Code>AccessDenied</Code><Message>No tenant is named: before several, the URL of a form has ?X-Amz-Credential=ACCESS-KEY/ too.</Message></Error>';
        }}
        location @cors {{
            default_type application/xml;
            return 403 '<?xml version="1.0" encoding="UTF-8"?>\\n<Error><Code>AccessForbidden</Code><Message>No tenant is named: before several, leave is asked for signed URLs alone.</Message></Error>';
        }}
        location @busy {{
            default_type application/xml;
            add_header Retry-After 1 always;
            return 503 '<?xml version="1.0" encoding="UTF-8"?>\n<Error><Code>SlowDown</Code><Message>There are too many requests of this address, or for this tenant, at a time.</Message></Error>';
        }}
        location @away {{
            default_type application/xml;
            add_header Retry-After 1 always;
            return 503 '<?xml version="1.0" encoding="UTF-8"?>\\n<Error><Code>ServiceUnavailable</Code><Message>The gateway is away. Please retry.</Message></Error>';
        }}
    }}
}}
"""


@dataclass(frozen=True)
class Instance:
    """A gateway of a tenant: its name, which is the tenant's or that with a number, and its sessions, from the first to the last."""

    name: str
    tenant: str
    first: int
    last: int

    @property
    def sessions(self) -> str:
        return f"{self.first}-{self.last}"


def tenants_of(plan: bytes) -> dict[str, int]:
    """The tenants of a plan whose volumes can have names, each with its sessions: after the first volumes there are some of another shape. None where
    it is no plan, which a node tells."""
    try:
        tenants = plan_of(plan.splitlines()).tenants
    except (ValueError, IndexError):
        return {}
    return {name: told.sessions for name, told in tenants.items() if len(set(told.volumes)) > 1}


def instances_of(tenant: str, sessions: int, count: int) -> list[Instance]:
    """So many gateways of a tenant, but no more than it has sessions, which they share."""
    count = max(1, min(count, sessions))
    ends = [sessions * number // count for number in range(count + 1)]
    names = [tenant] if count == 1 else [f"{tenant}-{number}" for number in range(1, count + 1)]
    return [Instance(name, tenant, first + 1, last) for name, first, last in zip(names, ends, ends[1:])]


def make_keys(path: Path, name: str) -> str:
    """The secret of a tenant's own key, in a file of keys that is made where there is none; empty where that has only other keys."""
    try:
        with open(os.open(path, os.O_WRONLY | os.O_CREAT | os.O_EXCL, 0o600), "w") as out:
            out.write(f"{name} {secrets.token_urlsafe(30)}\n")
    except FileExistsError:
        pass
    lines = [line.split() for line in path.read_text().splitlines() if line.strip() and not line.startswith("#")]
    secrets_of = {words[0]: words[1] for words in lines if len(words) > 1}
    return secrets_of.get(name, "" if secrets_of else lines[0][0])


def nginx_conf(folder: Path, gateways: Mapping[str, Sequence[Instance]], sockets: Mapping[str, str], listen: str, workers: int = 1) -> str:
    """The configuration of nginx before the gateways of each tenant, whose sockets are known by their names. Of several one that is away is passed over
    for two seconds."""
    maps, upstreams = [], []
    for tenant, found in gateways.items():
        fails = "max_fails=0" if len(found) == 1 else "max_fails=1 fail_timeout=2s"
        for each in found if len(found) > 1 else ():
            numbers = "|".join(map(str, range(each.first, each.last + 1)))
            maps.append(f'        "~^{tenant}:({numbers})\\." gateway-{each.name};')
            upstreams.append(f"    upstream gateway-{each.name} {{ server unix:{sockets[each.name]} max_fails=0; keepalive 32; }}")
        maps.append(f'        "~^{tenant}:" gateway-{tenant};')
        maps.append(f'        "~^:.*:(cors|form|read):{"" if len(gateways) == 1 else f"{tenant}$"}" gateway-{tenant};')
        servers = " ".join(f"server unix:{sockets[each.name]} {fails};" for each in found)
        upstreams.append(f"    upstream gateway-{tenant} {{ {servers} keepalive 32; }}")
    return NGINX.format(folder=folder, listen=listen, workers=workers, map="\n".join(maps), upstreams="\n".join(upstreams))


def s3cmd_config(access: str, secret: str, host: str) -> str:
    return (
        f"[default]\naccess_key = {access}\nsecret_key = {secret}\nhost_base = {host}\nhost_bucket = {host}\nuse_https = False\n"
        "signature_v2 = False\nmultipart_chunk_size_mb = 32\n"
    )


def rclone_config(access: str, secret: str, host: str) -> str:
    return (
        f"[grid]\ntype = s3\nprovider = Other\naccess_key_id = {access}\nsecret_access_key = {secret}\nendpoint = http://{host}\n"
        "acl = private\nregion = us-east-1\nforce_path_style = true\nchunk_size = 32Mi\n"
    )


def write_private(path: Path, text: str) -> None:
    with open(os.open(path, os.O_WRONLY | os.O_CREAT | os.O_TRUNC, 0o600), "w") as out:
        out.write(text)


def write_for(folder: Path, name: str, host: str) -> None:
    """The files of one tenant: NAME.keys, where it is not there, and what s3cmd and rclone take by the tenant's own key."""
    secret = make_keys(folder / f"{name}.keys", name)
    if not secret:
        return
    write_private(folder / f"{name}.s3cfg", s3cmd_config(name, secret, host))
    write_private(folder / f"{name}.rclone", rclone_config(name, secret, host))
