#!/usr/bin/env python3
"""Makes load lines of an export of a ZooKeeper's znodes.

    python3 examples/export-znodes.py < EXPORT > LOAD

Each line of EXPORT is one znode, a JSON object. An `ephemeralOwner` of 0 is none. `data` is base64, or null:

    {"path":"/controller_epoch","data":"NQ==","version":4,"ephemeralOwner":0,"czxid":27,"mzxid":90,"pzxid":27}

Only `path` has to be there. An absent `data` is null, an absent `version` or `ephemeralOwner` 0, and an absent zxid 1.

The export can be made with kazoo, a ZooKeeper client for Python. The client has to be allowed to read the znodes. Run this
while no broker and no tool changes them:

    import base64, json
    from kazoo.client import KazooClient
    client = KazooClient(hosts="localhost:2181")
    client.start()
    def walk(path):
        data, s = client.get(path)
        print(json.dumps({"path": path, "data": base64.b64encode(data or b"").decode(), "version": s.version,
            "ephemeralOwner": s.ephemeralOwner, "czxid": s.czxid, "mzxid": s.mzxid, "pzxid": s.pzxid}))
        for name in client.get_children(path):
            walk(path.rstrip("/") + "/" + name)
    walk("/")

If Kafka stands in ZooKeeper below a path of its own (a chroot), add that path to `hosts`, as `zookeeper.connect` has it.

What is written: the header, and then each znode that the migration reads or needs, by rising path. Znodes with other paths
are left out. The owners are sessions of ZooKeeper, and are written as 1, 2, 3 and so on, in rising order.
"""

import base64
import json
import sys

# These paths, and those below them, are kept.
WITH_ALL_BELOW = ["/brokers/ids", "/brokers/topics", "/config", "/kafka-acl", "/kafka-acl-extended"]
# These are kept by themselves.
ALONE = ["/brokers", "/latest_producer_id_block", "/controller", "/controller_epoch", "/migration"]


# Longer data are written in base64, so that no line is too long for a load.
MOST_TEXT = 65536


def is_kept(path):
    return path in ALONE or any(path == top or path.startswith(top + "/") for top in WITH_ALL_BELOW)


def read_znode(line):
    """A znode as a dictionary with all members, each of its type."""
    given = json.loads(line)
    znode = {"path": given["path"], "data": base64.b64decode(given.get("data") or "", validate=True)}
    znode["path"].encode()
    for name, least in [("version", 0), ("ephemeralOwner", None), ("czxid", 1), ("mzxid", 1), ("pzxid", 1)]:
        number = int(given.get(name) or 0)
        znode[name] = number if least is None else max(least, number)
    return znode


def read_znodes(lines):
    """The znodes of an export that are kept, by rising path."""
    znodes = []
    for number, line in enumerate(lines, 1):
        if line.strip():
            try:
                znodes.append(read_znode(line))
            except (ValueError, TypeError, KeyError, AttributeError):
                sys.exit(f"export-znodes: line {number} is no znode")
    return sorted((znode for znode in znodes if is_kept(znode["path"])), key=lambda znode: znode["path"].encode())


def load_line(znode, session_of):
    """What a load reads of a znode: its data as a text where they are UTF-8, and its owner where it has one."""
    line = {name: znode[name] for name in ["path", "version", "czxid"]}
    line["mzxid"] = max(znode["czxid"], znode["mzxid"])
    line["pzxid"] = max(znode["czxid"], znode["pzxid"])
    try:
        line["text"] = znode["data"][:MOST_TEXT].decode()
    except UnicodeDecodeError:
        line["text"] = ""
    if line["text"].encode() != znode["data"]:
        del line["text"]
        line["bytes"] = base64.b64encode(znode["data"]).decode()
    if znode["ephemeralOwner"]:
        line["owner"] = session_of[znode["ephemeralOwner"]]
    return line


def main():
    sys.stdin.reconfigure(encoding="utf-8")
    sys.stdout.reconfigure(encoding="utf-8", newline="\n")
    znodes = read_znodes(sys.stdin)
    owners = sorted({znode["ephemeralOwner"] for znode in znodes} - {0})
    session_of = {owner: number for number, owner in enumerate(owners, 1)}
    lines = [load_line(znode, session_of) for znode in znodes]
    zxid = max([1] + [max(line["mzxid"], line["pzxid"]) for line in lines])
    for line in [{"sessions": list(session_of.values()), "zxid": zxid}] + lines:
        print(json.dumps(line, ensure_ascii=False, separators=(",", ":"), sort_keys=True))


main()
