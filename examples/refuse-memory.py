#!/usr/bin/env python3
"""Refuses each growth of memory in a run in turn, and looks at what the run leaves.

    python3 examples/refuse-memory.py PROGRAM [change | cluster] [FIRST [LAST]]

`change` is a replay that migrates an empty cluster, changes 65 configurations and writes them in two writes; `cluster` is the
replay of `whole-cluster.replay.jsonl` on what a load of `whole-cluster.load.jsonl` leaves. The N-th call of malloc or realloc
answers that there is no memory, for each N from FIRST to LAST, or to the last call of the run. Each such run ends with status 10,
or as with ample memory, or with 5 or 6 where a file wasn't opened; and what it prints is a front of what it prints with ample
memory. Then the files that it leaves are gone on with: by another controller, which ends in step with the log, or by `check`,
which ends with status 0. At the end stands one line: the statuses, and how many runs were otherwise. It needs a C compiler.
"""
import os
import subprocess
import sys
import tempfile

HERE = os.path.dirname(os.path.abspath(__file__))
SHIM = r"""
#define _GNU_SOURCE
#include <dlfcn.h>
#include <stdio.h>
#include <stdlib.h>
#include <unistd.h>
static long calls = 0, refused = -1;
static void *(*next_malloc)(size_t), *(*next_realloc)(void *, size_t);
__attribute__((constructor)) static void begin(void) {
    const char *at = getenv("REFUSED_CALL");
    if (at) refused = atol(at);
    next_malloc = dlsym(RTLD_NEXT, "malloc");
    next_realloc = dlsym(RTLD_NEXT, "realloc");
    calls = 0;
}
void *malloc(size_t bytes) {
    if (!next_malloc) next_malloc = dlsym(RTLD_NEXT, "malloc");
    return ++calls == refused ? NULL : next_malloc(bytes);
}
void *realloc(void *old, size_t bytes) {
    if (!next_realloc) next_realloc = dlsym(RTLD_NEXT, "realloc");
    return ++calls == refused ? NULL : next_realloc(old, bytes);
}
__attribute__((destructor)) static void end(void) {
    char line[64];
    if (getenv("TELL_CALLS") && write(2, line, snprintf(line, sizeof line, "calls %ld\n", calls)) < 0) return;
}
"""
CONFIGURATION = '{"kind":"Config","resourceType":4,"resourceName":"%d","name":"a","value":"1"}'
MIGRATION = """{"event":"quorum","ids":[3000]}
{"event":"start","controller":3000}
{"event":"elect","controller":3000}
{"event":"turn","controller":3000}
{"event":"check"}
"""
CHANGE = MIGRATION + '{"event":"change","controller":3000,"records":[' + ",".join(CONFIGURATION % n for n in range(1, 66)) + """]}
{"event":"step","controller":3000}
{"event":"step","controller":3000}
{"event":"check"}
{"event":"step","controller":3000}
{"event":"check"}
"""
TAKEOVER = """{"event":"quorum","ids":[3000,3001]}
{"event":"start","controller":3000}
{"event":"start","controller":3001}
{"event":"elect","controller":3001}
{"event":"turn","controller":3001}
{"event":"check"}
"""


def text_of(name):
    with open(os.path.join(HERE, name)) as it:
        return it.read()


def ends_closed(out):
    """Whether the last reply is that all paths agree, at the offset with which the run ends."""
    reply, end = out.decode().splitlines()[-2:]
    verdict, offset = reply.split()[1:]
    return verdict == "closed" and end.endswith(f" offset={offset} recorded={offset}")


def main():
    if len(sys.argv) < 2:
        sys.exit(__doc__.strip())
    program = os.path.abspath(sys.argv[1])
    of_cluster = sys.argv[2:3] == ["cluster"]
    with tempfile.TemporaryDirectory() as room:
        tree, log, shim = (os.path.join(room, it) for it in ("tree", "log", "shim.so"))
        with open(shim + ".c", "w") as it:
            it.write(SHIM)
        subprocess.run(["cc", "-O2", "-shared", "-fPIC", "-o", shim, shim + ".c", "-ldl"], check=True)

        def run(word, script, **more):
            more = {**os.environ, **({"LD_PRELOAD": shim} if more else {}), **more}
            end = subprocess.run([program, tree, log, word], input=script.encode(), capture_output=True, env=more)
            return end.returncode, end.stdout, end.stderr

        begun = run("load", text_of("whole-cluster.load.jsonl")) if of_cluster else run("init", "")
        script = text_of("whole-cluster.replay.jsonl") if of_cluster else CHANGE
        files = {}
        for path in (tree, log):
            with open(path, "rb") as it:
                files[path] = it.read()
        status, out, told = run("replay", script, TELL_CALLS="1")
        if begun[0] or status:
            sys.exit(f"with ample memory the run ends with status {begun[0]} and {status}")
        calls = int(told.split(b"calls ")[1].split()[0])
        first = int(sys.argv[3]) if len(sys.argv) > 3 else 1
        last = min(int(sys.argv[4]), calls) if len(sys.argv) > 4 else calls
        statuses, otherwise = {}, 0
        for call in range(first, last + 1):
            for path, contents in files.items():
                with open(path, "wb") as it:
                    it.write(contents)
            ended, printed, told = run("replay", script, REFUSED_CALL=str(call))
            statuses[ended] = statuses.get(ended, 0) + 1
            is_told = ended == 0 and printed == out or ended in (5, 6, 10) and out.startswith(printed)
            after = run("check", "") if of_cluster else run("replay", TAKEOVER)
            goes_on = after[0] == 0 and (of_cluster or ends_closed(after[1]))
            if not (is_told and goes_on):
                otherwise += 1
                print(f"call {call}: status {ended} {told!r}, then {after[0]} {after[2]!r}")
        print(f"calls {first} to {last} of {calls}: statuses {statuses}, otherwise {otherwise}")
        sys.exit(otherwise > 0)


main()
