#!/usr/bin/env bash
# Times the program on long scripts: how long one takes to be read, how much of that is JSON alone, how the report grows
# with the batches, what one large batch and what several clients cost, what a small change costs where there is much,
# and what publications cost. README.md, beside this file, says how to read what it prints. With words, it runs the
# scripts alone whose names begin with one of them.
set -euo pipefail

top=$(cd "$(dirname "$0")/.." && pwd)
work=$(mktemp -d)
trap 'rm -rf "$work"' EXIT

python3 - "$work" <<'PYTHON'
import json, sys
folder = sys.argv[1]
LONGEST = 16_777_216
head = '{"version":%d,"cluster":"c","nodes":[{"name":"a"}],"queues":[{"name":"q","executor":"create_index"}],"clients":'

def write(name, version, clients):
    text = (head % version) + clients
    room = LONGEST - len(text) - 1
    open(f"{folder}/{name}", "w").write(text + " " * (room if name.startswith("steps") else 0) + "}")

# 32 clients of 4,096 steps each, of about 125 bytes: all is read, and then refused as not built
step = '{"do":"watch","node":"a","pred":{"all":[{"index":"some-index"},{"not":{"alias":"an-alias"}}]},"timeout":1000000}'
steps = "[" + ",".join(["[" + ",".join([step] * 4096) + "]"] * 32) + "]"
write("steps_read", 1, steps)
# the same with a wrong version, at which the reader stops: the rest is JSON alone
write("steps_json_alone", 2, steps)
submits = lambda places: ['{"do":"submit","queue":"q","task":{"index":"index-%d"}}' % k for k in places]
for count in (707, 1414, 2828):
    steps = ",".join(submits(range(count)))
    write(f"batches_{count}", 1, "[[" + steps + "]]")
    # the same in one batch: all is submitted before the master's turn
    turns = ",".join(['"c0"'] * count + ['"m"'])
    write(f"together_{count}", 1, "[[" + steps + ']],"schedule":[' + turns + "]")
# four clients, each of which awaits a task before it submits the next one
for count in (500, 1000, 2000):
    clients = []
    for client in range(4):
        steps = [(submit, '{"do":"await","step":%d,"for":"task"}' % (2 * k))
                 for k, submit in enumerate(submits(range(client, count, 4)))]
        clients.append("[" + ",".join(step for pair in steps for step in pair) + "]")
    write(f"clients_{count}", 1, "[" + ",".join(clients) + "]")

def submit(queue, **task):
    return {"do": "submit", "queue": queue, "task": task}

# n indices are created, and then the last of them in byte order is changed n times, each time in a batch of its own
queues = [("make", "create_index"), ("set", "index_settings"), ("name", "aliases")]
for count in (350, 700, 1400):
    last = f"index-{count - 1:04}"
    replicas = lambda value: submit("set", index=last, key="index.number_of_replicas", value=value)
    changes = {
        "replicas": [replicas(k % 999 + 2) for k in range(count)],
        "unchanged": [replicas(1) for k in range(count)],
        "aliases": [submit("name", index=last, alias=f"alias-{k}", action="add") for k in range(count)],
    }
    for name, steps in changes.items():
        made = [submit("make", index=f"index-{k:04}") for k in range(count)]
        whole = {"version": 1, "cluster": "c", "nodes": [{"name": "a"}],
                 "queues": [{"name": queue, "executor": executor} for queue, executor in queues],
                 "clients": [made + steps]}
        open(f"{folder}/{name}_{count}", "w").write(json.dumps(whole, separators=(",", ":")))

def publications(name, nodes, steps):
    whole = {"version": 1, "cluster": "c", "nodes": [{"name": f"n{k}"} for k in range(nodes)],
             "queues": [{"name": queue, "executor": executor} for queue, executor in queues + [("glob", "cluster_settings")]],
             "clients": [steps]}
    open(f"{folder}/{name}", "w").write(json.dumps(whole, separators=(",", ":")))

# settings set one by one, each published to every node: by their number, and by the number of nodes
settings = lambda count: [submit("glob", key=f"key-{k % 20}", value=f"{k}") for k in range(count)]
for count in (125, 250, 500):
    publications(f"publish_{count}", 30, settings(count))
for nodes in (7, 14, 28):
    publications(f"nodes_{nodes}", nodes, settings(500))
# n indices created one by one, each acknowledged by every node before the next one: by their number on 30 nodes, and 500
# of them by the number of nodes
def acknowledged(name, nodes, count):
    steps = []
    for k in range(count):
        steps.append({**submit("make", index=f"index-{k:04}"), "ack": {"nodes": "all", "timeout": 30000}})
        steps.append({"do": "await", "step": 2 * k, "for": "ack"})
    publications(name, nodes, steps)
for count in (125, 250, 500):
    acknowledged(f"acks_{count}", 30, count)
for nodes in (7, 14, 28):
    acknowledged(f"acknodes_{nodes}", nodes, 500)
# n indices are created on four nodes, alone, and with 700 changes of the last of them behind
for count in (175, 350, 700):
    made = [submit("make", index=f"index-{k:04}") for k in range(count)]
    last = f"index-{count - 1:04}"
    changes = [submit("set", index=last, key="index.number_of_replicas", value=k % 999 + 2) for k in range(700)]
    publications(f"made_{count}", 4, made)
    publications(f"among_{count}", 4, made + changes)
PYTHON

wanted() {
    [ $# = 1 ] && return 0
    local name=$1 word
    shift
    for word in "$@"; do case $name in "$word"*) return 0 ;; esac; done
    return 1
}

# The instructions of one run, by callgrind, or nothing where there is none.
instructions_of() {
    command -v valgrind >"$work/where" || return 0
    valgrind --tool=callgrind --callgrind-out-file=/dev/null "$program" replay \
        <"$1" 2>"$work/said" >"$work/out" || true
    sed -n 's/.*Collected : \([0-9]*\).*/\1/p' "$work/said"
}

"$top/bin/esmaster" none </dev/null || true
program=$top/crates/esmaster/out/esmaster
names="steps_read steps_json_alone batches_707 batches_1414 batches_2828"
names="$names together_707 together_1414 together_2828 clients_500 clients_1000 clients_2000"
for kind in replicas unchanged aliases; do names="$names ${kind}_350 ${kind}_700 ${kind}_1400"; done
names="$names publish_125 publish_250 publish_500 nodes_7 nodes_14 nodes_28"
names="$names acks_125 acks_250 acks_500 acknodes_7 acknodes_14 acknodes_28"
for kind in made among; do names="$names ${kind}_175 ${kind}_350 ${kind}_700"; done
for name in $names; do
    wanted "$name" "$@" || continue
    best=
    for _ in 1 2 3 4 5; do
        /usr/bin/time -f '%e %M' -o "$work/time" "$program" replay <"$work/$name" >"$work/out" || true
        read -r seconds memory < <(tail -n 1 "$work/time")
        if [ -z "$best" ] || [ "$(echo "$seconds < $best" | bc)" = 1 ]; then best=$seconds; fi
    done
    case $name in
        steps*) count= ;;
        *) count=$(instructions_of "$work/$name") ;;
    esac
    printf '%-18s script %9d bytes  best of five %6s s  peak %8d kB  output %9d bytes' \
        "$name" "$(wc -c <"$work/$name")" "$best" "$memory" "$(wc -c <"$work/out")"
    if [ -n "$count" ]; then
        printf '  %12d instructions' "$count"
        # each script of a kind is twice as long as the one before it
        kind=${name%_*}
        if [ "${before_kind:-}" = "$kind" ]; then
            python3 -c "import math; print('  exponent %.2f' % math.log2($count / $before), end='')"
        fi
        before_kind=$kind
        before=$count
    fi
    echo
done
