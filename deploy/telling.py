"""What `recallctl status` shows on any engine: a table of the partitions, what is stuck longest first.

A partition is told in the words of `--json`: times are in seconds, and what isn't there is `null`.

    partition, epoch          its number, and its epoch
    steps, replies, lag       how many steps there are, replies, and steps without one
    oldest                    how long the oldest step without a reply has waited
    lease                     `number`, and `lasts`: how long it still lasts unless it is renewed
    holder                    `host` and `pid` of who has the lease, or had it last; `for`: how long ago it was taken
    faults, fault             how often a worker ended with a fault, and the last: `ago`, `host`, `pid`, `status`, `why`
    stuck                     why nothing goes on, and what to do

The server is told by `at`, where it is, `words`, and `wrong`: what keeps it from going on.
"""

import argparse
import json

STUCK = 60  # (seconds for which the oldest step may wait)
HEADS = [
    "partition",
    "waits",
    "lag",
    "steps",
    "replies",
    "epoch",
    "lease",
    "worker",
    "for",
    "lasts",
    "faults",
    "last fault",
]


def time_of(seconds):
    """A time in its two largest units."""
    if seconds is None:
        return "-"
    if seconds < 10:
        return f"{max(seconds, 0):.1f}s"
    units = [("d", 86_400), ("h", 3600), ("m", 60), ("s", 1)]
    at = next(at for at, (_, size) in enumerate(units) if seconds >= size)
    words, rest = [], int(seconds)
    for unit, size in units[at : at + 2]:
        words.append(f"{rest // size}{unit}")
        rest %= size
    return " ".join(words)


def why_stuck(part, stuck):
    """Why nothing goes on in a partition, and what to do, or nothing."""
    waiting = f"{part['lag']:,} steps wait, the oldest for {time_of(part['oldest'])}"
    if part["lag"] and not part["lease"]:
        return f"{waiting}, and no worker has it: start one"
    if part["lag"] and part["oldest"] is not None and part["oldest"] > stuck:
        holder = part["holder"] or {"host": "?", "pid": "?"}
        return f"{waiting}: see what the worker on {holder['host']}, process {holder['pid']}, is at"
    return None


def row(part):
    """A partition's row of the table."""
    lease, holder, fault = part["lease"], part["holder"], part["fault"]
    who = f"{holder['host']} {holder['pid']}" if holder else "-"
    by = fault and f"{time_of(fault['ago'])} ago, {fault['host']} {fault['pid']}"
    return [
        str(part["partition"]),
        time_of(part["oldest"]),
        *(f"{part[word]:,}" for word in ("lag", "steps", "replies")),
        str(part["epoch"]),
        str(lease["number"]) if lease else "none",
        who if lease or not holder else f"(was {who})",
        time_of(holder["for"]) if lease and holder else "-",
        time_of(lease["lasts"]) if lease else "-",
        str(part["faults"]),
        f"{by}, status {fault['status']}: {fault['why'][:200]}" if fault else "-",
    ]


def aligned(rows):
    """Rows as lines: words to the left, figures to the right."""
    widths = [max(map(len, column)) for column in zip(*rows)]
    left = {HEADS.index(head) for head in ("worker", "last fault")}
    for words in rows:
        pairs = enumerate(zip(words, widths))
        yield "  ".join((word.ljust if at in left else word.rjust)(width) for at, (word, width) in pairs).rstrip()


def tell(name, server, parts, stuck, is_json):
    """Writes how these partitions are, and gives the status: 1 where one is stuck, else 0."""
    for part in parts:
        part["stuck"] = why_stuck(part, stuck)
    parts.sort(key=lambda part: (not part["stuck"], -(part["oldest"] or 0), part["partition"]))
    stopped = [part for part in parts if part["stuck"]]
    if is_json:
        print(json.dumps({"name": name, "server": server, "partitions": parts}))
    else:
        print("; ".join([f"{name} on {server['at']}", *server["words"], *server["wrong"]]))
        print("\n".join(aligned([HEADS, *map(row, parts)])))
        for part in stopped:
            print(f"stuck: partition {part['partition']}: {part['stuck']}")
    return 1 if stopped or server["wrong"] else 0


def nothing(name, server):
    """Why nothing can be told."""
    return f"nothing was put under the name {name} yet: name another by --name, or another server by --{server}"


def words_of(page, server, address):
    """The words of a `recallctl`, whose server is named by `--server`."""
    reader = argparse.ArgumentParser(description=page, formatter_class=argparse.RawDescriptionHelpFormatter)
    reader.add_argument("what", choices=["status"])
    reader.add_argument("partitions", type=int, nargs="*")
    reader.add_argument(f"--{server}", dest="server", default=address)
    reader.add_argument("--name", default="recall")
    reader.add_argument("--stuck", type=float, default=STUCK)
    reader.add_argument("--json", action="store_true")
    return reader.parse_intermixed_args()
