"""Cases of forgets: over what a server says, and at one store with its other clients."""

import random

import commands
from command_cases import ABC, OPENED, SNAPSHOT, TREE, codes, places, raw_pages, says, snapshots_texts, streams
from jobs import DAY
from naming import name_of
from texts import snapshot_text
from world_cases import TWO, X, restored, stored

DONE = ("done",)
GREATEST = 2**32 - 1


def texts_of(*rows):
    """Snapshots of hosts at times, by their names."""
    texts = [snapshot_text(host, time, 1, name_of(TREE)) for host, time in rows]
    return dict(sorted((name_of(text), text) for text in texts))


THREE = texts_of(("a", 1), ("a", 2), ("b", 1))


def page_of(names, more=False):
    return ("names", more, list(names))


def by_names(script):
    """A forget of some names, over replies."""
    one, two, three = THREE
    good = OPENED + [page_of(THREE), DONE, DONE, DONE]
    run = lambda *a, **k: script.forget([three, one], *a, **k)
    places(script, "forget", run, good)
    streams(script, "forget", run, good)
    for place in (1, 3, 4, 5):
        codes(script, "forget", run, good, place)
    for text, names, count in (("one twice", [two, two], 1), ("one that isn't listed", [ABC], 0),
                               ("one that isn't listed before one that is", [ABC, three], 1), ("all", [two, three, one], 3)):
        script.heading("forget: " + text)
        script.forget(names, says(*OPENED, page_of(THREE), *[DONE] * (count + 1)))
    script.heading("forget: neither names nor a policy")
    script.asked(["forget"], commands.forget, (), (0, 0))
    script.heading("forget: no snapshot is listed")
    script.forget([one], says(*OPENED, page_of([]), DONE))
    for text, pages in raw_pages("snapshot", THREE):
        script.heading("forget: " + text)
        script.forget([one, three], says(*OPENED, *pages, DONE, DONE, DONE))


def by_policy(script):
    """A forget by a policy, over replies."""
    rows = [("bytes", text) for text in THREE.values()]
    good = OPENED + [page_of(THREE), *rows, DONE, DONE]
    run = lambda *a, **k: script.keep(1, 0, *a, **k)
    places(script, "keep", run, good)
    streams(script, "keep", run, good)
    for place in (3, 5, 7):
        codes(script, "keep", run, good, place)
    script.heading("keep: a policy that keeps nothing")
    script.keep(0, 0, says(*good))
    for last, daily in ((0, 1), (1, 1), (2, 0), (0, 2), (GREATEST, 0), (0, GREATEST), (GREATEST, GREATEST)):
        script.heading(f"keep: {last} and {daily} days")
        script.keep(last, daily, says(*OPENED, page_of(THREE), *rows, DONE, DONE))
    script.heading("keep: no snapshot is listed")
    script.keep(1, 1, says(*OPENED, page_of([]), DONE))
    for text, data in snapshots_texts():
        both = dict(sorted({name_of(one): one for one in (data, *THREE.values())}.items()))
        script.heading("keep: a snapshot " + text)
        script.keep(1, 0, says(*OPENED, page_of(both), *[("bytes", one) for one in both.values()], *[DONE] * 4))
    script.heading("keep: one of another name")
    script.keep(1, 0, says(*OPENED, page_of([ABC]), ("bytes", SNAPSHOT), DONE))
    script.heading("keep: a page for the reply to a get")
    script.keep(1, 0, says(*OPENED, page_of(THREE), page_of(THREE), DONE))


def chosen_by_days(script):
    """Which rows of hosts a policy keeps."""
    for text, last, daily, rows in (
            ("a day ends with its last second", 0, 2, [("a", DAY - 1), ("a", DAY), ("a", DAY * 2 - 1)]),
            *[(f"a day without a snapshot isn't counted among {daily}", 0, daily, [("a", 0), ("a", DAY * 3), ("a", DAY * 9)]) for daily in (1, 2, 3)],
            ("the last ones may be of one day", 2, 1, [("a", 5), ("a", 6), ("a", 7)]),
            ("the last ones and the days are counted each for itself", 1, 2, [("a", 5), ("a", DAY), ("a", DAY + 1)]),
            ("a host that begins as another", 1, 0, [("a", 5), ("aa", 6), ("a", 7), ("aa", 8)]),
            ("hosts of all sorts", 1, 0, [("é", 5), ("e", 5), ("E", 5), ("é", 4), ("e ", 5)]),
            ("the greatest times", 0, 1, [("a", 2**64 - 1), ("a", 2**64 - 2), ("a", (2**64 - 1) // DAY * DAY - 1)])):
        script.heading("keep: " + text)
        texts = texts_of(*rows)
        script.keep(last, daily, says(*OPENED, page_of(texts), *[("bytes", one) for one in texts.values()], *[DONE] * len(rows)))


# Snapshots of three hosts, two of which begin alike.
HOSTS = texts_of(*[(host, DAY * day + second) for host in ("a", "aa", "é b") for day in (1, 2) for second in (0, 9)])


def of_one_host(script):
    """A policy for one host: what is of the others stays, whatever their times."""
    rows = [("bytes", text) for text in HOSTS.values()]
    good = OPENED + [page_of(HOSTS), *rows, DONE, DONE, DONE, DONE]
    for last, daily, host in ((1, 0, "a"), (0, 1, "a"), (0, 2, "aa"), (1, 2, "aa"), (3, 0, "é b"), (0, 1, "é b"), (GREATEST, 0, "a"), (1, 0, "b"),
                              (0, 1, "A"), (1, 0, "h" * 255)):
        script.heading(f"keep-of: {last} and {daily} days of {host[:9]}")
        script.keep_of(last, daily, host, says(*good))
    script.heading("keep-of: a policy that keeps nothing")
    script.keep_of(0, 0, "a", says(*good))
    script.heading("keep-of: no snapshot is listed")
    script.keep_of(1, 1, "a", says(*OPENED, page_of([]), DONE))
    script.heading("keep-of: a snapshot of another host that doesn't read")
    both = dict(sorted({name_of(one): one for one in (b"{}", *THREE.values())}.items()))
    script.keep_of(1, 0, "a", says(*OPENED, page_of(both), *[("bytes", one) for one in both.values()], *[DONE] * 4))


def foreseen(script):
    """What a forget would forget: it lists, and deletes nothing."""
    rows = [("bytes", text) for text in HOSTS.values()]
    good = OPENED + [page_of(HOSTS), *rows, DONE]
    run = lambda *a, **k: script.would_keep(1, 0, None, *a, **k)
    places(script, "would keep", run, good)
    for last, daily, host in ((1, 0, None), (0, 1, None), (1, 2, None), (GREATEST, 0, None), (0, 0, None), (1, 0, "a"), (0, 1, "aa"), (0, 2, "é b"), (1, 1, "b"),
                              (0, 0, "a")):
        script.heading(f"would keep: {last} and {daily} days of {host}")
        script.would_keep(last, daily, host, says(*good))
    names = list(HOSTS)
    for text, given in (("two", names[3:1:-1]), ("one twice and one of nothing", [names[5], ABC, names[5]]), ("none of them", [ABC]), ("all", names)):
        script.heading("would forget: " + text)
        script.would_forget(given, says(*good))
    script.heading("would forget: no snapshot is listed")
    script.would_forget(names, says(*OPENED, page_of([]), DONE))
    script.heading("would forget: a snapshot that doesn't read")
    script.would_forget([ABC], says(*OPENED, page_of([name_of(b"{}")]), ("bytes", b"{}"), DONE))


def equal_times(script):
    """Of snapshots of one time the one of the greater name is the later one."""
    texts = [snapshot_text("a", 7, token, name_of(TREE)) for token in range(4)]
    by_name = dict(sorted((name_of(text), text) for text in texts))
    for last, daily in ((1, 0), (0, 1), (2, 0), (3, 1)):
        script.heading(f"keep: of four of one time {last} and {daily} days")
        script.keep(last, daily, says(*OPENED, page_of(by_name), *[("bytes", one) for one in by_name.values()], *[DONE] * 4))


def filled(script):
    """A store with snapshots of two hosts: the clients that stored them."""
    script.fresh()
    return [stored(script, X, host, time) for host, time in (("a", DAY - 1), ("a", DAY), ("a", 100), ("b", 5))]


def worked(script):
    """Forgets, request by request."""
    for text, start in (("two names", lambda place: script.start_forget(place[2], place[0])),
                        ("a name twice and one of nothing", lambda place: script.start_forget(place[1], ABC, place[1])),
                        ("the last one", lambda place: script.start_keep(1, 0)),
                        ("the last of two days", lambda place: script.start_keep(0, 2)),
                        ("both", lambda place: script.start_keep(1, 2)),
                        ("all", lambda place: script.start_keep(GREATEST, 0))):
        script.heading("a forget at a store: " + text)
        place = filled(script)
        script.steps(start(place))
        script.finish(script.start_list())
        for client in place:
            restored(script, client)
        script.report()
    script.heading("a policy that keeps nothing is refused, and takes no number")
    filled(script)
    script.keep(0, 0)
    script.steps(script.start_keep(0, 1))
    script.steps(script.start_keep(0, 1))
    script.report()
    script.heading("what was forgotten is stored again, and nothing of it was lost")
    script.fresh()
    place = stored(script, TWO)
    script.finish(script.start_forget(place))
    again = stored(script, TWO, "a", 2, True)
    restored(script, place)
    restored(script, again)
    script.report()
    script.heading("a snapshot that doesn't read stays, and by a policy nothing is forgotten")
    place = filled(script)
    script.lay("snapshot", name_of(b"{}"), b"{}")
    script.steps(script.start_keep(1, 0))
    script.steps(script.start_forget(place[0], name_of(b"{}")))
    script.steps(script.start_keep(1, 0))
    script.report()


def laid(script, texts):
    """A store on whose shelf snapshots were laid: their names."""
    script.fresh()
    for name, text in texts.items():
        script.lay("snapshot", name, text)
    return list(texts)


def begun(script, kind):
    """A forget of two of three snapshots that were laid on the shelf."""
    names = laid(script, THREE)
    return script.start_forget(names[2], names[0]) if kind == "forget" else script.start_keep(1, 0)


def interrupted(script):
    """A forget whose lock is removed, or whose device fails, at each of its requests."""
    for kind, count, words in (("forget", 7, ("read", "unapplied", "applied")), ("keep", 9, ("unapplied", "applied"))):
        for steps in range(1, count):
            script.heading(f"a {kind} whose lock is removed after {steps} requests")
            client = begun(script, kind)
            for _ in range(steps):
                script.step(client)
            script.unlock_token(1)
            script.steps(client)
            script.late(client)
            script.report()
        for word in words:
            for steps in range(count):
                script.heading(f"a {kind} that meets a failure, {word}, at request {steps + 1}")
                client = begun(script, kind)
                for _ in range(steps):
                    script.step(client)
                script.fault_read(client, word)
                script.steps(client)
                script.report()


def beside(script):
    """A forget and other clients at once."""
    for exclusive in (False, True):
        script.heading("a forget beside " + ("an exclusive lock" if exclusive else "a shared one"))
        place = filled(script)
        script.ask(("ticket",), ("lock", 5, exclusive, 5, "b"))
        script.steps(script.start_forget(*place))
        script.ask(("unlock", 5))
        script.report()
    script.heading("others beside a forget")
    place = filled(script)
    forget = script.start_forget(*place)
    script.until(forget, "delete-snapshot")
    script.step(forget)
    script.finish(script.start_backup(TWO, "b", 9))
    script.finish(script.start_list())
    script.finish(script.start_keep(1, 0))
    script.steps(forget)
    script.report()
    script.heading("a forget that crashes after its first delete, and one of its deletes that comes late")
    place = filled(script)
    forget = script.start_forget(*place)
    script.until(forget, "delete-snapshot")
    script.step(forget)
    script.crash(forget)
    script.step(forget)
    script.unlock_token(5)
    again = stored(script, X, "a", 100)
    script.late(forget)
    restored(script, again)
    script.report()
    script.heading("a snapshot is gone before its delete comes")
    place = filled(script)
    forget = script.start_forget(*place)
    script.until(forget, "delete-snapshot")
    for snapshot in sorted(script.store.objects["snapshot"]):
        script.lift("snapshot", snapshot)
    script.steps(forget)
    script.report()


def many(script):
    """More than a page of snapshots."""
    texts = texts_of(*[("ab"[number % 2], number * DAY // 3) for number in range(300)])
    script.heading("300 snapshots, of which ten days are kept, then three snapshots, and then none")
    names = laid(script, texts)
    for last, daily in ((0, 10), (3, 0)):
        script.finish(script.start_keep(last, daily))
        script.finish(script.start_list())
    script.finish(script.start_forget(*names))
    script.report()


def by_chance(script):
    """Snapshots of some hosts at times by chance, and policies."""
    for seed in range(12):
        chance = random.Random(seed)
        script.heading(f"forgets by chance, {seed}")
        script.fresh()
        times = [chance.randrange(6) * DAY + chance.choice([-1, 0, 1, 7, DAY // 2]) + DAY for _ in range(6)]
        place = [stored(script, [], chance.choice(["a", "b", "é"]), chance.choice(times)) for _ in range(chance.randrange(1, 14))]
        script.finish(script.start_keep(chance.randrange(4), chance.randrange(1, 5)))
        script.finish(script.start_forget(*chance.sample(place, min(3, len(place)))))
        script.finish(script.start_keep(chance.randrange(1, 3), chance.randrange(3)))
        script.finish(script.start_list())
        script.report()


ALL = [by_names, by_policy, chosen_by_days, of_one_host, foreseen, equal_times, worked, interrupted, beside, many, by_chance]
