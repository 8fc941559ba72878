"""Cases of versions: upgrades over replies and at a store, old clients, and stores and snapshots of version 2."""

from command_cases import codes, places, say, streams
from line_cases import plays
from naming import name_of
from prune_cases import mixed, replies_to
from prunes import Upgrade
from texts import config_text, snapshot_text, tree_text
from world_cases import TWO, X, restored, stored

TAKEN = [("token", 7), ("done",)]
UNLOCKED = ("done",)
# What `upgrade` asks at a store of version 1: a ticket, the lock, the config, the upgrade, the unlock.
REQUESTS = 5


def over_replies(script):
    """An upgrade over what a server says."""
    good = replies_to(Upgrade(), mixed())
    assert len(good) == REQUESTS
    places(script, "upgrade", script.upgrade, good)
    streams(script, "upgrade", script.upgrade, good)
    codes(script, "upgrade", script.upgrade, good, 3)
    for text, config in (("of version 2", config_text(version=2)), ("of version 3", config_text(version=3)),
                         ("of version 0", config_text(version=0)), ("that is no text", b"{"),
                         ("of version 2 with chunks that are too small", config_text(63, version=2))):
        script.heading("upgrade: a config " + text)
        said = [*TAKEN, ("bytes", config), UNLOCKED]
        script.upgrade(b"".join(say(number, what) for number, what in enumerate(said, 1)))


def under(script, *asks, exclusive=True):
    """A store, a lock with token 1, and requests."""
    script.ask(("ticket",), ("lock", 1, exclusive, 5, "a"), *asks)


def asked(script):
    """The request itself: under which tokens, and over which configs."""
    script.heading("an upgrade under a token that was never live, is fresh, was ended, or is shared")
    script.fresh()
    script.ask(("upgrade", 9), ("ticket",), ("upgrade", 1), ("lock", 1, False, 5, "a"), ("upgrade", 1), ("unlock", 1), ("upgrade", 1),
               ("config",))
    script.report()
    for text, config in (("of version 1", config_text(64, 256, 7, 2_048)), ("of version 2", config_text(version=2)),
                         ("of version 3", config_text(version=3)), ("that is no text", b"{"), ("above its limit", bytes(65_537)),
                         ("of version 1 with a member more", config_text()[:-1] + b',"x":[1]}'),
                         ("of version 1 with spaces", b" " + config_text(identity="0f" * 16) + b" "),
                         ("of version 1 with chunks that are too small", config_text(63))):
        script.heading("an upgrade over a config " + text)
        script.shelf()
        script.config(config)
        under(script, ("upgrade", 1), ("config",), ("upgrade", 1))
        script.report()
    script.heading("an upgrade where there is no config")
    script.shelf()
    under(script, ("upgrade", 1), ("config",))
    script.heading("an upgrade of a store that only appends")
    script.shelf()
    script.append_only()
    script.init()
    under(script, ("upgrade", 1), ("config",), ("delete", 1, "pack", name_of(b"")))
    script.report()


def failing(script):
    """The request while the device fails, on a config of version 1 and of version 2."""
    for version in (1, 2):
        for word in ("read", "kept read", "applied", "unapplied"):
            script.heading(f"an upgrade of version {version} while the device fails, {word}")
            script.shelf()
            script.config(config_text(version=version))
            under(script)
            if word == "read":
                script.restart()
            script.arm(word.removeprefix("kept "))
            script.ask(("upgrade", 1), sequence=3)
            script.disarm()
            script.ask(("config",), ("locks",), sequence=4)
            script.report()


def at_a_store(script):
    """Upgrades as clients, and other clients behind them."""
    script.heading("an upgrade, and another one, which has nothing to do")
    script.fresh()
    place = stored(script, X)
    script.steps(script.start_upgrade())
    script.steps(script.start_upgrade())
    script.ask(("config",))
    script.report()
    script.heading("each client at a store of version 2")
    for client in (script.start_backup(TWO, "b", 7), script.start_restore(place), script.start_list(), script.start_forget(place),
                   script.start_keep(1, 1), script.start_prune(), script.start_check()):
        script.steps(client)
    script.report()
    plays(script, "upgrades of clients that know version 1 alone, at a store of version 1 and at one of version 2",
          "old start upgrade\nfinish 0\nold start upgrade\nfinish 1\nstart upgrade\nfinish 2\nreport\nold start upgrade\nfinish 3\nreport\n")
    script.heading("a snapshot of version 2 at a store of version 1")
    script.fresh()
    later = snapshot_text("a", 1, 1, name_of(tree_text([])), 2)
    script.lay("snapshot", name_of(later), later)
    for client in (script.start_restore(name_of(later)), script.start_list(), script.start_keep(1, 1), script.start_prune(),
                   script.start_check()):
        script.steps(client)
    script.report()


def interrupted(script):
    """An upgrade whose lock is removed, that crashes, or whose device fails, at each of its requests; a backup behind it."""
    for steps in range(1, REQUESTS):
        for text, crashes in (("whose lock is removed", False), ("that crashes, and then its lock is removed,", True)):
            script.heading(f"an upgrade {text} after {steps} requests")
            script.fresh()
            client = script.start_upgrade()
            for _ in range(steps):
                script.step(client)
            if crashes:
                script.crash(client)
            script.unlock_token(1)
            script.steps(client)
            script.late(client)
            script.steps(script.start_backup(X))
            script.ask(("config",))
            script.report()
    for word in ("read", "kept read", "unapplied", "applied"):
        for steps in range(REQUESTS):
            script.heading(f"an upgrade that meets a failure, {word}, at request {steps + 1}")
            script.fresh()
            client = script.start_upgrade()
            for _ in range(steps):
                script.step(client)
            script.fault_read(client, word)
            script.steps(client)
            script.steps(script.start_backup(X))
            script.ask(("config",))
            script.report()


def beside(script):
    """An upgrade and other clients."""
    for exclusive in (False, True):
        script.heading("an upgrade beside " + ("an exclusive lock" if exclusive else "a shared one"))
        script.fresh()
        under(script, exclusive=exclusive)
        script.steps(script.start_upgrade())
        script.ask(("unlock", 1))
        script.steps(script.start_upgrade())
        script.report()
    script.heading("a backup that took its ticket before an upgrade, and its lock after it")
    script.fresh()
    backup = script.start_backup(X)
    script.step(backup)
    script.steps(script.start_upgrade())
    script.steps(backup)
    script.report()
    script.heading("a backup whose lock was removed for an upgrade, and whose snapshot comes late")
    script.fresh()
    backup = script.start_backup(X)
    script.until(backup, "put-snapshot")
    upgrade = script.start_upgrade()
    script.steps(upgrade)
    script.unlock_token(1)
    script.steps(script.start_upgrade())
    script.steps(backup)
    script.late(backup)
    script.report()
    script.heading("an upgrade that comes once more, late")
    script.fresh()
    place = stored(script, X)
    upgrade = script.start_upgrade()
    for _ in range(REQUESTS - 1):
        script.step(upgrade)
    script.late(upgrade)
    script.steps(upgrade)
    script.late(upgrade)
    restored(script, place, True)
    script.report()


ALL = [over_replies, asked, failing, at_a_store, interrupted, beside]
