"""A power cut in the middle of a round: what it may leave is judged, and the store goes on from one of these images."""
import os
import shutil
from pathlib import Path

from cuts.disk import File, Folder
from cuts.judging import Judge, laid

# So many images are looked at for each cut, about.
IMAGES = 1000


class Sampled(Judge):
    """Judges what a cut may leave after some of the calls only."""

    part = 1.0

    def judges(self, where, is_answer):
        if self.chance.random() < self.part:
            super().judges(where, is_answer)


class Recorded:
    """What a judge knows of a machine."""

    def __init__(self, campaign, chance):
        self.top, self.disk, self.store = campaign.top, campaign.store.disk, campaign.store.store
        self.seed, self.sources = chance.random(), {}


def laid_before(judge, path, root):
    """The model of the disk has this folder, on which all lasts."""
    judge.disk.gives((path, Folder()))
    for entry in sorted(os.scandir(root), key=lambda entry: entry.name):
        if entry.is_dir():
            laid_before(judge, f"{path}/{entry.name}", entry.path)
        else:
            judge.disk.gives((f"{path}/{entry.name}", File(Path(entry.path).read_bytes())))


def judge_before(campaign, chance):
    """A judge of the store as it was before the round, with all that was there acknowledged."""
    before = campaign.top / "before"
    judge = Sampled(Recorded(campaign, chance), 2)
    laid_before(judge, str(campaign.store.store), before)
    judge.disk.all_lasts()
    judge.is_made, judge.ledgers, judge.configs = True, {(before / "ledger").read_bytes()}, {(before / "config").read_bytes()}
    for kind, pattern in enumerate(("data/??/*", "index/*", "snapshots/*")):
        for path in before.glob(pattern):
            judge.answers.objects[bytes([kind]), path.name] = True
    judge.answers.stored = {path.name for path in before.glob("snapshots/*")}
    judge.answers.tokens = set(campaign.given_before)
    return judge


def begins_recorded(campaign):
    """Keeps a copy of the store as it is, and records the calls of its next server."""
    campaign.store.kills()
    shutil.rmtree(campaign.top / "before", ignore_errors=True)
    shutil.copytree(campaign.store.store, campaign.top / "before")
    campaign.given_before = campaign.tokens.now()
    campaign.store.serves_recorded()


def goes_on_behind_cut(campaign, played, chance):
    """Judges what a cut may leave of the recorded round, and lets the store go on from an image; what is wrong."""
    campaign.store.kills()
    judge = judge_before(campaign, chance)
    count = sum(1 for _ in open(campaign.store.log, errors="replace"))
    judge.part = min(1.0, IMAGES / 10 / max(1, count / 4))
    judge.follows(campaign.store.log, 0)
    campaign.store.log.unlink()
    campaign.adds("images of power cuts", judge.found.images)
    good = [each for each in judge.kept if not each[0]]
    if good and not judge.found.faults:
        _, _, files, folders, _, token = chance.choice(good)
        played.is_laid = True
        campaign.adds("power cuts")
        lays(campaign, files, folders)
        campaign.tokens.keeps(token)
    else:
        campaign.adds("power cuts behind which nothing was kept")
    campaign.store.serves()
    return [f"a power cut: {judge.found.first}, in all {dict(judge.found.faults.most_common(4))}"] if judge.found.faults else []


def lays(campaign, files, folders):
    """The store is this image. A snapshot that was stored or forgotten behind the cut may be gone, or there."""
    image = campaign.top / "image"
    laid(image, files, folders)
    shutil.rmtree(campaign.store.store)
    shutil.copytree(image / "store", campaign.store.store)
    shutil.rmtree(image)
    campaign.history.goes_on_with({path.name for path in (campaign.store.store / "snapshots").iterdir()})
